//! The one code cube that has a given data string, the data string of a cube, and whether a cube is a code cube.

use crate::field::{pow, products};
use crate::linear::{Solutions, solve};
use crate::{CELLS_BY_EQUATIONS, Shape};

/// Writes the code cube that has the data string.
pub fn encode(shape: Shape, data: &[u8], cube: &mut [u8]) -> Result<(), u8> {
    check(shape, data.len(), cube.len())?;
    if shape.cells() <= CELLS_BY_EQUATIONS {
        by_equations(shape, data, cube);
    } else {
        by_lines(shape, data, cube);
    }
    Ok(())
}

/// Reads the data string of a cube, whether or not that is a code cube.
pub fn extract(shape: Shape, cube: &[u8], data: &mut [u8]) -> Result<(), u8> {
    check(shape, data.len(), cube.len())?;
    for (cell, packet) in shape.data_cells().zip(data.chunks_mut(shape.w)) {
        packet.copy_from_slice(&cube[shape.bytes(cell)]);
    }
    Ok(())
}

/// Whether every line of the cube is right in every layer.
pub fn is_code_cube(shape: Shape, cube: &[u8]) -> Result<bool, u8> {
    shape.check(None)?;
    if cube.len() != shape.cube_bytes() {
        return Err(4);
    }
    Ok(shape.is_code_cube(cube))
}

fn check(shape: Shape, data_len: usize, cube_len: usize) -> Result<(), u8> {
    shape.check(None)?;
    if data_len != shape.capacity() || cube_len != shape.cube_bytes() {
        return Err(4);
    }
    Ok(())
}

fn place_data(shape: Shape, data: &[u8], cube: &mut [u8]) {
    for (cell, packet) in shape.data_cells().zip(data.chunks(shape.w)) {
        cube[shape.bytes(cell)].copy_from_slice(packet);
    }
}

/// All parity cells at once, as the unknowns of the equations of all lines.
fn by_equations(shape: Shape, data: &[u8], cube: &mut [u8]) {
    place_data(shape, data, cube);
    let unknowns: Vec<usize> = (0..shape.cells()).filter(|&c| !shape.is_data(c)).collect();
    let equations = line_equations(shape, cube, &unknowns, shape.all_lines());
    let Solutions::One(values) = solve(equations, unknowns.len()) else {
        panic!("exactly one code cube has a given data string");
    };
    for (&cell, value) in unknowns.iter().zip(values) {
        cube[shape.bytes(cell)].copy_from_slice(&value);
    }
}

/// The two equations of each line, in the bytes of the unknown cells; one right-hand side a layer.
pub(crate) fn line_equations(
    shape: Shape,
    cube: &[u8],
    unknowns: &[usize],
    lines: impl Iterator<Item = crate::shape::Line>,
) -> Vec<Vec<u8>> {
    let mut column = vec![None; shape.cells()];
    for (i, &cell) in unknowns.iter().enumerate() {
        column[cell] = Some(i);
    }
    let mut rows = Vec::new();
    for line in lines {
        for factors in [0, 1] {
            let mut row = vec![0; unknowns.len() + shape.w];
            for (i, cell) in line.cells().enumerate() {
                let factor = pow(factors * i);
                if let Some(column) = column[cell] {
                    row[column] = factor;
                } else {
                    let times = products(factor);
                    for (w, &byte) in cube[shape.bytes(cell)].iter().enumerate() {
                        row[unknowns.len() + w] ^= times[usize::from(byte)];
                    }
                }
            }
            rows.push(row);
        }
    }
    rows
}

/// Line by line, axis 3 first: each parity byte is the sum over the data of fixed multiples.
fn by_lines(shape: Shape, data: &[u8], cube: &mut [u8]) {
    place_data(shape, data, cube);
    // Lines along 3 through data cells, then lines along 2 with a below L1 - 2 and any c, then all along 1.
    let mut done = [false; 3];
    for axis in [3, 2, 1] {
        let length = shape.lengths[axis - 1];
        let multiples = parity_multiples(length);
        for line in shape.lines(axis) {
            let place = shape.coordinates(line.first);
            let holds_data = (0..3).all(|other| {
                other == axis - 1 || done[other] || place[other] < shape.lengths[other] - 2
            });
            if !holds_data {
                continue;
            }
            for parity in 0..2 {
                let mut packet = vec![0; shape.w];
                for (i, multiple) in multiples.iter().enumerate() {
                    let times = products(multiple[parity]);
                    let from = &cube[shape.bytes(line.cell(i))];
                    for (sum, &byte) in packet.iter_mut().zip(from) {
                        *sum ^= times[usize::from(byte)];
                    }
                }
                cube[shape.bytes(line.cell(length - 2 + parity))].copy_from_slice(&packet);
            }
        }
        done[axis - 1] = true;
    }
}

/// For each data place of a line: the two parity bytes if that place holds 1 and the other data places 0.
fn parity_multiples(length: usize) -> Vec<[u8; 2]> {
    let (p, q) = (length - 2, length - 1);
    (0..length - 2)
        .map(|i| {
            let equations = vec![vec![1, 1, 1], vec![pow(p), pow(q), pow(i)]];
            match solve(equations, 2) {
                Solutions::One(values) => [values[0][0], values[1][0]],
                _ => panic!("two holes of a line are forced"),
            }
        })
        .collect()
}

#[cfg(test)]
mod tests {
    use super::*;
    use crate::random::Random;

    #[test]
    fn cube_of_document_01() {
        let mut cube = [0xAA; 27];
        encode(Shape::new(3, 3, 3, 1), &[0x08], &mut cube).unwrap();
        #[rustfmt::skip]
        assert_eq!(cube, [
            0x08, 0x0C, 0x04,  0x0C, 0x0A, 0x06,  0x04, 0x06, 0x02,
            0x0C, 0x0A, 0x06,  0x0A, 0x0F, 0x05,  0x06, 0x05, 0x03,
            0x04, 0x06, 0x02,  0x06, 0x05, 0x03,  0x02, 0x03, 0x01,
        ]);
    }

    #[test]
    fn both_ways_give_the_same_code_cube() {
        let mut random = Random::new(1);
        for _ in 0..60 {
            let [l1, l2, l3, w] = [6, 5, 5, 4].map(|most| random.among(3..=most));
            let shape = Shape::new(l1, l2, l3, w);
            let data = random.bytes(shape.capacity());
            let mut by_solving = random.bytes(shape.cube_bytes());
            let mut line_by_line = random.bytes(shape.cube_bytes());
            by_equations(shape, &data, &mut by_solving);
            by_lines(shape, &data, &mut line_by_line);
            assert_eq!(by_solving, line_by_line, "{shape:?}");
            assert!(shape.is_code_cube(&by_solving));
            let mut back = vec![0; data.len()];
            extract(shape, &by_solving, &mut back).unwrap();
            assert_eq!(back, data);
        }
    }

    #[test]
    fn long_lines_are_right() {
        let mut random = Random::new(2);
        for (l1, l2, l3, w) in [
            (255, 4, 3, 1),
            (3, 255, 3, 2),
            (4, 3, 255, 1),
            (254, 3, 20, 1),
        ] {
            let shape = Shape::new(l1, l2, l3, w);
            let data = random.bytes(shape.capacity());
            let mut cube = random.bytes(shape.cube_bytes());
            encode(shape, &data, &mut cube).unwrap();
            assert!(shape.is_code_cube(&cube), "{shape:?}");
        }
    }
}
