//! Shapes, cells and lines of a cube, and what makes a line right.

use crate::field::{pow, products};
use crate::pack::COUNT;

/// The largest cube, in bytes.
const MOST_BYTES: u64 = 268_435_456;

/// Three lengths and the bytes of a cell.
#[derive(Clone, Copy, Debug, PartialEq, Eq)]
pub struct Shape {
    pub lengths: [usize; 3],
    pub w: usize,
}

/// The cells `first`, `first + step`, and so on: `length` of them.
#[derive(Clone, Copy, Debug, PartialEq, Eq)]
pub struct Line {
    pub first: usize,
    pub step: usize,
    pub length: usize,
}

impl Line {
    /// The cell at place `i`.
    pub fn cell(self, i: usize) -> usize {
        assert!(i < self.length);
        self.first + i * self.step
    }

    /// All its cells, in order.
    pub fn cells(self) -> impl Iterator<Item = usize> {
        (0..self.length).map(move |i| self.cell(i))
    }
}

impl Shape {
    pub fn new(l1: usize, l2: usize, l3: usize, w: usize) -> Shape {
        Shape {
            lengths: [l1, l2, l3],
            w,
        }
    }

    /// Refusals 1, 2 and 3, with 1 also for an axis number, where the call takes one.
    pub fn check(self, axis: Option<usize>) -> Result<(), u8> {
        if self.lengths.iter().any(|l| !(3..=255).contains(l)) {
            return Err(1);
        }
        if axis.is_some_and(|axis| !(1..=3).contains(&axis)) {
            return Err(1);
        }
        if !(1..=1024).contains(&self.w) {
            return Err(2);
        }
        if self.w as u64 * self.cells() as u64 > MOST_BYTES {
            return Err(3);
        }
        Ok(())
    }

    /// Refusals 1, 2, 3, and 10 where a data string has no room for the file's length.
    pub fn check_room(self) -> Result<(), u8> {
        self.check(None)?;
        if self.capacity() < COUNT {
            return Err(10);
        }
        Ok(())
    }

    pub fn cells(self) -> usize {
        self.lengths.iter().product()
    }

    /// The bytes of a cube.
    pub fn cube_bytes(self) -> usize {
        self.w * self.cells()
    }

    /// The bytes of a data string.
    pub fn capacity(self) -> usize {
        self.w * self.number_of_data_cells()
    }

    pub fn number_of_data_cells(self) -> usize {
        self.lengths.iter().map(|l| l - 2).product()
    }

    /// The most bytes of a file: what the data string has beside the file's length.
    pub fn file_bytes(self) -> usize {
        self.capacity() - COUNT
    }

    /// The bytes of a packet: three coordinates and the cell.
    pub fn packet_bytes(self) -> usize {
        3 + self.w
    }

    /// The bytes of a written pack that has every cell.
    pub fn pack_bytes(self) -> usize {
        17 + self.cells() * self.packet_bytes()
    }

    /// The number of cell (a, b, c).
    pub fn cell(self, [a, b, c]: [usize; 3]) -> usize {
        a + self.lengths[0] * (b + self.lengths[1] * c)
    }

    /// The coordinates of a cell.
    pub fn coordinates(self, cell: usize) -> [usize; 3] {
        let [l1, l2, _] = self.lengths;
        [cell % l1, cell / l1 % l2, cell / l1 / l2]
    }

    /// Whether the cell holds data, and not parity.
    pub fn is_data(self, cell: usize) -> bool {
        let place = self.coordinates(cell);
        (0..3).all(|axis| place[axis] < self.lengths[axis] - 2)
    }

    /// The data cells, in cell order.
    pub fn data_cells(self) -> impl Iterator<Item = usize> {
        (0..self.cells()).filter(move |&cell| self.is_data(cell))
    }

    /// The line along the axis (1, 2 or 3) through a cell.
    pub fn line_through(self, axis: usize, cell: usize) -> Line {
        let mut place = self.coordinates(cell);
        place[axis - 1] = 0;
        let first = self.cell(place);
        place[axis - 1] = 1;
        Line {
            first,
            step: self.cell(place) - first,
            length: self.lengths[axis - 1],
        }
    }

    /// All lines along the axis (1, 2 or 3), by the number of their first cell.
    pub fn lines(self, axis: usize) -> impl Iterator<Item = Line> {
        (0..self.cells())
            .filter(move |&cell| self.coordinates(cell)[axis - 1] == 0)
            .map(move |cell| self.line_through(axis, cell))
    }

    /// All lines of all axes.
    pub fn all_lines(self) -> impl Iterator<Item = Line> {
        (1..=3).flat_map(move |axis| self.lines(axis))
    }

    /// Where the bytes of a cell stand.
    pub fn bytes(self, cell: usize) -> std::ops::Range<usize> {
        cell * self.w..(cell + 1) * self.w
    }

    /// The first and the second sum of a line in each layer: W bytes each.
    pub fn sums(self, cube: &[u8], line: Line) -> [Vec<u8>; 2] {
        let mut sums = [vec![0; self.w], vec![0; self.w]];
        for (i, cell) in line.cells().enumerate() {
            let times = products(pow(i));
            for (w, &byte) in cube[self.bytes(cell)].iter().enumerate() {
                sums[0][w] ^= byte;
                sums[1][w] ^= times[usize::from(byte)];
            }
        }
        sums
    }

    /// Whether the line is right in every layer.
    pub fn is_right(self, cube: &[u8], line: Line) -> bool {
        self.sums(cube, line).iter().flatten().all(|&sum| sum == 0)
    }

    /// Whether every line of every axis is right in every layer.
    pub fn is_code_cube(self, cube: &[u8]) -> bool {
        self.all_lines().all(|line| self.is_right(cube, line))
    }
}

#[cfg(test)]
mod tests {
    use super::*;

    #[test]
    fn right_lines_of_document_01() {
        let line = Line {
            first: 0,
            step: 1,
            length: 3,
        };
        let shape = Shape::new(3, 3, 3, 1);
        assert!(shape.is_right(&[0x02, 0x03, 0x01], line));
        assert!(shape.is_right(&[0x01, 0xE0, 0xE1], line));
        assert!(!shape.is_right(&[0x02, 0x03, 0x00], line));
        // Only the second sum is wrong.
        assert!(!shape.is_right(&[0x02, 0x02, 0x00], line));
    }

    #[test]
    fn checks_in_order() {
        let huge = usize::MAX;
        for (l1, l2, l3, w, answer) in [
            (2, 3, 3, 0, Err(1)),
            (3, 256, 3, 1, Err(1)),
            (huge, huge, huge, huge, Err(1)),
            (3, 3, 3, 0, Err(2)),
            (255, 255, 255, 1025, Err(2)),
            (255, 255, 255, 17, Err(3)),
            (255, 255, 65, 1017, Err(3)),
            (255, 255, 255, 16, Ok(())),
            (128, 128, 16, 1024, Ok(())),
        ] {
            assert_eq!(Shape::new(l1, l2, l3, w).check(None), answer);
        }
        assert_eq!(Shape::new(3, 3, 3, 0).check(Some(4)), Err(1));
    }

    #[test]
    fn lines_cover_every_cell_once_an_axis() {
        let shape = Shape::new(3, 5, 4, 1);
        for axis in 1..=3 {
            let mut cells: Vec<usize> = shape.lines(axis).flat_map(Line::cells).collect();
            for line in shape.lines(axis) {
                let places: Vec<_> = line.cells().map(|c| shape.coordinates(c)).collect();
                for (i, place) in places.iter().enumerate() {
                    assert_eq!(place[axis - 1], i);
                    for other in (0..3).filter(|&other| other != axis - 1) {
                        assert_eq!(place[other], places[0][other]);
                    }
                }
            }
            cells.sort();
            assert_eq!(cells, (0..60).collect::<Vec<usize>>());
        }
    }
}
