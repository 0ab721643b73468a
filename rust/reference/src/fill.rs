//! Filling of missing cells, as document 01 defines it.
//!
//! K is the largest stopping set inside the missing cells. The unknowns are the missing cells outside K, the
//! equations those of the lines without a cell of K. Small cubes are solved as they stand, by elimination; on
//! larger ones a work list solves one line after another, and all these lines are checked at the end.

use std::collections::VecDeque;

use crate::encode::line_equations;
use crate::field::{inverse, mul, pow, products};
use crate::linear::{Solutions, solve};
use crate::shape::Line;
use crate::{CELLS_BY_EQUATIONS, Shape};

/// Fills the cube. The answer is the size of K.
pub fn fill(shape: Shape, cube: &mut [u8], flags: &mut [u8]) -> Result<usize, u8> {
    shape.check(None)?;
    if cube.len() != shape.cube_bytes() || flags.len() != shape.cells() {
        return Err(4);
    }
    if flags.iter().any(|&flag| flag > 2) {
        return Err(5);
    }
    let missing: Vec<bool> = flags.iter().map(|&flag| flag == 1).collect();
    for cell in 0..shape.cells() {
        if missing[cell] {
            cube[shape.bytes(cell)].fill(0);
        }
    }
    let filling = if shape.cells() <= CELLS_BY_EQUATIONS {
        by_equations(shape, cube, &missing)
    } else {
        by_work_list(shape, cube, &missing)
    };
    let Some((filled, stuck)) = filling else {
        return Err(13);
    };
    cube.copy_from_slice(&filled);
    // Known cells keep 0 or 2.
    for (flag, &stuck) in flags.iter_mut().zip(&stuck).filter(|(flag, _)| **flag == 1) {
        *flag = u8::from(stuck);
    }
    Ok(stuck.iter().filter(|&&stuck| stuck).count())
}

/// Whether the set meets every line in no cell or in at least three.
pub fn is_stopping_set(shape: Shape, set: &[bool]) -> bool {
    shape
        .all_lines()
        .all(|line| !(1..=2).contains(&count(line, set)))
}

/// The union of all stopping sets inside the given one. A cell on a line that meets the set in one or two cells is in
/// none of them; all such cells are taken away at once, until there is none.
pub fn largest_stopping_set(shape: Shape, missing: &[bool]) -> Vec<bool> {
    let mut set = missing.to_vec();
    loop {
        let mut rest = set.clone();
        for line in shape.all_lines() {
            if count(line, &set) < 3 {
                line.cells().for_each(|cell| rest[cell] = false);
            }
        }
        if rest == set {
            return set;
        }
        set = rest;
    }
}

/// How many cells of the line are in the set.
pub(crate) fn count(line: Line, set: &[bool]) -> usize {
    line.cells().filter(|&cell| set[cell]).count()
}

/// The filled cube and K; none where no filling exists. Missing cells are 00h before.
fn by_equations(shape: Shape, cube: &[u8], missing: &[bool]) -> Option<(Vec<u8>, Vec<bool>)> {
    let stuck = largest_stopping_set(shape, missing);
    let cells = 0..shape.cells();
    let unknowns: Vec<usize> = cells.filter(|&c| missing[c] && !stuck[c]).collect();
    let lines = shape.all_lines().filter(|&line| count(line, &stuck) == 0);
    let equations = line_equations(shape, cube, &unknowns, lines);
    match solve(equations, unknowns.len()) {
        Solutions::None => None,
        Solutions::Many => panic!("there is at most one filling"),
        Solutions::One(values) => {
            let mut filled = cube.to_vec();
            for (&cell, value) in unknowns.iter().zip(values) {
                filled[shape.bytes(cell)].copy_from_slice(&value);
            }
            Some((filled, stuck))
        }
    }
}

/// As `by_equations`, by another way.
fn by_work_list(shape: Shape, cube: &[u8], missing: &[bool]) -> Option<(Vec<u8>, Vec<bool>)> {
    let mut cube = cube.to_vec();
    let mut missing = missing.to_vec();
    let mut work: VecDeque<Line> = shape.all_lines().collect();
    while let Some(line) = work.pop_back() {
        let holes: Vec<usize> = (0..line.length)
            .filter(|&i| missing[line.cell(i)])
            .collect();
        if holes.is_empty() || holes.len() > 2 {
            continue;
        }
        force(shape, &mut cube, line, &holes);
        for &i in &holes {
            let cell = line.cell(i);
            missing[cell] = false;
            for axis in 1..=3 {
                work.push_front(shape.line_through(axis, cell));
            }
        }
    }
    shape
        .all_lines()
        .filter(|&line| count(line, &missing) == 0)
        .all(|line| shape.is_right(&cube, line))
        .then_some((cube, missing))
}

/// Gives the one or two holes of a line, which are 00h, the bytes that its sums force. One hole takes the first sum alone.
fn force(shape: Shape, cube: &mut [u8], line: Line, holes: &[usize]) {
    let [first, second] = shape.sums(cube, line);
    let [x, y] = [holes[0], holes[holes.len() - 1]];
    if x == y {
        cube[shape.bytes(line.cell(x))].copy_from_slice(&first);
        return;
    }
    // cx + cy = first and α^x cx + α^y cy = second: multiply the first by α^y and add.
    let scale = inverse(pow(x) ^ pow(y)).expect("the powers of two places differ");
    let [times, scale] = [products(pow(y)), products(scale)];
    for w in 0..shape.w {
        let cx = scale[usize::from(times[usize::from(first[w])] ^ second[w])];
        debug_assert_eq!(mul(pow(x), cx) ^ mul(pow(y), first[w] ^ cx), second[w]);
        cube[shape.bytes(line.cell(x))][w] = cx;
        cube[shape.bytes(line.cell(y))][w] = first[w] ^ cx;
    }
}

#[cfg(test)]
mod tests {
    use super::*;
    use crate::encode;
    use crate::random::Random;

    /// Document 01's 3 by 3 by 3 cube.
    fn first_cube() -> Vec<u8> {
        let mut cube = vec![0; 27];
        encode(Shape::new(3, 3, 3, 1), &[0x08], &mut cube).unwrap();
        cube
    }

    #[test]
    fn examples_of_document_01() {
        let shape = Shape::new(3, 3, 3, 1);

        let mut cube = vec![0xAA; 27];
        cube[26] = 0x01;
        let mut flags = [1; 27];
        flags[26] = 0;
        assert_eq!(fill(shape, &mut cube, &mut flags), Ok(0));
        assert_eq!((cube, flags), (first_cube(), [0; 27]));

        let (mut cube, mut flags) = ([0xAA; 27], [1; 27]);
        assert_eq!(fill(shape, &mut cube, &mut flags), Ok(27));
        assert_eq!((cube, flags), ([0; 27], [1; 27]));

        let mut cube = first_cube();
        cube[26] = 0x00;
        let mut flags = [0; 27];
        flags[0] = 1;
        let mut after = cube.clone();
        after[0] = 0;
        assert_eq!(fill(shape, &mut cube, &mut flags), Err(13));
        assert_eq!((cube, flags[0]), (after, 1));

        let wider = Shape::new(4, 4, 3, 1);
        let differ = |cell| {
            let [a, b, _] = wider.coordinates(cell);
            u8::from(a != b)
        };
        let mut flags: Vec<u8> = (0..48).map(differ).collect();
        assert_eq!(fill(wider, &mut [0; 48], &mut flags), Ok(36));
    }

    /// Flag 2 is known, whatever the cell holds, and is kept: with a filling, with cells left and without a filling.
    #[test]
    fn unsent_cells_are_known() {
        let shape = Shape::new(3, 3, 3, 1);
        let mut cube = vec![0xAA; 27];
        cube[26] = 0x01;
        let mut flags = [1; 27];
        flags[26] = 2;
        assert_eq!(fill(shape, &mut cube, &mut flags), Ok(0));
        assert_eq!((cube, flags[26]), (first_cube(), 2));
        assert_eq!(flags[..26], [0; 26]);

        // A right plane of 9 known cells beside 27 missing ones.
        let wider = Shape::new(4, 3, 3, 1);
        let plane = |cell: usize| (cell % 4 == 1).then(|| first_cube()[cell / 4]);
        let mut cube: Vec<u8> = (0..36).map(|cell| plane(cell).unwrap_or(0xAA)).collect();
        let before: Vec<u8> = (0..36)
            .map(|cell| 1 + u8::from(plane(cell).is_some()))
            .collect();
        let mut flags = before.clone();
        assert_eq!(fill(wider, &mut cube, &mut flags), Ok(27));
        assert_eq!(flags, before);
        assert!((0..36).all(|cell| cube[cell] == plane(cell).unwrap_or(0x00)));

        let mut cube = first_cube();
        cube[26] = 0x00;
        let mut flags = [2; 27];
        flags[0] = 1;
        assert_eq!(fill(shape, &mut cube, &mut flags), Err(13));
        assert_eq!((cube[0], flags[0], flags[26]), (0, 1, 2));

        flags[1] = 3;
        assert_eq!(fill(shape, &mut cube, &mut flags), Err(5));
    }

    #[test]
    fn both_ways_agree() {
        let mut random = Random::new(3);
        let mut answers = [0; 3];
        for case in 0..600 {
            let [l1, l2, l3, w] = [5, 5, 4, 3].map(|most| random.among(3..=most));
            let shape = Shape::new(l1, l2, l3, w);
            let data = random.bytes(shape.capacity());
            let mut cube = vec![0; shape.cube_bytes()];
            encode(shape, &data, &mut cube).unwrap();
            if case % 3 == 0 {
                let place = random.among(0..=cube.len() - 1);
                cube[place] ^= random.nonzero_byte();
            }
            let percent = random.among(0..=100);
            let missing: Vec<bool> = (0..shape.cells()).map(|_| random.chance(percent)).collect();
            for cell in 0..shape.cells() {
                if missing[cell] {
                    cube[shape.bytes(cell)].fill(0);
                }
            }
            let solved = by_equations(shape, &cube, &missing);
            assert_eq!(solved, by_work_list(shape, &cube, &missing), "{shape:?}");
            match solved {
                None => answers[0] += 1,
                Some((filled, stuck)) => {
                    assert!(is_stopping_set(shape, &stuck));
                    let left = stuck.iter().any(|&stuck| stuck);
                    assert!(left || shape.is_code_cube(&filled));
                    answers[1 + usize::from(left)] += 1;
                }
            }
        }
        assert!(answers.iter().all(|&count| count > 50), "{answers:?}");
    }
}
