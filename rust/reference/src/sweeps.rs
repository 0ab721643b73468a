//! Filling by full sweeps, on flags alone: how many sweeps it takes, how many cells come back along each axis, how many are left.
//!
//! The sweeps go over axis 1, 2, 3, 1, 2, 3 and so on. Each goes through all lines of its axis by the number of their first cell and
//! fills every line that misses one or two cells at that moment. [`fill`](crate::fill()) takes its own ways, and its answer does not
//! depend on this order; the number of sweeps does.

use crate::Shape;
use crate::fill::count;
use crate::shape::Line;

/// What came of full sweeps.
#[derive(Clone, Copy, Debug, PartialEq, Eq)]
pub struct Sweeps {
    /// How many there were, with the three at the end that fill nothing.
    pub number: usize,
    /// The cells filled along each axis.
    pub filled: [usize; 3],
    /// The cells left.
    pub left: usize,
}

/// Sweeps until three in succession fill nothing.
pub fn full_sweeps(shape: Shape, flags: &[u8]) -> Sweeps {
    let mut missing: Vec<bool> = flags.iter().map(|&flag| flag == 1).collect();
    let lines = [1, 2, 3].map(|axis| shape.lines(axis).collect::<Vec<_>>());
    let (mut number, mut idle) = (0, 0);
    let mut filled = [0; 3];
    while idle < 3 {
        let axis = number % 3;
        let cells = sweep(&lines[axis], &mut missing);
        filled[axis] += cells;
        idle = if cells == 0 { idle + 1 } else { 0 };
        number += 1;
    }
    Sweeps {
        number,
        filled,
        left: missing.iter().filter(|&&missing| missing).count(),
    }
}

/// One sweep over these lines; gives how many cells it fills.
fn sweep(lines: &[Line], missing: &mut [bool]) -> usize {
    let mut filled = 0;
    for line in lines {
        let holes = count(*line, missing);
        if (1..=2).contains(&holes) {
            line.cells().for_each(|cell| missing[cell] = false);
            filled += holes;
        }
    }
    filled
}

#[cfg(test)]
mod tests {
    use super::*;
    use crate::fill::largest_stopping_set;
    use crate::random::Random;

    #[test]
    fn few_sweeps() {
        let shape = Shape::new(3, 3, 3, 1);
        // The cells lost; the sweeps, the cells filled along each axis, the cells left.
        for (lost, number, filled, left) in [
            (vec![], 3, [0, 0, 0], 0),
            (vec![13], 4, [1, 0, 0], 0),
            // A line of axis 1 by itself: axis 2 fills it.
            (vec![0, 1, 2], 5, [0, 3, 0], 0),
            // A plane across axis 3 takes the third sweep.
            ((0..9).collect(), 6, [0, 0, 9], 0),
            // All but one cell: its row, then its plane, then the cube.
            ((1..27).collect(), 6, [2, 6, 18], 0),
            ((0..27).collect(), 3, [0, 0, 0], 27),
        ] {
            let mut flags = [0; 27];
            lost.iter().for_each(|&cell: &usize| flags[cell] = 1);
            let expected = Sweeps {
                number,
                filled,
                left,
            };
            assert_eq!(full_sweeps(shape, &flags), expected, "{lost:?}");
        }
    }

    #[test]
    fn what_is_left_is_the_largest_stopping_set() {
        let mut random = Random::new(4);
        let mut seen = [0; 2];
        for _ in 0..2_000 {
            let [l1, l2, l3] = [0; 3].map(|_| random.among(3..=7));
            let shape = Shape::new(l1, l2, l3, 1);
            let percent = random.among(0..=100);
            let missing: Vec<bool> = (0..shape.cells()).map(|_| random.chance(percent)).collect();
            let flags: Vec<u8> = missing.iter().map(|&missing| u8::from(missing)).collect();
            let Sweeps { filled, left, .. } = full_sweeps(shape, &flags);
            let number = |set: &[bool]| set.iter().filter(|&&cell| cell).count();
            assert_eq!(left, number(&largest_stopping_set(shape, &missing)));
            assert_eq!(filled.iter().sum::<usize>(), number(&missing) - left);
            seen[usize::from(left > 0)] += 1;
        }
        assert!(seen.iter().all(|&count| count > 300), "{seen:?}");
    }
}
