//! Losses by a pattern, as the flags of a shape.

use jibrufath::Shape;
use reference::random::Random;

use crate::twin;

/// Losses that all come back, but only in many sweeps.
pub struct ManySweeps {
    pub name: &'static str,
    /// The flags of a shape; its lengths are at least [`SHORTEST`].
    pub flags: fn(Shape) -> Vec<u8>,
    /// How many full sweeps fill a cube of this length along all three axes, with the three at the end that fill nothing.
    pub sweeps: fn(usize) -> usize,
}

/// The patterns that take the most sweeps known: some hundreds, and some hundred thousands, in the longest cube.
pub const MANY_SWEEPS: [ManySweeps; 2] = [
    ManySweeps {
        name: "diagonal band",
        flags: diagonal_band,
        sweeps: |length| (3 * length - 1) / 2,
    },
    ManySweeps {
        name: "staircases",
        flags: staircases,
        sweeps: |length| 3 * (steps(length) - 2).pow(2) - 2,
    },
];

/// A staircase needs so many rows.
pub const SHORTEST: usize = 7;

/// The cells of a row in a band, which stands across a plane as a staircase does: row b misses columns b to b + 3, so that column a
/// misses rows a - 3 to a.
///
/// Where the rows before b and the columns before b + 2 are filled, row b misses two cells, in columns b + 2 and b + 3. Filling it
/// leaves two in column b + 2, in rows b + 1 and b + 2; filling these leaves two in row b + 1, and so on: one row and one column in
/// three sweeps. With three cells a row it would be two of each; with five nothing would begin.
const BAND: usize = 4;

/// Losses of single cells, `lost` in `of` of them.
pub fn at_random(random: &mut Random, shape: Shape, lost: usize, of: usize) -> Vec<u8> {
    let cells = 0..twin(shape).cells();
    cells
        .map(|_| u8::from(random.among(1..=of) <= lost))
        .collect()
}

/// The loss of so many cells in succession as two planes have, from a third of the cube on.
pub fn in_succession(shape: Shape) -> Vec<u8> {
    let cells = twin(shape).cells();
    let lost = cells / 3..cells / 3 + 2 * shape.l1 * shape.l2;
    (0..cells)
        .map(|cell| u8::from(lost.contains(&cell)))
        .collect()
}

/// The same band in every plane: all are filled at once, from both ends.
fn diagonal_band(shape: Shape) -> Vec<u8> {
    let mut flags = vec![0; twin(shape).cells()];
    for plane in 0..shape.l3 {
        for row in 0..shape.l2 {
            for column in row..shape.l1.min(row + BAND) {
                flags[twin(shape).cell([column, row, plane])] = 1;
            }
        }
    }
    flags
}

/// The rows and columns of a staircase. Its planes begin three rows apart, and each at a row of its own, so they are no multiple of 3.
fn steps(length: usize) -> usize {
    if length % 3 == 0 { length - 1 } else { length }
}

/// A band in every plane, filled once round from one end to the other, one plane after another.
///
/// The band is closed to a ring, in which no row and no column misses fewer than four cells. In each plane the ring is cut before another
/// row, the start: columns start and start + 1 keep only their rows before it, the columns after these only their rows from it on. So
/// row start misses two cells of the band, and the staircase goes from there round to row start - 1.
///
/// Links let the planes wait for each other. Row start misses one cell more, the link, in the column past the band, so that it is not
/// filled by itself; in the first plane alone it has none. In the plane before, that row is the third from the end and misses the link in
/// place of its third cell: the staircase fills it with one of its last steps. The line of axis 3 through these two cells misses one more,
/// in the last plane, so that it is filled as the one plane ends, and the next begins.
///
/// Every other line of axis 3 that misses a cell misses one in nearly all planes: it is not filled before the last two planes are left,
/// which are whole rings.
///
/// No losses take more than twice as many sweeps. A line is filled only once; and after two sweeps that fill nothing the third, along
/// the axis that was filled last, fills nothing either. So of two sweeps, but for the last three, one fills a line.
fn staircases(shape: Shape) -> Vec<u8> {
    let steps = steps(shape.l1.min(shape.l2));
    assert!(steps >= SHORTEST, "a staircase in {shape:?}");
    let planes = shape.l3.min(steps);
    // The cell of a row that is so many columns past the diagonal, round the ring.
    let cell = |row: usize, past: usize, plane| {
        twin(shape).cell([(row + past) % steps, row % steps, plane])
    };
    let mut flags = vec![0; twin(shape).cells()];
    for plane in 0..planes {
        for row in 0..steps {
            (0..BAND).for_each(|past| flags[cell(row, past, plane)] = 1);
        }
    }
    for plane in 0..planes - 2 {
        let start = 3 * (planes - plane);
        let next_start = start - 3;
        let cut = [
            (start, 0),
            (start, 1),
            (start + 1, 0),
            (start - 1, 3),
            (next_start, 2),
        ];
        for (row, past) in cut {
            flags[cell(row, past, plane)] = 0;
        }
        for plane in [plane, plane + 1, planes - 1] {
            flags[cell(next_start, BAND, plane)] = 1;
        }
    }
    flags
}

#[cfg(test)]
mod tests {
    use super::*;
    use reference::{Sweeps, full_sweeps};

    /// What full sweeps make of a pattern, which leaves nothing.
    fn sweeps(pattern: &ManySweeps, shape: Shape) -> Sweeps {
        let flags = (pattern.flags)(shape);
        let sweeps = full_sweeps(twin(shape), &flags);
        let lost = flags.iter().filter(|&&flag| flag == 1).count();
        assert_eq!(sweeps.left, 0, "{}, {shape:?}", pattern.name);
        assert_eq!(sweeps.filled.iter().sum::<usize>(), lost);
        sweeps
    }

    #[test]
    fn sweeps_of_cubes() {
        for pattern in MANY_SWEEPS {
            for length in (SHORTEST..=24).chain([32]) {
                let number = sweeps(&pattern, Shape::new(length, length, length, 1)).number;
                assert_eq!(number, (pattern.sweeps)(length), "{}", pattern.name);
            }
        }
        let [band, staircases] = MANY_SWEEPS.map(|pattern| (pattern.sweeps)(255));
        assert_eq!([band, staircases], [382, 190_510]);
    }

    #[test]
    fn unequal_lengths_leave_nothing() {
        for pattern in MANY_SWEEPS {
            for l1 in SHORTEST..=12 {
                for l2 in SHORTEST..=12 {
                    for l3 in 3..=12 {
                        sweeps(&pattern, Shape::new(l1, l2, l3, 1));
                    }
                }
            }
        }
    }

    #[test]
    fn shares_lost() {
        let shape = Shape::new(100, 100, 100, 1);
        let lost = |flags: Vec<u8>| flags.iter().filter(|&&flag| flag == 1).count();
        assert_eq!(lost(in_succession(shape)), 20_000);
        assert_eq!(lost(diagonal_band(shape)), 39_400);
        assert_eq!(lost(staircases(shape)), 39_804);
        let at_random = lost(at_random(&mut Random::new(9), shape, 4, 100));
        assert!((39_000..41_000).contains(&at_random), "{at_random}");
    }
}
