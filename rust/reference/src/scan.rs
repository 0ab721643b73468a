//! The count of holes on a line that ends at the third: from the list of all its holes.

use crate::Shape;

/// What a scan of a line answers.
#[derive(Clone, Copy, Debug, PartialEq, Eq)]
pub struct Scan {
    /// The holes, at most three.
    pub holes: usize,
    /// The places up to and with the third hole, or all.
    pub read: usize,
}

/// Scans the line with this number along an axis (1, 2 or 3).
pub fn scan(shape: Shape, axis: usize, line: usize, flags: &[u8]) -> Result<Scan, u8> {
    shape.check(Some(axis))?;
    let line = shape.lines(axis).nth(line).ok_or(1)?;
    if flags.len() != shape.cells() {
        return Err(4);
    }
    let places: Vec<bool> = line.cells().map(|cell| flags[cell] == 1).collect();
    Ok(scanned(&places))
}

/// What a scan of these places answers; a hole is a place that is true.
pub fn scanned(places: &[bool]) -> Scan {
    let holes: Vec<usize> = (0..places.len()).filter(|&i| places[i]).collect();
    match holes.get(2) {
        Some(third) => Scan {
            holes: 3,
            read: third + 1,
        },
        None => Scan {
            holes: holes.len(),
            read: places.len(),
        },
    }
}

#[cfg(test)]
mod tests {
    use super::*;

    #[test]
    fn lines_of_four() {
        // The holes; how many are found and how many places read.
        for (holes, found, read) in [
            (&[][..], 0, 4),
            (&[3], 1, 4),
            (&[0, 3], 2, 4),
            (&[0, 1, 2], 3, 3),
            (&[0, 1, 3], 3, 4),
            (&[1, 2, 3], 3, 4),
            (&[0, 1, 2, 3], 3, 3),
        ] {
            let places = [0, 1, 2, 3].map(|i: usize| holes.contains(&i));
            let expected = Scan { holes: found, read };
            assert_eq!(scanned(&places), expected, "{holes:?}");
        }
    }
}
