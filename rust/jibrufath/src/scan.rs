//! The erasures of one line, counted as filling counts them.

use crate::ffi::jibrufath_scan;
use crate::refusal::answer;
use crate::{Refusal, Shape};

/// What [`scan`] found on a line.
#[derive(Clone, Copy, Debug, PartialEq, Eq, Hash)]
pub struct ScanCounts {
    /// How many missing cells were found, at most three.
    pub erasures: usize,
    /// How many places were read: up to and with the third missing cell, or the whole line.
    pub read: usize,
}

/// Counts the missing cells of a line up to the third: with none a line is known, with one or two it is filled, with three it
/// forces nothing. Filling decides by this count.
///
/// `line` is the number of the line along the axis, from 0, lines counted by the number of their first cell. `flags` has a byte
/// for each cell; a cell whose flag is 1 is missing, and no flag is refused: flags behind the places read do not matter.
///
/// # Errors
///
/// In this order: [`Refusal::Dimension`] (the axis, or a length), [`Refusal::PacketSize`], [`Refusal::CubeSize`],
/// [`Refusal::Dimension`] (no such line), [`Refusal::SliceLength`].
///
/// ```
/// use jibrufath::{Refusal, ScanCounts, Shape, scan};
///
/// // Line 0 of axis 1 misses its places 0, 2 and 3, and of axis 2 only its first.
/// let shape = Shape::new(5, 4, 3, 16);
/// let mut flags = [0; 60];
/// for cell in [0, 2, 3] {
///     flags[cell] = 1;
/// }
/// assert_eq!(scan(shape, 1, 0, &flags), Ok(ScanCounts { erasures: 3, read: 4 }));
/// assert_eq!(scan(shape, 2, 0, &flags), Ok(ScanCounts { erasures: 1, read: 4 }));
/// assert_eq!(scan(shape, 1, 12, &flags), Err(Refusal::Dimension));
/// ```
pub fn scan(shape: Shape, axis: usize, line: usize, flags: &[u8]) -> Result<ScanCounts, Refusal> {
    let mut counts = [0; 2];
    answer(call(shape, axis, line, flags, &mut counts))?;
    let [erasures, read] = counts.map(|count| count as usize);
    Ok(ScanCounts { erasures, read })
}

fn call(shape: Shape, axis: usize, line: usize, flags: &[u8], counts: &mut [u64; 2]) -> u64 {
    let [l1, l2, l3, w] = shape.numbers();
    // SAFETY: the slice and the counts are borrowed for the call, which is proved to stay inside them for any numbers.
    unsafe {
        jibrufath_scan(
            flags.as_ptr(),
            flags.len() as u64,
            l1,
            l2,
            l3,
            w,
            axis as u64,
            line as u64,
            counts,
        )
    }
}

#[cfg(test)]
mod tests {
    use super::*;

    #[test]
    fn both_counts_are_written_by_every_call() {
        let shape = Shape::new(3, 4, 5, 1);
        for (flags, axis, line, expected) in [
            (&[1; 60][..], 3, 11, (0, [3, 3])),
            (&[0; 60], 2, 14, (0, [0, 4])),
            (&[1; 60], 2, 15, (1, [0, 0])),
            (&[1; 60], 0, 0, (1, [0, 0])),
            (&[1; 59], 1, 0, (4, [0, 0])),
        ] {
            let mut counts = [u64::MAX; 2];
            let word = call(shape, axis, line, flags, &mut counts);
            assert_eq!((word, counts), expected);
        }
    }
}
