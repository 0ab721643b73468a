//! What memory a pack's calls are lent.

use crate::ffi::jibrufath_needs;
use crate::refusal::answer;
use crate::{Refusal, Shape};

/// The shape in a pack, and the sizes of the memory that its calls are lent.
///
/// ```
/// use jibrufath::{Shape, needs, write};
///
/// let shape = Shape::new(5, 4, 3, 16);
/// let needs = needs(&write(shape, b"any file")?)?;
/// assert_eq!(needs.shape, shape);
/// assert_eq!([needs.cells, needs.cube_bytes, needs.capacity], [60, 960, 96]);
/// assert_eq!([needs.file_bytes, needs.pack_bytes, needs.used], [92, 1157, 6]);
/// # Ok::<(), jibrufath::Error>(())
/// ```
#[derive(Clone, Copy, Debug, PartialEq, Eq, Hash)]
#[non_exhaustive]
pub struct Needs {
    /// The shape in section 1.
    pub shape: Shape,
    /// The number of cells, which is the length of flags.
    pub cells: usize,
    /// The length of a cube.
    pub cube_bytes: usize,
    /// The length of a data string.
    pub capacity: usize,
    /// The most bytes of a file, which is the length of the receiver's file buffer.
    pub file_bytes: usize,
    /// The length of the pack that the writer writes: 12, the count of section 1, and 3 + W for each cell that is sent.
    pub pack_bytes: usize,
    /// The number of data cells in use: U with count 9, all data cells with count 5.
    pub used: usize,
}

impl Needs {
    /// All that the receiver is lent: a cube, flags and a file buffer.
    ///
    /// ```
    /// use jibrufath::needs;
    ///
    /// // 3 by 3 by 3 cells of 5 bytes, and nothing more: section 1 is enough.
    /// let needs = needs(&[5, 0, 0, 0, 3, 3, 3, 5, 0])?;
    /// assert_eq!(needs.receiver_bytes(), 135 + 27 + 1);
    /// # Ok::<(), jibrufath::Refusal>(())
    /// ```
    pub fn receiver_bytes(self) -> usize {
        self.cube_bytes + self.cells + self.file_bytes
    }
}

/// Reads section 1 of a pack, whatever stands behind it, and says what memory the pack's calls are lent.
///
/// # Errors
///
/// In the order in which section 1 is read: [`Refusal::Truncated`] (its count is cut), [`Refusal::HeaderCount`],
/// [`Refusal::Truncated`] (the section is cut), those of [`Shape::check`], [`Refusal::Capacity`] where a data string has no
/// room for the file's length, and [`Refusal::UsedCells`].
///
/// ```
/// use jibrufath::{Refusal, needs};
///
/// assert_eq!(needs(&[5, 0, 0, 0, 255, 255, 255, 17, 0]), Err(Refusal::CubeSize));
/// assert_eq!(needs(&[4, 0, 0, 0]), Err(Refusal::HeaderCount));
/// assert_eq!(needs(&[]), Err(Refusal::Truncated));
/// ```
pub fn needs(pack: &[u8]) -> Result<Needs, Refusal> {
    let mut places = [0; 16];
    answer(call(pack, &mut places))?;
    let [
        l1,
        l2,
        l3,
        w,
        cells,
        cube_bytes,
        capacity,
        file_bytes,
        pack_bytes,
        used,
        ..,
    ] = places.map(|place| place as usize);
    Ok(Needs {
        shape: Shape::new(l1, l2, l3, w),
        cells,
        cube_bytes,
        capacity,
        file_bytes,
        pack_bytes,
        used,
    })
}

fn call(pack: &[u8], places: &mut [u64; 16]) -> u64 {
    // SAFETY: the slice and the places are borrowed for the call, which is proved to stay inside them for any bytes.
    unsafe { jibrufath_needs(pack.as_ptr(), pack.len() as u64, places) }
}

#[cfg(test)]
mod tests {
    use super::*;
    use compare::KINDS;
    use reference::random::Random;
    use std::collections::BTreeMap;

    /// All 16 places, over garbage, are those of the independent program, and 0 with a refusal.
    fn compare_places(pack: &[u8]) -> u64 {
        let mut places = [u64::MAX; 16];
        let word = call(pack, &mut places);
        let expected = match reference::needs(pack) {
            Ok(needs) => (0, needs),
            Err(number) => (u64::from(number), [0; 16]),
        };
        assert_eq!((word, places), expected, "{pack:?}");
        word
    }

    #[test]
    fn packs_of_every_kind() {
        let mut random = Random::new(7001);
        let mut seen = BTreeMap::new();
        for case in 0..17_600 {
            let (_, make) = KINDS[case % KINDS.len()];
            *seen.entry(compare_places(&make(&mut random))).or_insert(0) += 1;
        }
        for word in [0, 1, 2, 3, 6, 7, 10, 19] {
            assert!(seen[&word] > 20, "{seen:?}");
        }
        assert_eq!(seen.len(), 8, "{seen:?}");
    }

    #[test]
    fn packs_cut_and_damaged_at_every_byte() {
        let mut random = Random::new(7002);
        for case in 0..180 {
            let (_, make) = KINDS[case % KINDS.len()];
            let whole = make(&mut random);
            for at in 0..whole.len().min(16) {
                compare_places(&whole[..at]);
                let mut damaged = whole.clone();
                damaged[at] ^= random.nonzero_byte();
                compare_places(&damaged);
            }
        }
    }

    #[test]
    fn every_length_and_width() {
        for length in 0..=255 {
            for axis in 0..3 {
                let mut pack = [5, 0, 0, 0, 3, 3, 3, 4, 0];
                pack[4 + axis] = length;
                compare_places(&pack);
            }
        }
        for w in 0..=u16::MAX {
            let [low, high] = w.to_le_bytes();
            compare_places(&[5, 0, 0, 0, 3, 3, 3, low, high]);
            compare_places(&[5, 0, 0, 0, 255, 255, 9, low, high]);
        }
    }

    #[test]
    fn every_number_of_data_cells_in_use() {
        // 2 by 3 by 4 data cells of 2 bytes, and one of 255 by 255 by 255 cells.
        for used in (0..=30_u32).chain([256, 1 << 16, 1 << 24, 1 << 31, u32::MAX]) {
            let mut pack = vec![9, 0, 0, 0, 4, 5, 6, 2, 0];
            pack.extend(used.to_le_bytes());
            let word = compare_places(&pack);
            assert_eq!(word == 0, (1..=24).contains(&used), "{used}");
        }
        let most = 253_u32.pow(3);
        for used in [0, 1, 65_535, 65_536, most - 1, most, most + 1] {
            let mut pack = vec![9, 0, 0, 0, 255, 255, 255, 16, 0];
            pack.extend(used.to_le_bytes());
            compare_places(&pack);
        }
    }

    #[test]
    fn every_count_of_section_1() {
        for count in (0..=300_u32).chain([5 << 8, 9 << 8, 5 + (1 << 24), 9 + (1 << 31)]) {
            let mut pack = count.to_le_bytes().to_vec();
            pack.extend([4, 5, 6, 2, 0, 24, 0, 0, 0, 0, 0, 0, 0]);
            let word = compare_places(&pack);
            assert_eq!(word, if count == 5 || count == 9 { 0 } else { 7 });
        }
    }
}
