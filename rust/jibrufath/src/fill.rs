//! Lost cells out of the known ones.

use crate::ffi::jibrufath_fill;
use crate::refusal::answer;
use crate::{Refusal, Shape};

/// Gives every missing cell the bytes that the lines force, and answers the number of cells left.
///
/// `cube` has [`Shape::cube_bytes`] bytes. `flags` has a byte for each cell: 0 known, 1 missing, 2 known and unsent, whatever the cell
/// holds. The bytes of missing cells are not read. The cells left are the largest stopping set: a set of missing cells that meets every
/// line in none or in at least three. They become 00h and keep flag 1; the cells that are filled get flag 0, and known cells keep theirs.
/// With no cell missing, the call checks the cube.
///
/// # Errors
///
/// In this order: [`Refusal::Dimension`], [`Refusal::PacketSize`], [`Refusal::CubeSize`], [`Refusal::SliceLength`],
/// [`Refusal::FlagValue`], which change no byte; and [`Refusal::Contradiction`] where the known cells contradict each other:
/// missing cells are then 00h, and the flags as before.
///
/// ```
/// use jibrufath::{Refusal, Shape, encode, fill};
///
/// let shape = Shape::new(3, 3, 3, 1);
/// let mut cube = [0; 27];
/// encode(shape, &[0x08], &mut cube)?;
///
/// // One cell of the 27 is enough: here (2,2,2).
/// let mut received = [0; 27];
/// received[26] = cube[26];
/// let mut flags = [1; 27];
/// flags[26] = 0;
/// assert_eq!(fill(shape, &mut received, &mut flags), Ok(0));
/// assert_eq!(received, cube);
///
/// // A wrong byte among known cells is seen.
/// received[26] = 0x00;
/// assert_eq!(fill(shape, &mut received, &mut flags), Err(Refusal::Contradiction));
/// # Ok::<(), Refusal>(())
/// ```
pub fn fill(shape: Shape, cube: &mut [u8], flags: &mut [u8]) -> Result<usize, Refusal> {
    let [l1, l2, l3, w] = shape.numbers();
    // SAFETY: both slices are borrowed for the call, which is proved to stay inside them for any numbers.
    let word = unsafe {
        jibrufath_fill(
            cube.as_mut_ptr(),
            cube.len() as u64,
            flags.as_mut_ptr(),
            flags.len() as u64,
            l1,
            l2,
            l3,
            w,
        )
    };
    answer(word)
}
