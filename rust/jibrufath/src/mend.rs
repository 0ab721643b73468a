//! Wrong bytes put right.

use crate::ffi::{jibrufath_mend, jibrufath_mend_axis};
use crate::refusal::answer;
use crate::{Refusal, Shape};

/// One mending pass along an axis, 1, 2 or 3: on each line, in each layer, the one wrong byte that the two syndromes point
/// to is put right. A line whose syndromes point to no place of it keeps its bytes.
///
/// `cube` has [`Shape::cube_bytes`] bytes.
///
/// # Errors
///
/// In this order: [`Refusal::Dimension`] (a length, or the axis), [`Refusal::PacketSize`], [`Refusal::CubeSize`],
/// [`Refusal::SliceLength`]. A refusal changes no byte.
///
/// ```
/// use jibrufath::{Refusal, Shape, mend_axis};
///
/// // A cube of zeros is a code cube. Two wrong bytes on a line along axis 1 stand alone on theirs along axis 2.
/// let shape = Shape::new(3, 3, 3, 1);
/// let mut cube = [0; 27];
/// cube[0] = 0x01;
/// cube[1] = 0x01;
/// mend_axis(shape, 2, &mut cube)?;
/// assert_eq!(cube, [0; 27]);
///
/// assert_eq!(mend_axis(shape, 4, &mut cube), Err(Refusal::Dimension));
/// # Ok::<(), Refusal>(())
/// ```
pub fn mend_axis(shape: Shape, axis: usize, cube: &mut [u8]) -> Result<(), Refusal> {
    let [l1, l2, l3, w] = shape.numbers();
    // SAFETY: the slice is borrowed for the call, which is proved to stay inside it for any numbers.
    let word = unsafe {
        jibrufath_mend_axis(
            cube.as_mut_ptr(),
            cube.len() as u64,
            l1,
            l2,
            l3,
            w,
            axis as u64,
        )
    };
    answer(word).map(|_| ())
}

/// Passes along axis 1, 2 and 3, and writes what they leave to `second`, if it is a code cube.
///
/// `cube` and `second` have [`Shape::cube_bytes`] bytes, `flags` a byte for each cell, 0 known or 2 known and unsent. `cube` and `flags`
/// are only read.
///
/// A cube that differs from some code cube in at most seven bytes of each layer, wherever they are, is mended to that code cube: so where seven
/// cells are damaged, in whatever bytes. The same where all damage lies in one plane of cells, across any axis. Eight wrong bytes of a layer may
/// be refused, or lead to another code cube.
///
/// # Errors
///
/// In this order: [`Refusal::Dimension`], [`Refusal::PacketSize`], [`Refusal::CubeSize`], [`Refusal::SliceLength`],
/// [`Refusal::FlagValue`], [`Refusal::Erasure`], which change no byte; and [`Refusal::Uncorrected`], with `second` all 00h.
///
/// ```
/// use jibrufath::{Shape, encode, mend};
///
/// let shape = Shape::new(3, 3, 3, 1);
/// let mut cube = [0; 27];
/// encode(shape, &[0x08], &mut cube)?;
///
/// // Seven of the eight cells of a box.
/// let mut damaged = cube;
/// for cell in [0, 1, 3, 4, 9, 10, 12] {
///     damaged[cell] ^= 0x40;
/// }
/// let mut second = [0; 27];
/// mend(shape, &damaged, &[0; 27], &mut second)?;
/// assert_eq!(second, cube);
/// # Ok::<(), jibrufath::Refusal>(())
/// ```
pub fn mend(shape: Shape, cube: &[u8], flags: &[u8], second: &mut [u8]) -> Result<(), Refusal> {
    let [l1, l2, l3, w] = shape.numbers();
    // SAFETY: the slices are borrowed for the call, which is proved to stay inside them for any numbers.
    let word = unsafe {
        jibrufath_mend(
            cube.as_ptr(),
            cube.len() as u64,
            flags.as_ptr(),
            flags.len() as u64,
            second.as_mut_ptr(),
            second.len() as u64,
            l1,
            l2,
            l3,
            w,
        )
    };
    answer(word).map(|_| ())
}
