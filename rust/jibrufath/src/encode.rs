//! A data string into its code cube and out of a cube, and whether a cube is a code cube.

use crate::ffi::{jibrufath_encode, jibrufath_extract, jibrufath_is_code_cube};
use crate::refusal::answer;
use crate::{Refusal, Shape};

/// Writes the one code cube that has the data string: whatever `cube` held, all its bytes are written.
///
/// `data` has [`Shape::capacity`] bytes and `cube` [`Shape::cube_bytes`].
///
/// # Errors
///
/// In this order: [`Refusal::Dimension`], [`Refusal::PacketSize`], [`Refusal::CubeSize`], [`Refusal::SliceLength`]. A refusal
/// changes no byte.
///
/// ```
/// use jibrufath::{Refusal, Shape, encode};
///
/// let shape = Shape::new(3, 3, 3, 1);
/// let mut cube = [0; 27];
/// encode(shape, &[0x08], &mut cube)?;
/// assert_eq!(cube[..9], [0x08, 0x0C, 0x04, 0x0C, 0x0A, 0x06, 0x04, 0x06, 0x02]);
///
/// assert_eq!(encode(shape, &[0x08], &mut [0; 26]), Err(Refusal::SliceLength));
/// # Ok::<(), Refusal>(())
/// ```
pub fn encode(shape: Shape, data: &[u8], cube: &mut [u8]) -> Result<(), Refusal> {
    let [l1, l2, l3, w] = shape.numbers();
    // SAFETY: both slices are borrowed for the call, which is proved to stay inside them for any numbers.
    let word = unsafe {
        jibrufath_encode(
            data.as_ptr(),
            data.len() as u64,
            cube.as_mut_ptr(),
            cube.len() as u64,
            l1,
            l2,
            l3,
            w,
        )
    };
    answer(word).map(|_| ())
}

/// Reads the data string of a cube, whether or not that is a code cube.
///
/// `cube` has [`Shape::cube_bytes`] bytes and `data` [`Shape::capacity`].
///
/// # Errors
///
/// As [`encode`].
///
/// ```
/// use jibrufath::{Shape, encode, extract};
///
/// let shape = Shape::new(4, 3, 3, 2);
/// let mut cube = [0; 72];
/// encode(shape, &[1, 2, 3, 4], &mut cube)?;
///
/// let mut data = [0; 4];
/// extract(shape, &cube, &mut data)?;
/// assert_eq!(data, [1, 2, 3, 4]);
/// # Ok::<(), jibrufath::Refusal>(())
/// ```
pub fn extract(shape: Shape, cube: &[u8], data: &mut [u8]) -> Result<(), Refusal> {
    let [l1, l2, l3, w] = shape.numbers();
    // SAFETY: as in `encode`.
    let word = unsafe {
        jibrufath_extract(
            cube.as_ptr(),
            cube.len() as u64,
            data.as_mut_ptr(),
            data.len() as u64,
            l1,
            l2,
            l3,
            w,
        )
    };
    answer(word).map(|_| ())
}

/// Whether a cube is a code cube: every line of every axis is right in every layer.
///
/// `cube` has [`Shape::cube_bytes`] bytes.
///
/// # Errors
///
/// As [`encode`].
///
/// ```
/// use jibrufath::{Refusal, Shape, encode, is_code_cube};
///
/// let shape = Shape::new(3, 3, 3, 1);
/// let mut cube = [0; 27];
/// encode(shape, &[0x08], &mut cube)?;
/// assert_eq!(is_code_cube(shape, &cube), Ok(true));
/// cube[13] = 0x00;
/// assert_eq!(is_code_cube(shape, &cube), Ok(false));
/// assert_eq!(is_code_cube(shape, &cube[1..]), Err(Refusal::SliceLength));
/// # Ok::<(), Refusal>(())
/// ```
pub fn is_code_cube(shape: Shape, cube: &[u8]) -> Result<bool, Refusal> {
    let [l1, l2, l3, w] = shape.numbers();
    // SAFETY: the slice is borrowed for the call, which is proved to stay inside it for any numbers.
    let word = unsafe { jibrufath_is_code_cube(cube.as_ptr(), cube.len() as u64, l1, l2, l3, w) };
    answer(word).map(|count| count == 1)
}
