//! The text twin of an air pack: its shape and its packets as lines that can be read, compared and kept beside the pack.
//!
//! The first line is `shape L1 L2 L3 W`. A line `packet a b c` and the W bytes of the cell follows for each packet, in the order of
//! the pack. Words are parted by single spaces, and every line ends in a newline, the last one too. Numbers are decimals of one to
//! five digits without leading zeros; bytes are two hexadecimal digits, lower case. A text has at most 4,294,967,295 packets.
//!
//! What is written is read back to the same pack, and what is read is written back to the same characters:
//!
//! ```
//! use jibrufath::text::{from_text, to_text};
//! use jibrufath::{AirPack, Packet, Shape};
//!
//! let mut air = AirPack::new(Shape::new(3, 3, 3, 5))?;
//! air.push(Packet { coordinates: [2, 1, 0], bytes: &[1, 0, 0, 0, 0xA7] })?;
//!
//! let text = to_text(air.as_bytes())?;
//! assert_eq!(text, "shape 3 3 3 5\npacket 2 1 0 01 00 00 00 a7\n");
//! assert_eq!(from_text(text.as_bytes())?, air.as_bytes());
//! # Ok::<(), jibrufath::Error>(())
//! ```
//!
//! Repeats and copies with other bytes are lines like any other: what becomes of them is for the receiver to say.

use crate::error::zeros;
use crate::ffi::{
    jibrufath_read_text, jibrufath_text_bytes, jibrufath_text_pack_bytes, jibrufath_write_text,
};
use crate::refusal::answer;
use crate::{Error, Refusal};

/// Writes the text of an air pack.
///
/// `text` has [`text_bytes`] bytes, and holds the text afterwards, all of it ASCII. What it held before does not matter.
///
/// # Errors
///
/// In the order in which the pack is read: [`Refusal::Truncated`], [`Refusal::HeaderCount`], those of
/// [`Shape::check`](crate::Shape::check), [`Refusal::Capacity`], [`Refusal::SectionCount`], [`Refusal::TrailingBytes`]; then
/// [`Refusal::SliceLength`] and [`Refusal::CellIndex`]. A refusal changes no byte. A text has no place for a number of used data cells, so
/// that a pack which says it is refused with [`Refusal::HeaderCount`].
///
/// ```
/// use jibrufath::text::{text_bytes, write_text};
/// use jibrufath::{Refusal, Shape, write};
///
/// let pack = write(Shape::new(3, 3, 3, 5), &[0x08])?;
/// let mut text = vec![0; text_bytes(&pack)?];
/// write_text(&pack, &mut text)?;
/// assert!(text.starts_with(b"shape 3 3 3 5\npacket 0 0 0 01 00 00 00 08\n"));
///
/// assert_eq!(write_text(&pack, &mut text[1..]), Err(Refusal::SliceLength));
/// # Ok::<(), jibrufath::Error>(())
/// ```
pub fn write_text(air: &[u8], text: &mut [u8]) -> Result<(), Refusal> {
    // SAFETY: the slices are borrowed for the call, which is proved to stay inside them for any bytes.
    let word = unsafe {
        jibrufath_write_text(
            air.as_ptr(),
            air.len() as u64,
            text.as_mut_ptr(),
            text.len() as u64,
        )
    };
    answer(word).map(|_| ())
}

/// Reads a text, and writes its air pack.
///
/// `air` has [`text_pack_bytes`] bytes, and holds the pack afterwards. What it held before does not matter.
///
/// # Errors
///
/// [`Refusal::Line`] with the first line that breaks the form, asked of the whole text before all else; then those of
/// [`Shape::check`](crate::Shape::check), [`Refusal::Capacity`], [`Refusal::SliceLength`] and [`Refusal::CellIndex`]. A refusal
/// changes no byte.
///
/// ```
/// use jibrufath::Refusal;
/// use jibrufath::text::read_text;
///
/// let mut air = [0; 25];
/// read_text(b"shape 3 3 3 5\npacket 2 1 0 01 00 00 00 a7\n", &mut air)?;
/// assert_eq!(air[13..], [1, 0, 0, 0, 2, 1, 0, 1, 0, 0, 0, 0xA7]);
///
/// let capital = read_text(b"shape 3 3 3 5\npacket 2 1 0 01 00 00 00 A7\n", &mut air);
/// assert_eq!(capital, Err(Refusal::Line { line: 2 }));
/// let outside = read_text(b"shape 3 3 3 5\npacket 256 1 0 01 00 00 00 a7\n", &mut air);
/// assert_eq!(outside, Err(Refusal::CellIndex { packet: 0 }));
/// # Ok::<(), Refusal>(())
/// ```
pub fn read_text(text: &[u8], air: &mut [u8]) -> Result<(), Refusal> {
    // SAFETY: the slices are borrowed for the call, which is proved to stay inside them for any bytes.
    let word = unsafe {
        jibrufath_read_text(
            text.as_ptr(),
            text.len() as u64,
            air.as_mut_ptr(),
            air.len() as u64,
        )
    };
    answer(word).map(|_| ())
}

/// The length of an air pack's text, whatever cells its packets name.
///
/// # Errors
///
/// Those of [`write_text`] up to [`Refusal::TrailingBytes`].
///
/// ```
/// use jibrufath::text::text_bytes;
/// use jibrufath::{AirPack, Refusal, Shape};
///
/// let air = AirPack::new(Shape::new(69, 69, 25, 397))?;
/// assert_eq!(text_bytes(air.as_bytes()), Ok("shape 69 69 25 397\n".len()));
/// assert_eq!(text_bytes(&air.as_bytes()[..16]), Err(Refusal::Truncated));
/// # Ok::<(), jibrufath::Error>(())
/// ```
pub fn text_bytes(air: &[u8]) -> Result<usize, Refusal> {
    // SAFETY: the slice is borrowed for the call, which is proved to stay inside it for any bytes.
    answer(unsafe { jibrufath_text_bytes(air.as_ptr(), air.len() as u64) })
}

/// The length of a text's air pack, whatever cells its packets name.
///
/// # Errors
///
/// Those of [`read_text`] up to [`Refusal::Capacity`].
///
/// ```
/// use jibrufath::Refusal;
/// use jibrufath::text::text_pack_bytes;
///
/// assert_eq!(text_pack_bytes(b"shape 3 3 3 5\npacket 2 1 0 01 00 00 00 a7\n"), Ok(17 + 8));
/// assert_eq!(text_pack_bytes(b"shape 3 3 3 5\n\n"), Err(Refusal::Line { line: 2 }));
/// assert_eq!(text_pack_bytes(b"shape 3 3 256 5\n"), Err(Refusal::Dimension));
/// ```
pub fn text_pack_bytes(text: &[u8]) -> Result<usize, Refusal> {
    // SAFETY: the slice is borrowed for the call, which is proved to stay inside it for any bytes.
    answer(unsafe { jibrufath_text_pack_bytes(text.as_ptr(), text.len() as u64) })
}

/// The text of an air pack: [`write_text`] with memory of its own.
///
/// # Errors
///
/// The refusals of [`text_bytes`]; then [`Error::Allocation`]; then [`Refusal::CellIndex`].
///
/// ```
/// use jibrufath::text::to_text;
/// use jibrufath::{Error, Refusal, Shape, write};
///
/// let pack = write(Shape::new(5, 4, 3, 16), b"any file")?;
/// let text = to_text(&pack)?;
/// assert_eq!(text.lines().next(), Some("shape 5 4 3 16"));
/// assert_eq!(text.lines().count(), 1 + 60);
///
/// assert_eq!(to_text(&pack[1..]), Err(Error::Refused(Refusal::HeaderCount)));
/// # Ok::<(), Error>(())
/// ```
pub fn to_text(air: &[u8]) -> Result<String, Error> {
    let mut text = zeros(text_bytes(air)?)?;
    write_text(air, &mut text)?;
    Ok(String::from_utf8(text).expect("a text is ASCII"))
}

/// The air pack of a text: [`read_text`] with memory of its own, at most three bytes more than the text has.
///
/// # Errors
///
/// The refusals of [`text_pack_bytes`]; then [`Error::Allocation`]; then [`Refusal::CellIndex`].
///
/// ```
/// use jibrufath::text::{from_text, to_text};
/// use jibrufath::{Error, Refusal, Shape, write};
///
/// let pack = write(Shape::new(5, 4, 3, 16), b"any file")?;
/// assert_eq!(from_text(to_text(&pack)?.as_bytes())?, pack);
///
/// assert_eq!(from_text(b"shape 3 3 3 5"), Err(Error::Refused(Refusal::Line { line: 1 })));
/// # Ok::<(), Error>(())
/// ```
pub fn from_text(text: &[u8]) -> Result<Vec<u8>, Error> {
    let mut air = zeros(text_pack_bytes(text)?)?;
    read_text(text, &mut air)?;
    Ok(air)
}
