//! Why a call refuses its input, and how the library's answer is read.

use std::fmt;

/// Why a call refused its input. The numbers are those of the table in document 01, of which 12 does not occur.
///
/// ```
/// use jibrufath::{Refusal, Shape};
///
/// let refusal = Shape::new(2, 3, 3, 1).check().unwrap_err();
/// assert_eq!(refusal, Refusal::Dimension);
/// assert_eq!(refusal.number(), 1);
/// assert_eq!(refusal.to_string(), "refused 1: a length is not 3 to 255, an axis number not 1 to 3, or there is no such line");
/// ```
#[derive(Clone, Copy, Debug, PartialEq, Eq, Hash)]
#[non_exhaustive]
pub enum Refusal {
    /// 1: a length is not 3 to 255; in a call that takes one, an axis number is not 1 to 3, or the axis has no such line.
    Dimension,
    /// 2: W is not 1 to 1,024.
    PacketSize,
    /// 3: W × cells is above 268,435,456.
    CubeSize,
    /// 4: a lent slice has not the exact length; a list of a plan is too short, or ends inside an entry.
    SliceLength,
    /// 5: a flag is above 2.
    FlagValue,
    /// 6: the pack ends inside a count or a section.
    Truncated,
    /// 7: the count of section 1 is neither 5 nor 9; where a text is written, it is not 5.
    HeaderCount,
    /// 8: the pack has bytes after section 3.
    TrailingBytes,
    /// 9: the section that must be empty is not: section 3 for the writer, section 2 for the receiver.
    SectionCount,
    /// 10: the data string has no room for the file, or not even for the four bytes of its length.
    Capacity,
    /// 11: a packet names a cell outside the cube or an unsent one.
    CellIndex {
        /// The packet's index, from 0.
        packet: u64,
    },
    /// 13: the known cells contradict each other: no filling exists.
    Contradiction,
    /// 14: the data string holds no file: its length is too large, or a byte behind it is not 00h.
    FileLength,
    /// 15: a cell is flagged missing, and mending takes only whole cubes.
    Erasure,
    /// 16: what mending leaves is not a code cube.
    Uncorrected,
    /// 17: a line of a text breaks the form.
    Line {
        /// The line's number, from 1.
        line: u64,
    },
    /// 18: an entry or count of a plan breaks a rule or is cut, or bytes are left over.
    Entry {
        /// Where it begins in the plan's file, from 0.
        offset: u64,
    },
    /// 19: the number of used data cells is below 1 or above the number of data cells; in the writer also where they have no room for
    /// the file and its length.
    UsedCells,
}

impl Refusal {
    /// The number in the table.
    ///
    /// ```
    /// assert_eq!(jibrufath::Refusal::Contradiction.number(), 13);
    /// ```
    pub fn number(self) -> u8 {
        match self {
            Refusal::Dimension => 1,
            Refusal::PacketSize => 2,
            Refusal::CubeSize => 3,
            Refusal::SliceLength => 4,
            Refusal::FlagValue => 5,
            Refusal::Truncated => 6,
            Refusal::HeaderCount => 7,
            Refusal::TrailingBytes => 8,
            Refusal::SectionCount => 9,
            Refusal::Capacity => 10,
            Refusal::CellIndex { .. } => 11,
            Refusal::Contradiction => 13,
            Refusal::FileLength => 14,
            Refusal::Erasure => 15,
            Refusal::Uncorrected => 16,
            Refusal::Line { .. } => 17,
            Refusal::Entry { .. } => 18,
            Refusal::UsedCells => 19,
        }
    }

    /// The index of the packet that was refused; none where the refusal is not of a packet.
    ///
    /// ```
    /// use jibrufath::Refusal;
    ///
    /// assert_eq!(Refusal::CellIndex { packet: 7 }.packet(), Some(7));
    /// assert_eq!(Refusal::Contradiction.packet(), None);
    /// ```
    pub fn packet(self) -> Option<u64> {
        match self {
            Refusal::CellIndex { packet } => Some(packet),
            _ => None,
        }
    }

    /// The number of the line that was refused, from 1; none where the refusal is not of a line.
    ///
    /// ```
    /// use jibrufath::Refusal;
    ///
    /// assert_eq!(Refusal::Line { line: 3 }.line(), Some(3));
    /// assert_eq!(Refusal::Contradiction.line(), None);
    /// ```
    pub fn line(self) -> Option<u64> {
        match self {
            Refusal::Line { line } => Some(line),
            _ => None,
        }
    }

    /// Where in a plan's file the entry or count that was refused begins, from 0; none where the refusal is not of a plan.
    ///
    /// ```
    /// use jibrufath::Refusal;
    ///
    /// assert_eq!(Refusal::Entry { offset: 30 }.offset(), Some(30));
    /// assert_eq!(Refusal::Contradiction.offset(), None);
    /// ```
    pub fn offset(self) -> Option<u64> {
        match self {
            Refusal::Entry { offset } => Some(offset),
            _ => None,
        }
    }

    /// The refusal with this number, at this place where it is one that names a place.
    fn numbered(number: u64, place: u64) -> Refusal {
        match number {
            1 => Refusal::Dimension,
            2 => Refusal::PacketSize,
            3 => Refusal::CubeSize,
            4 => Refusal::SliceLength,
            5 => Refusal::FlagValue,
            6 => Refusal::Truncated,
            7 => Refusal::HeaderCount,
            8 => Refusal::TrailingBytes,
            9 => Refusal::SectionCount,
            10 => Refusal::Capacity,
            11 => Refusal::CellIndex { packet: place },
            13 => Refusal::Contradiction,
            14 => Refusal::FileLength,
            15 => Refusal::Erasure,
            16 => Refusal::Uncorrected,
            17 => Refusal::Line { line: place },
            18 => Refusal::Entry { offset: place },
            19 => Refusal::UsedCells,
            _ => panic!("the library answers with numbers of the table"),
        }
    }
}

impl fmt::Display for Refusal {
    fn fmt(&self, f: &mut fmt::Formatter<'_>) -> fmt::Result {
        let meaning = match self {
            Refusal::Dimension => {
                "a length is not 3 to 255, an axis number not 1 to 3, or there is no such line"
            }
            Refusal::PacketSize => "W is not 1 to 1,024",
            Refusal::CubeSize => "W × cells is above 268,435,456",
            Refusal::SliceLength => "a lent slice has not the exact length",
            Refusal::FlagValue => "a flag is above 2",
            Refusal::Truncated => "the pack ends inside a count or a section",
            Refusal::HeaderCount => {
                "the count of section 1 is neither 5 nor 9, or not 5 for a text"
            }
            Refusal::TrailingBytes => "the pack has bytes after section 3",
            Refusal::SectionCount => "the section that must be empty is not",
            Refusal::Capacity => "the data string has no room for the file",
            Refusal::CellIndex { .. } => "a packet names a cell outside the cube or an unsent one",
            Refusal::Contradiction => "the known cells contradict each other",
            Refusal::FileLength => "the data string holds no file",
            Refusal::Erasure => "a cell is flagged missing",
            Refusal::Uncorrected => "what mending leaves is not a code cube",
            Refusal::Line { .. } => "a line of the text breaks the form",
            Refusal::Entry { .. } => {
                "an entry or count of the plan breaks a rule or is cut, or bytes are left over"
            }
            Refusal::UsedCells => {
                "the number of used data cells is below 1, above the data cells, or too low for the file"
            }
        };
        write!(f, "refused {}: {meaning}", self.number())?;
        match self {
            Refusal::CellIndex { packet } => write!(f, ", packet {packet}"),
            Refusal::Line { line } => write!(f, ", line {line}"),
            Refusal::Entry { offset } => write!(f, ", offset {offset}"),
            _ => Ok(()),
        }
    }
}

impl std::error::Error for Refusal {}

/// Reads an answer of the library: the refusal's number (0 for none) in the low byte; above it a count, or the place that the
/// refusal names: a packet's index, a line's number, an offset in a plan.
pub(crate) fn answer(word: u64) -> Result<usize, Refusal> {
    let (number, count) = (word % 256, word / 256);
    match number {
        0 => Ok(count as usize),
        _ => Err(Refusal::numbered(number, count)),
    }
}

#[cfg(test)]
mod tests {
    use super::*;

    #[test]
    fn answers() {
        assert_eq!(answer(0), Ok(0));
        assert_eq!(answer(27 * 256), Ok(27));
        for number in (1..=11).chain(13..=19u8) {
            let refusal = answer(u64::from(number) + 7 * 256).unwrap_err();
            assert_eq!(refusal.number(), number);
            assert_eq!(refusal.packet(), (number == 11).then_some(7));
            assert_eq!(refusal.line(), (number == 17).then_some(7));
            assert_eq!(refusal.offset(), (number == 18).then_some(7));
        }
    }

    #[test]
    #[should_panic(expected = "numbers of the table")]
    fn twelve_does_not_occur() {
        let _ = answer(12 + 7 * 256);
    }

    #[test]
    fn a_place_is_named() {
        for (refusal, told) in [
            (
                Refusal::CellIndex { packet: 7 },
                "refused 11: a packet names a cell outside the cube or an unsent one, packet 7",
            ),
            (
                Refusal::Line { line: 3 },
                "refused 17: a line of the text breaks the form, line 3",
            ),
            (
                Refusal::Entry { offset: 30 },
                "refused 18: an entry or count of the plan breaks a rule or is cut, or bytes are left over, offset 30",
            ),
            (
                Refusal::Uncorrected,
                "refused 16: what mending leaves is not a code cube",
            ),
        ] {
            assert_eq!(refusal.to_string(), told);
        }
    }

    #[test]
    fn a_place_beyond_32_bits() {
        let [line, offset] = [4_294_967_297; 2];
        assert_eq!(answer(17 + 256 * line), Err(Refusal::Line { line }));
        assert_eq!(answer(18 + 256 * offset), Err(Refusal::Entry { offset }));
    }
}
