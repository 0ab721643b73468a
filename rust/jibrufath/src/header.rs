//! What section 1 of a pack says: the shape, and how many of its data cells are used.

use crate::{Needs, Refusal, Shape, needs};

/// The bytes of a count.
const COUNT: usize = 4;

/// The most bytes of section 1 with its count.
pub(crate) const MOST_SECTION: usize = COUNT + USED_COUNT as usize;

/// The count of section 1 that has a number of used data cells behind the shape.
const USED_COUNT: u8 = 9;

/// The shape in section 1 of a pack, and the number of used data cells, where it says that too.
///
/// A short file in a big cube leaves most data cells 00h. Where section 1 says how many data cells are used, the others are *unsent*: the
/// receiver knows them from the start to be 00h, and no packet is for them. Parity cells are always sent.
///
/// A [`Shape`] is the header in which all data cells are used and nothing says so. [`Shape::used`] and [`Shape::used_by`] make one with
/// a number. Any numbers can be put in; every call checks them.
///
/// ```
/// use jibrufath::{Header, Shape, write};
///
/// let shape = Shape::new(20, 20, 10, 100);
/// let whole = write(shape, b"a short file")?;
/// let short = write(shape.used_by(12), b"a short file")?;
/// assert_eq!([whole.len(), short.len()], [412_017, 145_148]);
/// assert_eq!(Header::of_pack(&whole), Ok(Header::from(shape)));
/// assert_eq!(Header::of_pack(&short), Ok(shape.used(1)));
/// # Ok::<(), jibrufath::Error>(())
/// ```
#[derive(Clone, Copy, Debug, PartialEq, Eq, Hash)]
#[non_exhaustive]
pub struct Header {
    /// The shape.
    pub shape: Shape,
    /// The number of used data cells; none where section 1 has count 5, and all are used.
    pub used: Option<usize>,
}

impl From<Shape> for Header {
    fn from(shape: Shape) -> Header {
        Header { shape, used: None }
    }
}

impl Header {
    /// The header in section 1 of a pack; the rest of the pack is not read.
    ///
    /// # Errors
    ///
    /// As [`needs`].
    ///
    /// ```
    /// use jibrufath::{Header, Refusal, Shape};
    ///
    /// let pack = [9, 0, 0, 0, 4, 3, 3, 5, 0, 1, 0, 0, 0];
    /// assert_eq!(Header::of_pack(&pack), Ok(Shape::new(4, 3, 3, 5).used(1)));
    /// assert_eq!(Header::of_pack(&pack[..12]), Err(Refusal::Truncated));
    /// ```
    pub fn of_pack(pack: &[u8]) -> Result<Header, Refusal> {
        let Needs { shape, used, .. } = needs(pack)?;
        let used = says_used(pack).then_some(used);
        Ok(Header { shape, used })
    }

    /// What the calls on packs with this header are lent.
    ///
    /// # Errors
    ///
    /// In this order: those of [`Shape::check`]; [`Refusal::Capacity`] where a data string has no room for the file's length;
    /// [`Refusal::UsedCells`] where the number of used data cells is below 1 or above the number of data cells.
    ///
    /// ```
    /// use jibrufath::{Refusal, Shape};
    ///
    /// let shape = Shape::new(4, 3, 3, 5);
    /// assert_eq!(shape.used(2).needs()?.pack_bytes, 21 + 36 * 8);
    /// assert_eq!(shape.used(1).needs()?.pack_bytes, 21 + 35 * 8);
    /// assert_eq!(shape.used(0).needs(), Err(Refusal::UsedCells));
    /// assert_eq!(shape.used(3).needs(), Err(Refusal::UsedCells));
    /// # Ok::<(), Refusal>(())
    /// ```
    pub fn needs(self) -> Result<Needs, Refusal> {
        self.shape.file_bytes()?;
        needs(self.section(&mut [0; MOST_SECTION])?)
    }

    /// The length of a written pack: 12, the count of section 1, and 3 + W for each cell that is sent.
    ///
    /// # Errors
    ///
    /// As [`Header::needs`].
    ///
    /// ```
    /// assert_eq!(jibrufath::Shape::new(5, 4, 3, 16).used(1).pack_bytes(), Ok(21 + 55 * 19));
    /// ```
    pub fn pack_bytes(self) -> Result<usize, Refusal> {
        self.needs().map(|needs| needs.pack_bytes)
    }

    /// Whether the cell with these coordinates is inside the cube and sent: a parity cell, or one of the used data cells.
    ///
    /// ```
    /// use jibrufath::Shape;
    ///
    /// // Data cells (0,0,0), (1,0,0), (0,1,0) and (1,1,0).
    /// let header = Shape::new(4, 4, 3, 8).used(3);
    /// assert!(header.sends([0, 1, 0]));
    /// assert!(!header.sends([1, 1, 0]));
    /// assert!(header.sends([2, 1, 0]));
    /// assert!(!header.sends([4, 0, 0]));
    /// ```
    pub fn sends(self, coordinates: [u8; 3]) -> bool {
        let [a, b, c] = coordinates.map(usize::from);
        let Shape { l1, l2, l3, .. } = self.shape;
        if a >= l1 || b >= l2 || c >= l3 {
            return false;
        }
        let [data1, data2, data3] = [l1, l2, l3].map(|length| length.saturating_sub(2));
        let is_data = a < data1 && b < data2 && c < data3;
        // The data cells below it in cell order.
        let rank = a + data1 * (b + data2 * c);
        !is_data || self.used.is_none_or(|used| rank < used)
    }

    /// Section 1 with its count, put into these bytes, for a shape that passes its checks. A number of used cells that has no place in
    /// four bytes is refused as the library refuses one that is too large.
    pub(crate) fn section(self, bytes: &mut [u8; MOST_SECTION]) -> Result<&[u8], Refusal> {
        let Shape { l1, l2, l3, w } = self.shape;
        let used = u32::try_from(self.used.unwrap_or(0)).map_err(|_| Refusal::UsedCells)?;
        let count = if self.used.is_some() { USED_COUNT } else { 5 };
        *bytes = [0; MOST_SECTION];
        bytes[0] = count;
        bytes[4..7].copy_from_slice(&[l1, l2, l3].map(|length| length as u8));
        bytes[7..9].copy_from_slice(&(w as u16).to_le_bytes());
        bytes[9..].copy_from_slice(&used.to_le_bytes());
        Ok(&bytes[..section_bytes(bytes)])
    }
}

/// Whether section 1 of a pack says how many data cells are used, if it passes its checks.
pub(crate) fn says_used(pack: &[u8]) -> bool {
    pack.first() == Some(&USED_COUNT)
}

/// The bytes of section 1 with its count, in a pack whose section 1 passes its checks.
pub(crate) fn section_bytes(pack: &[u8]) -> usize {
    COUNT + usize::from(pack[0])
}
