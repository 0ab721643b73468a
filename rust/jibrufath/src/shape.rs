//! The shape of a cube, and the lengths of the slices that a call is lent.

use crate::ffi::{jibrufath_capacity, jibrufath_cells, jibrufath_cube_bytes, jibrufath_pack_bytes};
use crate::refusal::answer;
use crate::{Header, Refusal, needs};

/// The bytes of the file's length, which begins a data string.
const LENGTH_BYTES: usize = 4;

/// Three lengths, and W, the bytes of a cell. Any numbers can be put in; every call checks them.
///
/// Cell (a, b, c) has number a + L1 × (b + L2 × c), and its W bytes stand there in the cube.
///
/// ```
/// use jibrufath::{Refusal, Shape};
///
/// let shape = Shape::new(69, 69, 25, 397);
/// assert_eq!(shape.cells(), Ok(119_025));
/// assert_eq!(shape.cube_bytes(), Ok(47_252_925));
/// assert_eq!(Shape::new(255, 255, 255, 17).cells(), Err(Refusal::CubeSize));
/// ```
#[derive(Clone, Copy, Debug, PartialEq, Eq, Hash)]
pub struct Shape {
    /// The length along axis 1, 3 to 255.
    pub l1: usize,
    /// The length along axis 2, 3 to 255.
    pub l2: usize,
    /// The length along axis 3, 3 to 255.
    pub l3: usize,
    /// The bytes of a cell, 1 to 1,024.
    pub w: usize,
}

impl Shape {
    /// A shape of these numbers, not yet checked.
    ///
    /// ```
    /// use jibrufath::Shape;
    ///
    /// assert_eq!(Shape::new(5, 4, 3, 16), Shape { l1: 5, l2: 4, l3: 3, w: 16 });
    /// ```
    pub const fn new(l1: usize, l2: usize, l3: usize, w: usize) -> Shape {
        Shape { l1, l2, l3, w }
    }

    /// The shape in section 1 of a pack; the rest of the pack is not read.
    ///
    /// # Errors
    ///
    /// As [`needs`].
    ///
    /// ```
    /// use jibrufath::{Refusal, Shape, write};
    ///
    /// let shape = Shape::new(5, 4, 3, 16);
    /// let pack = write(shape, b"any file")?;
    /// assert_eq!(Shape::of_pack(&pack), Ok(shape));
    /// assert_eq!(Shape::of_pack(&pack[..8]), Err(Refusal::Truncated));
    /// # Ok::<(), jibrufath::Error>(())
    /// ```
    pub fn of_pack(pack: &[u8]) -> Result<Shape, Refusal> {
        needs(pack).map(|needs| needs.shape)
    }

    /// The header of packs of this shape in which so many data cells are used, not yet checked: the data cells from that one on, counted
    /// from 0 in cell order, are 00h, known to the receiver from the start, and never sent.
    ///
    /// ```
    /// use jibrufath::{Shape, receive, write};
    ///
    /// // 2,592 data cells, of which two have room for 196 bytes and their length.
    /// let shape = Shape::new(20, 20, 10, 100);
    /// let file = [0x5A; 196];
    /// let pack = write(shape.used(2), &file)?;
    /// assert_eq!([pack.len(), shape.pack_bytes()?], [145_251, 412_017]);
    /// assert_eq!(receive(&pack)?.into_file().as_deref(), Some(&file[..]));
    /// # Ok::<(), jibrufath::Error>(())
    /// ```
    pub const fn used(self, used: usize) -> Header {
        Header {
            shape: self,
            used: Some(used),
        }
    }

    /// The header of packs of this shape for a file of so many bytes: the fewest used data cells that have room for it and its length.
    ///
    /// ```
    /// use jibrufath::Shape;
    ///
    /// let shape = Shape::new(5, 4, 3, 16);
    /// assert_eq!(shape.used_by(12), shape.used(1));
    /// assert_eq!(shape.used_by(13), shape.used(2));
    /// ```
    pub fn used_by(self, file_bytes: usize) -> Header {
        let bytes = file_bytes.saturating_add(LENGTH_BYTES);
        self.used(bytes.div_ceil(self.w.max(1)))
    }

    /// Checks the numbers.
    ///
    /// # Errors
    ///
    /// In this order: [`Refusal::Dimension`], [`Refusal::PacketSize`], [`Refusal::CubeSize`].
    ///
    /// ```
    /// use jibrufath::{Refusal, Shape};
    ///
    /// assert_eq!(Shape::new(128, 128, 16, 1024).check(), Ok(()));
    /// assert_eq!(Shape::new(3, 3, 3, 1025).check(), Err(Refusal::PacketSize));
    /// ```
    pub fn check(self) -> Result<(), Refusal> {
        self.cells().map(|_| ())
    }

    /// The number of cells, which is the length of flags.
    ///
    /// # Errors
    ///
    /// As [`Shape::check`].
    ///
    /// ```
    /// assert_eq!(jibrufath::Shape::new(5, 4, 3, 16).cells(), Ok(60));
    /// ```
    pub fn cells(self) -> Result<usize, Refusal> {
        self.ask(jibrufath_cells)
    }

    /// The length of a cube: W × cells.
    ///
    /// # Errors
    ///
    /// As [`Shape::check`].
    ///
    /// ```
    /// assert_eq!(jibrufath::Shape::new(5, 4, 3, 16).cube_bytes(), Ok(960));
    /// ```
    pub fn cube_bytes(self) -> Result<usize, Refusal> {
        self.ask(jibrufath_cube_bytes)
    }

    /// The capacity, which is the length of a data string: W × (L1 - 2)(L2 - 2)(L3 - 2).
    ///
    /// # Errors
    ///
    /// As [`Shape::check`].
    ///
    /// ```
    /// assert_eq!(jibrufath::Shape::new(5, 4, 3, 16).capacity(), Ok(96));
    /// ```
    pub fn capacity(self) -> Result<usize, Refusal> {
        self.ask(jibrufath_capacity)
    }

    /// The most bytes of a file, which is the length of the receiver's file buffer: four less than a data string.
    ///
    /// # Errors
    ///
    /// As [`Shape::check`], then [`Refusal::Capacity`] where a data string has less than four bytes.
    ///
    /// ```
    /// use jibrufath::{Refusal, Shape};
    ///
    /// assert_eq!(Shape::new(5, 4, 3, 16).file_bytes(), Ok(92));
    /// assert_eq!(Shape::new(3, 3, 3, 4).file_bytes(), Ok(0));
    /// assert_eq!(Shape::new(3, 3, 3, 3).file_bytes(), Err(Refusal::Capacity));
    /// ```
    pub fn file_bytes(self) -> Result<usize, Refusal> {
        self.capacity()?
            .checked_sub(LENGTH_BYTES)
            .ok_or(Refusal::Capacity)
    }

    /// The length of a written pack that has every cell: 17 + cells × (3 + W). [`Header::pack_bytes`] has it where cells are unsent.
    ///
    /// # Errors
    ///
    /// As [`Shape::check`].
    ///
    /// ```
    /// assert_eq!(jibrufath::Shape::new(5, 4, 3, 16).pack_bytes(), Ok(1157));
    /// ```
    pub fn pack_bytes(self) -> Result<usize, Refusal> {
        self.ask(jibrufath_pack_bytes)
    }

    /// The four numbers as the library takes them.
    pub(crate) fn numbers(self) -> [u64; 4] {
        [self.l1, self.l2, self.l3, self.w].map(|number| number as u64)
    }

    /// A size of this shape, as the library answers it.
    fn ask(self, size: fn(u64, u64, u64, u64) -> u64) -> Result<usize, Refusal> {
        let [l1, l2, l3, w] = self.numbers();
        answer(size(l1, l2, l3, w))
    }
}
