//! The layout of packs: packets read one by one, air packs built of packets, and job packs of files.
//!
//! A pack has three sections, each behind its count in four bytes, low first: the shape, with or without the number of used data cells;
//! the file; the packets.

use std::iter::FusedIterator;
use std::slice::ChunksExact;

use crate::error::reserve;
use crate::header::{MOST_SECTION, section_bytes};
use crate::receive::read_air;
use crate::{Error, Header, Refusal, Shape};

/// The bytes of a count.
const COUNT: usize = 4;

/// The coordinates that a packet begins with.
const COORDINATES: usize = 3;

/// A packet: the coordinates of its cell, and the W bytes of the cell.
///
/// ```
/// use jibrufath::{Packet, Shape};
///
/// let packet = Packet { coordinates: [4, 2, 1], bytes: &[0; 16] };
/// assert_eq!(packet.cell(Shape::new(5, 4, 3, 16)), Some(4 + 5 * (2 + 4 * 1)));
/// assert_eq!(packet.cell(Shape::new(4, 4, 3, 16)), None);
/// ```
#[derive(Clone, Copy, Debug, PartialEq, Eq, Hash)]
pub struct Packet<'a> {
    /// The coordinates a, b and c as the packet has them; they may name no cell of the cube.
    pub coordinates: [u8; COORDINATES],
    /// The bytes of the cell.
    pub bytes: &'a [u8],
}

impl Packet<'_> {
    /// The number of the packet's cell; none where that is outside the cube.
    ///
    /// ```
    /// use jibrufath::{Packet, Shape};
    ///
    /// let packet = Packet { coordinates: [0, 0, 2], bytes: &[7] };
    /// assert_eq!(packet.cell(Shape::new(3, 3, 3, 1)), Some(18));
    /// ```
    pub fn cell(self, shape: Shape) -> Option<usize> {
        let [a, b, c] = self.coordinates.map(usize::from);
        (a < shape.l1 && b < shape.l2 && c < shape.l3).then(|| a + shape.l1 * (b + shape.l2 * c))
    }
}

/// The packets of an air pack, in their order. [`packets`] makes it.
///
/// ```
/// use jibrufath::{Shape, packets, write};
///
/// let pack = write(Shape::new(3, 3, 3, 5), &[0x08])?;
/// let mut packets = packets(&pack)?;
/// assert_eq!(packets.len(), 27);
/// assert_eq!(packets.next().map(|packet| packet.bytes), Some(&[1, 0, 0, 0, 0x08][..]));
/// assert_eq!(packets.next_back().map(|packet| packet.coordinates), Some([2, 2, 2]));
/// # Ok::<(), jibrufath::Error>(())
/// ```
#[derive(Clone, Debug)]
pub struct Packets<'a>(ChunksExact<'a, u8>);

impl<'a> Iterator for Packets<'a> {
    type Item = Packet<'a>;

    fn next(&mut self) -> Option<Packet<'a>> {
        self.0.next().map(packet)
    }

    fn size_hint(&self) -> (usize, Option<usize>) {
        self.0.size_hint()
    }

    fn nth(&mut self, n: usize) -> Option<Packet<'a>> {
        self.0.nth(n).map(packet)
    }
}

impl DoubleEndedIterator for Packets<'_> {
    fn next_back(&mut self) -> Option<Self::Item> {
        self.0.next_back().map(packet)
    }
}

impl ExactSizeIterator for Packets<'_> {}

impl FusedIterator for Packets<'_> {}

/// The packet in so many bytes.
fn packet(bytes: &[u8]) -> Packet<'_> {
    let (&coordinates, bytes) = bytes
        .split_first_chunk()
        .expect("a packet has its coordinates");
    Packet { coordinates, bytes }
}

/// The packets of an air pack, whatever cells they name and whatever bytes they have.
///
/// # Errors
///
/// Those with which the receiver refuses a pack that it cannot take apart, in the order in which the pack is read:
/// [`Refusal::Truncated`], [`Refusal::HeaderCount`], those of [`Shape::check`], [`Refusal::Capacity`],
/// [`Refusal::UsedCells`], [`Refusal::SectionCount`], [`Refusal::TrailingBytes`].
///
/// ```
/// use jibrufath::{Refusal, Shape, packets, write};
///
/// let pack = write(Shape::new(5, 4, 3, 16), b"any file")?;
/// let places: Vec<[u8; 3]> = packets(&pack)?.map(|packet| packet.coordinates).collect();
/// assert_eq!(places.len(), 60);
/// assert_eq!(places[..2], [[0, 0, 0], [1, 0, 0]]);
///
/// assert_eq!(packets(&pack[..100]).err(), Some(Refusal::Truncated));
/// # Ok::<(), jibrufath::Error>(())
/// ```
pub fn packets(air: &[u8]) -> Result<Packets<'_>, Refusal> {
    let needs = read_air(air)?;
    let packets = &air[section_bytes(air) + 2 * COUNT..];
    Ok(Packets(packets.chunks_exact(COORDINATES + needs.shape.w)))
}

/// An air pack that is built of packets, as they are heard: at any time its bytes are a pack that the receiver takes.
///
/// ```
/// use jibrufath::{AirPack, Shape, packets, receive, write};
///
/// let shape = Shape::new(5, 4, 3, 16);
/// let pack = write(shape, b"a broadcast")?;
///
/// // Every third packet is lost.
/// let mut air = AirPack::new(shape)?;
/// for (number, packet) in packets(&pack)?.enumerate() {
///     if number % 3 != 0 {
///         air.push(packet)?;
///     }
/// }
/// assert_eq!(air.packets(), 40);
/// assert_eq!(receive(air.as_bytes())?.into_file().as_deref(), Some(&b"a broadcast"[..]));
/// # Ok::<(), jibrufath::Error>(())
/// ```
#[derive(Clone, Debug, PartialEq, Eq)]
pub struct AirPack {
    header: Header,
    packets: u32,
    bytes: Vec<u8>,
}

impl AirPack {
    /// The air pack without a packet, of a shape, or of a header with a number of used data cells.
    ///
    /// # Errors
    ///
    /// The refusals of [`Header::needs`]; then [`Error::Allocation`].
    ///
    /// ```
    /// use jibrufath::{AirPack, Error, Refusal, Shape};
    ///
    /// let air = AirPack::new(Shape::new(3, 3, 3, 5))?;
    /// assert_eq!(air.as_bytes(), [5, 0, 0, 0, 3, 3, 3, 5, 0, 0, 0, 0, 0, 0, 0, 0, 0]);
    /// let air = AirPack::new(Shape::new(4, 3, 3, 5).used(1))?;
    /// assert_eq!(air.as_bytes(), [9, 0, 0, 0, 4, 3, 3, 5, 0, 1, 0, 0, 0, 0, 0, 0, 0, 0, 0, 0, 0]);
    ///
    /// let no_room = AirPack::new(Shape::new(3, 3, 3, 3));
    /// assert_eq!(no_room, Err(Error::Refused(Refusal::Capacity)));
    /// # Ok::<(), Error>(())
    /// ```
    pub fn new(header: impl Into<Header>) -> Result<AirPack, Error> {
        let header = header.into();
        header.needs()?;
        let mut section = [0; MOST_SECTION];
        let section = header.section(&mut section)?;
        let head = section.len() + 2 * COUNT;
        let mut bytes = Vec::new();
        reserve(&mut bytes, head)?;
        bytes.extend(section);
        bytes.resize(head, 0);
        Ok(AirPack {
            header,
            packets: 0,
            bytes,
        })
    }

    /// Adds a packet, which may have come before. Whether two packets of a cell differ is for the receiver to see.
    ///
    /// # Errors
    ///
    /// In this order, and without a change: [`Refusal::SliceLength`] where the packet has not W bytes; [`Refusal::CellIndex`]
    /// where its cell is outside the cube or unsent, with the index that the packet would have; [`Error::PacketCount`];
    /// [`Error::Allocation`].
    ///
    /// ```
    /// use jibrufath::{AirPack, Error, Packet, Refusal, Shape};
    ///
    /// let mut air = AirPack::new(Shape::new(3, 3, 3, 5))?;
    /// air.push(Packet { coordinates: [2, 1, 0], bytes: &[1, 2, 3, 4, 5] })?;
    /// assert_eq!(air.as_bytes()[13..], [1, 0, 0, 0, 2, 1, 0, 1, 2, 3, 4, 5]);
    ///
    /// let outside = air.push(Packet { coordinates: [3, 0, 0], bytes: &[0; 5] });
    /// assert_eq!(outside, Err(Error::Refused(Refusal::CellIndex { packet: 1 })));
    /// # Ok::<(), Error>(())
    /// ```
    pub fn push(&mut self, packet: Packet<'_>) -> Result<(), Error> {
        if packet.bytes.len() != self.header.shape.w {
            return Err(Refusal::SliceLength.into());
        }
        if !self.header.sends(packet.coordinates) {
            let packet = u64::from(self.packets);
            return Err(Refusal::CellIndex { packet }.into());
        }
        let packets = self.packets.checked_add(1).ok_or(Error::PacketCount)?;
        reserve(&mut self.bytes, COORDINATES + packet.bytes.len())?;
        self.bytes.extend(packet.coordinates);
        self.bytes.extend(packet.bytes);
        let count = section_bytes(&self.bytes) + COUNT;
        self.bytes[count..count + COUNT].copy_from_slice(&packets.to_le_bytes());
        self.packets = packets;
        Ok(())
    }

    /// The number of packets, with those that came more than once.
    ///
    /// ```
    /// use jibrufath::{AirPack, Packet, Shape};
    ///
    /// let mut air = AirPack::new(Shape::new(3, 3, 3, 5))?;
    /// let packet = Packet { coordinates: [0, 0, 0], bytes: &[0; 5] };
    /// air.push(packet)?;
    /// air.push(packet)?;
    /// assert_eq!(air.packets(), 2);
    /// # Ok::<(), jibrufath::Error>(())
    /// ```
    pub fn packets(&self) -> u32 {
        self.packets
    }

    /// The pack, which [`receive`](crate::receive) and [`receive_pack`](crate::receive_pack) take.
    ///
    /// ```
    /// use jibrufath::{AirPack, Shape, packets};
    ///
    /// let air = AirPack::new(Shape::new(5, 4, 3, 16))?;
    /// assert_eq!(packets(air.as_bytes())?.len(), 0);
    /// # Ok::<(), jibrufath::Error>(())
    /// ```
    pub fn as_bytes(&self) -> &[u8] {
        &self.bytes
    }

    /// The pack, in the memory that the builder took.
    ///
    /// ```
    /// use jibrufath::{AirPack, Shape};
    ///
    /// assert_eq!(AirPack::new(Shape::new(5, 4, 3, 16))?.into_bytes().len(), 17);
    /// # Ok::<(), jibrufath::Error>(())
    /// ```
    pub fn into_bytes(self) -> Vec<u8> {
        self.bytes
    }
}

/// The job pack of a file, which [`write_pack`](crate::write_pack) takes: of a shape, or of a header with a number of used data cells.
///
/// # Errors
///
/// Those of [`Header::needs`]; then [`Refusal::Capacity`] where the file is longer than [`Shape::file_bytes`]; then
/// [`Refusal::UsedCells`] where the used data cells have no room for the file and its length; then [`Error::Allocation`].
///
/// ```
/// use jibrufath::{Error, Refusal, Shape, job_pack};
///
/// let shape = Shape::new(3, 3, 3, 5);
/// assert_eq!(job_pack(shape, &[0x08])?, [5, 0, 0, 0, 3, 3, 3, 5, 0, 1, 0, 0, 0, 0x08, 0, 0, 0, 0]);
/// assert_eq!(job_pack(shape, &[0; 2]), Err(Error::Refused(Refusal::Capacity)));
///
/// let longer = Shape::new(4, 3, 3, 5);
/// assert_eq!(job_pack(longer.used(2), &[0; 2])?[..13], [9, 0, 0, 0, 4, 3, 3, 5, 0, 2, 0, 0, 0]);
/// assert_eq!(job_pack(longer.used(1), &[0; 2]), Err(Error::Refused(Refusal::UsedCells)));
/// # Ok::<(), Error>(())
/// ```
pub fn job_pack(header: impl Into<Header>, file: &[u8]) -> Result<Vec<u8>, Error> {
    let header = header.into();
    let needs = header.needs()?;
    if file.len() > needs.file_bytes {
        return Err(Refusal::Capacity.into());
    }
    if needs.used * needs.shape.w < COUNT + file.len() {
        return Err(Refusal::UsedCells.into());
    }
    let mut section = [0; MOST_SECTION];
    let section = header.section(&mut section)?;
    let mut pack = Vec::new();
    reserve(&mut pack, section.len() + COUNT + file.len() + COUNT)?;
    pack.extend(section);
    pack.extend((file.len() as u32).to_le_bytes());
    pack.extend(file);
    pack.extend([0; COUNT]);
    Ok(pack)
}

#[cfg(test)]
mod tests {
    use super::*;

    #[test]
    fn a_pack_as_long_as_its_count_allows() {
        let mut air = AirPack::new(Shape::new(3, 3, 3, 5)).expect("a small shape");
        air.packets = u32::MAX;
        let full = air.clone();
        let packet = Packet {
            coordinates: [0; 3],
            bytes: &[0; 5],
        };
        assert_eq!(air.push(packet), Err(Error::PacketCount));
        assert_eq!(air, full);
    }
}
