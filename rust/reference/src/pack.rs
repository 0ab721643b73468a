//! Packs: three sections, each after its count, as the writer and the receiver read them.

use crate::{Header, Shape};

/// The bytes of a count, and of the file's length that begins the data string.
pub const COUNT: usize = 4;

/// A pack for the writer: its section 2 is a file, its section 3 is empty.
#[derive(Debug, PartialEq, Eq)]
pub struct Job<'a> {
    pub header: Header,
    pub file: &'a [u8],
}

/// A pack for the receiver: its section 2 is empty, its section 3 holds packets.
#[derive(Debug, PartialEq, Eq)]
pub struct Air<'a> {
    pub header: Header,
    pub packets: Vec<Packet<'a>>,
}

/// The coordinates of a cell, perhaps of none, and its bytes.
#[derive(Clone, Copy, Debug, PartialEq, Eq)]
pub struct Packet<'a> {
    pub place: [u8; 3],
    pub bytes: &'a [u8],
}

/// Reads section 1 of a pack, as the writer and the receiver do.
pub fn read_header(pack: &[u8]) -> Result<Header, u8> {
    Rest(pack).header()
}

/// What a pack's calls are lent, by section 1 alone: the shape, cells, the bytes of a cube, of a data string, of a file buffer
/// and of a written pack, the data cells in use, then zeros.
pub fn needs(pack: &[u8]) -> Result<[u64; 16], u8> {
    let header = read_header(pack)?;
    let shape = header.shape;
    let [l1, l2, l3] = shape.lengths;
    let sizes = [
        shape.cells(),
        shape.cube_bytes(),
        shape.capacity(),
        shape.file_bytes(),
        header.pack_bytes(),
        header.used_cells(),
    ];
    let mut needs = [0; 16];
    for (place, number) in [l1, l2, l3, shape.w].into_iter().chain(sizes).enumerate() {
        needs[place] = number as u64;
    }
    Ok(needs)
}

/// Reads a pack as the writer does.
pub fn read_job(pack: &[u8]) -> Result<Job<'_>, u8> {
    let mut rest = Rest(pack);
    let header = rest.header()?;
    let count = rest.count()?;
    if count > header.shape.file_bytes() as u64 {
        return Err(10);
    }
    if ((header.used_cells() * header.shape.w) as u64) < COUNT as u64 + count {
        return Err(19);
    }
    let file = rest.take(count)?;
    if rest.count()? != 0 {
        return Err(9);
    }
    rest.end()?;
    Ok(Job { header, file })
}

/// Reads a pack as the receiver does.
pub fn read_air(pack: &[u8]) -> Result<Air<'_>, u8> {
    let mut rest = Rest(pack);
    let header = rest.header()?;
    if rest.count()? != 0 {
        return Err(9);
    }
    let packets = rest.count()?;
    let size = header.shape.packet_bytes();
    let section = rest.take(packets * size as u64)?;
    rest.end()?;
    let packets = section.chunks(size).map(|packet| {
        let (place, bytes) = packet.split_at(3);
        let place = place.try_into().expect("three coordinates");
        Packet { place, bytes }
    });
    Ok(Air {
        header,
        packets: packets.collect(),
    })
}

/// The bytes of a pack that are not read yet.
struct Rest<'a>(&'a [u8]);

impl<'a> Rest<'a> {
    fn take(&mut self, count: u64) -> Result<&'a [u8], u8> {
        if count > self.0.len() as u64 {
            return Err(6);
        }
        let (taken, rest) = self.0.split_at(count as usize);
        self.0 = rest;
        Ok(taken)
    }

    fn count(&mut self) -> Result<u64, u8> {
        self.take(COUNT as u64).map(number)
    }

    /// Section 1: a good shape, whose data string has room for the file's length, and a good number of data cells in use.
    fn header(&mut self) -> Result<Header, u8> {
        let count = self.count()?;
        if count != 5 && count != 9 {
            return Err(7);
        }
        Header::of_section(self.take(count)?)
    }

    fn end(self) -> Result<(), u8> {
        if self.0.is_empty() { Ok(()) } else { Err(8) }
    }
}

/// The number that these bytes write, low first.
pub(crate) fn number(bytes: &[u8]) -> u64 {
    bytes
        .iter()
        .rev()
        .fold(0, |high, &byte| 256 * high + u64::from(byte))
}

/// The pack of this header, file and packets. The lengths fit in a byte, W in two and U in four.
pub fn pack(header: impl Into<Header>, file: &[u8], packets: &[Packet]) -> Vec<u8> {
    let section = header.into().section();
    let mut pack = count(section.len()).to_vec();
    pack.extend(section);
    pack.extend(count(file.len()));
    pack.extend(file);
    pack.extend(count(packets.len()));
    for packet in packets {
        pack.extend(packet.place);
        pack.extend(packet.bytes);
    }
    pack
}

/// The four bytes of a count.
pub(crate) fn count(number: usize) -> [u8; COUNT] {
    u32::try_from(number)
        .expect("a count has four bytes")
        .to_le_bytes()
}

/// The packet of a cell of a cube.
pub fn packet(shape: Shape, cube: &[u8], cell: usize) -> Packet<'_> {
    Packet {
        place: shape.coordinates(cell).map(|coordinate| coordinate as u8),
        bytes: &cube[shape.bytes(cell)],
    }
}

#[cfg(test)]
mod tests {
    use super::*;

    const SHAPE: [u8; 9] = [5, 0, 0, 0, 3, 3, 3, 5, 0];

    /// 4 by 3 by 3 cells of 5 bytes, of which the first of two data cells is in use.
    const USED: [u8; 13] = [9, 0, 0, 0, 4, 3, 3, 5, 0, 1, 0, 0, 0];

    fn with(rest: &[u8]) -> Vec<u8> {
        [&SHAPE, rest].concat()
    }

    fn used_with(rest: &[u8]) -> Vec<u8> {
        [&USED, rest].concat()
    }

    #[test]
    fn numbers_are_low_byte_first() {
        assert_eq!(number(&[0x01, 0x04]), 1025);
        assert_eq!(number(&[0x00, 0x00, 0x00, 0x20]), 0x2000_0000);
        assert_eq!(count(1025), [0x01, 0x04, 0x00, 0x00]);
    }

    #[test]
    fn whole_packs() {
        let file: &[u8] = &[0x08];
        let bytes: &[u8] = &[1, 2, 3, 4, 5];
        let place = [2, 1, 255];
        for (header, section) in [
            (Shape::new(3, 3, 3, 5).into(), &SHAPE[..]),
            (Shape::new(4, 3, 3, 5).used(1), &USED),
        ] {
            let job = pack(header, file, &[]);
            let behind = [1, 0, 0, 0, 0x08, 0, 0, 0, 0];
            assert_eq!(job, [section, &behind].concat());
            assert_eq!(read_job(&job), Ok(Job { header, file }));

            let packets = vec![Packet { place, bytes }];
            let air = pack(header, &[], &packets);
            let behind = [0, 0, 0, 0, 1, 0, 0, 0, 2, 1, 255, 1, 2, 3, 4, 5];
            assert_eq!(air, [section, &behind].concat());
            assert_eq!(read_air(&air), Ok(Air { header, packets }));
        }
    }

    #[test]
    fn what_a_pack_needs() {
        for (section, needed) in [
            (&SHAPE[..], [3, 3, 3, 5, 27, 135, 5, 1, 233, 1]),
            (&USED, [4, 3, 3, 5, 36, 180, 10, 6, 21 + 35 * 8, 1]),
        ] {
            let needed = [&needed[..], &[0; 6]].concat().try_into();
            assert_eq!(needs(section), needed.map_err(|_| 0));
            assert_eq!(needs(&[section, &[0xFF; 100]].concat()), needs(section));
            for len in 0..section.len() {
                assert_eq!(needs(&section[..len]), Err(6));
            }
        }
    }

    #[test]
    fn checks_in_order() {
        // The refusals of the writer and of the receiver.
        for (pack, writer, receiver) in [
            (vec![], 6, 6),
            (vec![5, 0, 0], 6, 6),
            (vec![4, 0, 0, 0], 7, 7),
            (vec![5, 0, 0, 1], 7, 7),
            (vec![9, 0, 1, 0], 7, 7),
            (vec![5, 0, 0, 0, 2, 3, 3, 5], 6, 6),
            (vec![9, 0, 0, 0, 2, 3, 3, 5, 0, 1, 0, 0], 6, 6),
            (vec![5, 0, 0, 0, 2, 3, 3, 0, 0], 1, 1),
            (vec![5, 0, 0, 0, 3, 3, 3, 0, 0], 2, 2),
            (vec![5, 0, 0, 0, 255, 255, 65, 0xF9, 3], 3, 3),
            (vec![5, 0, 0, 0, 3, 3, 3, 3, 0], 10, 10),
            (vec![9, 0, 0, 0, 2, 3, 3, 0, 0, 0, 0, 0, 0], 1, 1),
            (vec![9, 0, 0, 0, 3, 3, 3, 0, 0, 0, 0, 0, 0], 2, 2),
            (vec![9, 0, 0, 0, 255, 255, 65, 0xF9, 3, 0, 0, 0, 0], 3, 3),
            (vec![9, 0, 0, 0, 3, 3, 3, 3, 0, 0, 0, 0, 0], 10, 10),
            (vec![9, 0, 0, 0, 3, 3, 3, 5, 0, 0, 0, 0, 0], 19, 19),
            (vec![9, 0, 0, 0, 3, 3, 3, 5, 0, 2, 0, 0, 0], 19, 19),
            (with(&[0xFF; 3]), 6, 6),
            (with(&[0xFF; 4]), 10, 9),
            (with(&[2, 0, 0, 0]), 10, 9),
            (with(&[1, 0, 0, 0]), 6, 9),
            (with(&[0; 7]), 6, 6),
            (with(&[0, 0, 0, 0, 1, 0, 0, 0]), 9, 6),
            (with(&[0, 0, 0, 0, 0, 0, 0, 0x20]), 9, 6),
            (with(&[0; 9]), 8, 8),
            // A file has room for 6 bytes, and the cell in use for 1 of them.
            (used_with(&[0xFF; 3]), 6, 6),
            (used_with(&[7, 0, 0, 0]), 10, 9),
            (used_with(&[6, 0, 0, 0]), 19, 9),
            (used_with(&[2, 0, 0, 0]), 19, 9),
            (used_with(&[1, 0, 0, 0]), 6, 9),
            (used_with(&[0; 7]), 6, 6),
            (used_with(&[0, 0, 0, 0, 1, 0, 0, 0]), 9, 6),
            (used_with(&[0; 9]), 8, 8),
        ] {
            assert_eq!(read_job(&pack).err(), Some(writer), "{pack:?}");
            assert_eq!(read_air(&pack).err(), Some(receiver), "{pack:?}");
        }
    }
}
