//! The receiver: packets are collected by their cells, the cube is filled, and the file read where nothing is left.
//!
//! A cell is known where packets name it and all of them have the same bytes, or where it is unsent.

use std::collections::BTreeMap;

use crate::pack::{Air, COUNT, Packet, number, read_air};
use crate::{Shape, extract, fill};

/// What came of a pack that was not refused.
#[derive(Clone, Copy, Debug, PartialEq, Eq)]
pub struct Received {
    pub outcome: Outcome,
    pub packets: u64,
    pub repeats: u64,
    /// The cells whose copies are not all equal.
    pub conflicts: u64,
}

#[derive(Clone, Copy, Debug, PartialEq, Eq)]
pub enum Outcome {
    /// Nothing is left, and the file has this length.
    File { len: usize },
    /// So many cells are left.
    Left { cells: usize },
}

/// The number of a refusal and the place that it names: with 11 a packet's index, with 17 a line's number, with 18 an offset.
#[derive(Clone, Copy, Debug, PartialEq, Eq)]
pub struct Refusal {
    pub number: u8,
    pub place: Option<u64>,
}

impl From<u8> for Refusal {
    fn from(number: u8) -> Refusal {
        Refusal {
            number,
            place: None,
        }
    }
}

impl Refusal {
    pub(crate) fn at(number: u8, place: usize) -> Refusal {
        Refusal {
            number,
            place: Some(place as u64),
        }
    }
}

/// Receives an air pack.
pub fn receive_pack(
    air: &[u8],
    cube: &mut [u8],
    flags: &mut [u8],
    file: &mut [u8],
) -> Result<Received, Refusal> {
    let Air { header, packets } = read_air(air)?;
    let shape = header.shape;
    let lent = [cube.len(), flags.len(), file.len()];
    if lent != [shape.cube_bytes(), shape.cells(), shape.file_bytes()] {
        return Err(4.into());
    }
    let unsent = header.unsent();
    let sent = |packet: &Packet| cell_of(shape, packet).is_some_and(|cell| !unsent[cell]);
    if let Some(index) = packets.iter().position(|packet| !sent(packet)) {
        return Err(Refusal::at(11, index));
    }
    let heard = copies(shape, &packets);
    let (known, in_conflict): (BTreeMap<_, _>, BTreeMap<_, _>) = heard
        .iter()
        .partition(|(_, copies)| copies.iter().all(|&copy| copy == copies[0]));
    // Missing cells are 00h wherever the paper says what they hold, and so are unsent ones.
    cube.fill(0x00);
    for (flag, unsent) in flags.iter_mut().zip(unsent) {
        *flag = if unsent { 2 } else { 1 };
    }
    for (&cell, copies) in known {
        cube[shape.bytes(cell)].copy_from_slice(copies[0]);
        flags[cell] = 0;
    }
    let outcome = match fill(shape, cube, flags)? {
        0 => Outcome::File {
            len: read_file(shape, cube, file)?,
        },
        cells => Outcome::Left { cells },
    };
    Ok(Received {
        outcome,
        packets: packets.len() as u64,
        repeats: (packets.len() - heard.len()) as u64,
        conflicts: in_conflict.len() as u64,
    })
}

/// The cell that a packet names; none where that is outside the cube.
fn cell_of(shape: Shape, packet: &Packet) -> Option<usize> {
    let place = packet.place.map(usize::from);
    let inside = (0..3).all(|axis| place[axis] < shape.lengths[axis]);
    inside.then(|| shape.cell(place))
}

/// The cells that packets name, each with the bytes of all its packets.
fn copies<'a>(shape: Shape, packets: &[Packet<'a>]) -> BTreeMap<usize, Vec<&'a [u8]>> {
    let mut copies: BTreeMap<usize, Vec<&[u8]>> = BTreeMap::new();
    for packet in packets {
        let cell = cell_of(shape, packet).expect("a cell that is sent");
        copies.entry(cell).or_default().push(packet.bytes);
    }
    copies
}

/// Reads the file of a code cube, and answers its length; 14 where the data string is none of a file.
fn read_file(shape: Shape, cube: &[u8], file: &mut [u8]) -> Result<usize, u8> {
    let mut data = vec![0; shape.capacity()];
    extract(shape, cube, &mut data)?;
    let (head, rest) = data.split_at(COUNT);
    let len = number(head);
    if len > rest.len() as u64 {
        return Err(14);
    }
    let (held, after) = rest.split_at(len as usize);
    if after.iter().any(|&byte| byte != 0x00) {
        return Err(14);
    }
    file[..held.len()].copy_from_slice(held);
    Ok(held.len())
}

#[cfg(test)]
mod tests {
    use super::*;
    use crate::encode;
    use crate::pack::{pack, packet};
    use crate::write::data_string;

    /// 3 by 3 by 3 cells of 6 bytes: a file has up to 2.
    const SHAPE: Shape = Shape {
        lengths: [3; 3],
        w: 6,
    };

    fn code_cube(data: &[u8]) -> Vec<u8> {
        let mut cube = vec![0; SHAPE.cube_bytes()];
        encode(SHAPE, data, &mut cube).unwrap();
        cube
    }

    /// What the lent memory holds before: other bytes than any answer leaves.
    struct Memory {
        cube: Vec<u8>,
        flags: Vec<u8>,
        file: Vec<u8>,
    }

    fn memory() -> Memory {
        Memory {
            cube: vec![0xAA; 162],
            flags: vec![0xBB; 27],
            file: vec![0xCC; 2],
        }
    }

    impl Memory {
        fn receive(&mut self, packets: &[Packet]) -> Result<Received, Refusal> {
            let air = pack(SHAPE, &[], packets);
            receive_pack(&air, &mut self.cube, &mut self.flags, &mut self.file)
        }
    }

    #[test]
    fn a_file_comes_back() {
        let right = code_cube(&data_string(SHAPE, &[0x08]));
        let packets = [26, 26].map(|cell| packet(SHAPE, &right, cell));
        let mut memory = memory();
        let received = Received {
            outcome: Outcome::File { len: 1 },
            packets: 2,
            repeats: 1,
            conflicts: 0,
        };
        assert_eq!(memory.receive(&packets), Ok(received));
        assert_eq!(memory.cube, right);
        assert_eq!(memory.flags, [0; 27]);
        assert_eq!(memory.file, [0x08, 0xCC]);
    }

    #[test]
    fn nothing_heard() {
        let mut memory = memory();
        let received = Received {
            outcome: Outcome::Left { cells: 27 },
            packets: 0,
            repeats: 0,
            conflicts: 0,
        };
        assert_eq!(memory.receive(&[]), Ok(received));
        assert_eq!(memory.cube, [0x00; 162]);
        assert_eq!(memory.flags, [1; 27]);
        assert_eq!(memory.file, [0xCC; 2]);
    }

    #[test]
    fn a_packet_outside() {
        let [a, b]: [&[u8]; 2] = [&[1; 6], &[2; 6]];
        let at = |place, bytes| Packet { place, bytes };
        let packets = [at([0; 3], a), at([0, 0, 3], a), at([0; 3], b)];
        let mut kept = memory();
        assert_eq!(kept.receive(&packets), Err(Refusal::at(11, 1)));
        assert_eq!((kept.cube[0], kept.flags[0]), (0xAA, 0xBB));
    }

    /// 4 by 3 by 3 cells of 6 bytes: of two data cells the second, which is cell 1, is unsent.
    #[test]
    fn unsent_cells() {
        let header = Shape::new(4, 3, 3, 6).used(1);
        let shape = header.shape;
        let mut right = vec![0; shape.cube_bytes()];
        encode(shape, &data_string(shape, &[7, 8]), &mut right).unwrap();
        let received = |packets: &[Packet]| {
            let air = pack(header, &[], packets);
            let (mut cube, mut flags) = (vec![0xAA; 216], vec![0xBB; 36]);
            let outcome = receive_pack(&air, &mut cube, &mut flags, &mut [0xCC; 8]);
            (outcome.map(|received| received.outcome), cube, flags)
        };
        // Without a packet, the unsent cell forces the plane a = 1, all 00h.
        let flag = |cell: usize| match cell {
            1 => 2,
            _ => u8::from(cell % 4 != 1),
        };
        let (left, cube, flags) = received(&[]);
        assert_eq!(left, Ok(Outcome::Left { cells: 27 }));
        assert_eq!(cube, [0; 216]);
        assert!((0..36).all(|cell| flags[cell] == flag(cell)));

        // The packet of the cell in use is enough.
        let (file, cube, all) = received(&[packet(shape, &right, 0)]);
        assert_eq!((file, cube), (Ok(Outcome::File { len: 2 }), right.clone()));
        assert_eq!(all[..3], [0, 2, 0]);

        // 11 for an unsent cell, and for the first packet that has either fault.
        let outside = Packet {
            place: [4, 0, 0],
            bytes: &right[..6],
        };
        let [used, unsent] = [0, 1].map(|cell| packet(shape, &right, cell));
        for (packets, index) in [
            (vec![unsent], 0),
            (vec![used, unsent, outside], 1),
            (vec![used, outside, unsent], 1),
        ] {
            let refused = (Err(Refusal::at(11, index)), vec![0xAA; 216], vec![0xBB; 36]);
            assert_eq!(received(&packets), refused);
        }

        // A contradiction leaves the unsent cell as it was placed.
        let mut packets: Vec<_> = (2..36).map(|cell| packet(shape, &right, cell)).collect();
        packets[33].bytes = &[0x55; 6];
        let (refused, cube, placed) = received(&packets);
        assert_eq!((refused, &cube[..12]), (Err(13.into()), &[0; 12][..]));
        assert_eq!(
            (&placed[..3], &cube[12..210]),
            (&[1, 2, 0][..], &right[12..210])
        );
    }

    #[test]
    fn copies_that_differ() {
        let right = code_cube(&data_string(SHAPE, &[0x08]));
        let good = packet(SHAPE, &right, 13);
        let wrong = Packet {
            bytes: &[0x55; 6],
            ..good
        };
        for copies in [
            [good, wrong, good],
            [good, good, wrong],
            [wrong, good, good],
        ] {
            // By themselves they make nothing known.
            let received = |outcome, packets| {
                Ok(Received {
                    outcome,
                    packets,
                    repeats: 2,
                    conflicts: 1,
                })
            };
            let mut nothing = memory();
            let left = received(Outcome::Left { cells: 27 }, 3);
            assert_eq!(nothing.receive(&copies), left);
            assert_eq!(nothing.cube, [0x00; 162]);
            assert_eq!(nothing.flags, [1; 27]);
            assert_eq!(nothing.file, [0xCC; 2]);

            // Another packet forces their cell.
            let mut whole = memory();
            let packets = [&copies[..], &[packet(SHAPE, &right, 0)]].concat();
            let file = received(Outcome::File { len: 1 }, 4);
            assert_eq!(whole.receive(&packets), file);
            assert_eq!(whole.cube, right);
            assert_eq!(whole.flags, [0; 27]);
        }
    }

    #[test]
    fn contradiction_leaves_what_was_placed() {
        let right = code_cube(&data_string(SHAPE, &[0x08]));
        let mut packets: Vec<_> = (1..27).map(|cell| packet(SHAPE, &right, cell)).collect();
        packets[25].bytes = &[0x55; 6];
        let mut memory = memory();
        assert_eq!(memory.receive(&packets), Err(13.into()));
        assert_eq!(memory.cube[..6], [0x00; 6]);
        assert_eq!(memory.cube[6..156], right[6..156]);
        assert_eq!(memory.cube[156..], [0x55; 6]);
        assert_eq!((memory.flags[0], &memory.flags[1..]), (1, &[0; 26][..]));
        assert_eq!(memory.file, [0xCC; 2]);
    }

    #[test]
    fn data_strings_of_no_file() {
        for (data, answer) in [
            ([2, 0, 0, 0, 7, 8], Ok(2)),
            ([2, 0, 0, 0, 0, 0], Ok(2)),
            ([1, 0, 0, 0, 7, 0], Ok(1)),
            ([1, 0, 0, 0, 7, 8], Err(14)),
            ([0, 0, 0, 0, 0, 1], Err(14)),
            ([3, 0, 0, 0, 0, 0], Err(14)),
            ([0, 0, 0, 1, 0, 0], Err(14)),
            ([0xFF; 6], Err(14)),
        ] {
            let right = code_cube(&data);
            let mut memory = memory();
            let answered = memory.receive(&[packet(SHAPE, &right, 13)]);
            let len = answered.map(|received| received.outcome);
            let expected = answer.map(|len| Outcome::File { len });
            assert_eq!(len, expected.map_err(Refusal::from), "{data:?}");
            assert_eq!(memory.cube, right);
            assert_eq!(memory.flags, [0; 27]);
            let mut file = [0xCC; 2];
            let len = answer.unwrap_or(0);
            file[..len].copy_from_slice(&data[4..4 + len]);
            assert_eq!(memory.file, file, "{data:?}");
        }
    }
}
