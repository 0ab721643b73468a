//! Random packs of every kind, whole and damaged.

use std::ops::Range;

use reference::pack::{COUNT, pack, packet, read_header};
use reference::random::Random;
use reference::write::data_string;
use reference::{Header, Shape};

use crate::copies::{all_differ, last_byte_differs, one_differs, some_differ, two_transponders};
use crate::unsent::{file_at_the_limit, header_cut, other_used, random_used, unsent_packet};
use crate::{Embedded, SHAPES_AT_THE_LIMITS, random_shape, twin};

/// Makes a random pack.
type Make = fn(&mut Random) -> Vec<u8>;

/// The kinds of packs, each with the function that makes one.
pub const KINDS: [(&str, Make); 26] = [
    ("a file to write", job),
    ("every packet", every_packet),
    ("packets lost at random", lost_at_random),
    ("planes lost", planes_lost),
    ("cells in succession lost", burst_lost),
    ("a stopping set lost", stopping_set_lost),
    ("no packet", no_packet),
    ("no room for the file's length", no_room),
    ("wrong bytes in packets", wrong_bytes),
    ("a copy with other bytes", one_differs),
    ("cells whose copies differ", some_differ),
    ("every cell's copies differ", all_differ),
    ("copies that differ in the last byte", last_byte_differs),
    ("two transponders", two_transponders),
    ("a cell outside the cube", cell_outside),
    ("a data string of no file", no_file),
    ("cut", cut),
    ("bytes after the end", bytes_after),
    ("another count", other_count),
    ("another shape", other_shape),
    ("bytes changed", bytes_changed),
    ("garbage", garbage),
    ("a packet for an unsent cell", unsent_packet),
    ("another number of data cells in use", other_used),
    ("a file that just fits the cells in use", file_at_the_limit),
    ("section 1 of count 9 cut", header_cut),
];

/// How many of the kinds, the first ones, are whole packs.
const WHOLE: usize = 7;

/// The kinds in which copies of a cell differ.
pub const COPY_KINDS: Range<usize> = 9..14;

/// The most bytes of an air pack before its packets.
const MOST_HEAD: usize = 21;

/// So many of a hundred packs have a section 1 of count 9, where the kind asks for neither count.
const USED_PERCENT: usize = 33;

/// A shape whose data string has room for the file's length.
pub(crate) fn roomy_shape(random: &mut Random) -> Shape {
    loop {
        let shape = twin(random_shape(random));
        if shape.capacity() >= COUNT {
            return shape;
        }
    }
}

/// Such a shape with all data cells in use, or with some that have this room.
fn roomy_header(random: &mut Random) -> Header {
    let shape = roomy_shape(random);
    perhaps_used(random, shape)
}

fn perhaps_used(random: &mut Random, shape: Shape) -> Header {
    match random.chance(USED_PERCENT) {
        true => random_used(random, shape),
        false => shape.into(),
    }
}

/// A file that the data cells in use have room for; now and then the shortest, the longest, or one that ends in 00h.
fn random_file(random: &mut Random, header: Header) -> Vec<u8> {
    let room = header.used_cells() * header.shape.w - COUNT;
    let len = match random.among(0..=9) {
        0 => 0,
        1 => room,
        _ => random.among(0..=room),
    };
    let mut file = random.bytes(len);
    if random.chance(10) {
        file[len / 2..].fill(0x00);
    }
    file
}

/// A code cube that packets are taken from, and the number of its data cells in use, where section 1 says it.
pub struct Source {
    pub shape: Shape,
    pub used: Option<usize>,
    pub cube: Vec<u8>,
}

impl Source {
    /// The code cube with this data string, which should be 00h behind the data cells in use.
    pub fn new(header: impl Into<Header>, data: &[u8]) -> Source {
        let Header { shape, used } = header.into();
        let mut cube = vec![0; shape.cube_bytes()];
        reference::encode(shape, data, &mut cube).expect("the shape is good");
        Source { shape, used, cube }
    }

    /// The code cube with a random file, where there is room for one.
    pub fn with_file(random: &mut Random, header: impl Into<Header>) -> Source {
        let header = header.into();
        let file = random_file(random, header);
        Source::new(header, &data_string(header.shape, &file))
    }

    pub(crate) fn random(random: &mut Random) -> Source {
        let header = roomy_header(random);
        Source::with_file(random, header)
    }

    /// What section 1 of its packs says.
    pub fn header(&self) -> Header {
        let Source { shape, used, .. } = *self;
        Header { shape, used }
    }

    /// The air pack with the packets of these cells, each any number of times, in any order.
    pub fn air(&self, random: &mut Random, mut cells: Vec<usize>) -> Vec<u8> {
        if !cells.is_empty() && random.chance(50) {
            for _ in 0..random.among(1..=cells.len()) {
                cells.push(random.pick(&cells));
            }
        }
        if random.chance(50) {
            cells = random.shuffled(&cells);
        }
        self.air_in_order(&cells)
    }

    /// The air pack with the packets of these cells.
    pub fn air_in_order(&self, cells: &[usize]) -> Vec<u8> {
        let packets = cells
            .iter()
            .map(|&cell| packet(self.shape, &self.cube, cell));
        pack(self.header(), &[], &packets.collect::<Vec<_>>())
    }

    /// The air pack of a random part of the cells that are sent.
    pub(crate) fn some_of_it(&self, random: &mut Random) -> Vec<u8> {
        let percent = random.among(0..=100);
        let mut cells = self.header().sent();
        cells.retain(|_| !random.chance(percent));
        self.air(random, cells)
    }

    /// The air pack of the cells that are sent, without those that are lost.
    pub fn without(&self, random: &mut Random, lost: impl Fn(usize) -> bool) -> Vec<u8> {
        let mut cells = self.header().sent();
        cells.retain(|&cell| !lost(cell));
        self.air(random, cells)
    }
}

pub(crate) fn job(random: &mut Random) -> Vec<u8> {
    let header = roomy_header(random);
    job_of(random, header)
}

/// A file to write, where there is room for one.
pub(crate) fn job_of(random: &mut Random, header: impl Into<Header>) -> Vec<u8> {
    let header = header.into();
    pack(header, &random_file(random, header), &[])
}

fn every_packet(random: &mut Random) -> Vec<u8> {
    Source::random(random).without(random, |_| false)
}

fn lost_at_random(random: &mut Random) -> Vec<u8> {
    Source::random(random).some_of_it(random)
}

fn planes_lost(random: &mut Random) -> Vec<u8> {
    let source = Source::random(random);
    let axis = random.among(0..=2);
    let count = random.among(1..=3);
    let planes = random.different(count, source.shape.lengths[axis]);
    source.without(random, |cell| {
        planes.contains(&source.shape.coordinates(cell)[axis])
    })
}

fn burst_lost(random: &mut Random) -> Vec<u8> {
    let source = Source::random(random);
    let [l1, l2, _] = source.shape.lengths;
    let count = random.among(1..=2 * l1 * l2);
    let first = random.among(0..=source.shape.cells() - count);
    source.without(random, |cell| (first..first + count).contains(&cell))
}

fn stopping_set_lost(random: &mut Random) -> Vec<u8> {
    let mut set = match random.among(0..=1) {
        0 => Embedded::new(random, [3, 3, 3], 1, |_| true),
        _ => Embedded::new(random, [4, 4, 3], 1, |[i, j, _]| i != j),
    };
    set.shape.w = random.among(4..=8);
    // But for one cell, perhaps.
    if random.chance(30) {
        set.cells.pop();
    }
    let header = perhaps_used(random, twin(set.shape));
    let source = Source::with_file(random, header);
    source.without(random, |cell| set.cells.contains(&cell))
}

fn no_packet(random: &mut Random) -> Vec<u8> {
    pack(roomy_header(random), &[], &[])
}

fn no_room(random: &mut Random) -> Vec<u8> {
    let w = random.among(1..=3);
    let count = random.among(0..=2);
    let file = random.bytes(count);
    let shape = Shape::new(3, 3, 3, w);
    match random.chance(USED_PERCENT) {
        true => pack(shape.used(random.among(0..=2)), &file, &[]),
        false => pack(shape, &file, &[]),
    }
}

fn wrong_bytes(random: &mut Random) -> Vec<u8> {
    let mut source = Source::random(random);
    for _ in 0..random.among(1..=3) {
        let at = random.among(0..=source.cube.len() - 1);
        source.cube[at] ^= random.nonzero_byte();
    }
    source.some_of_it(random)
}

fn cell_outside(random: &mut Random) -> Vec<u8> {
    let source = Source::random(random);
    let shape = source.shape;
    let mut air = source.without(random, |_| false);
    let head = source.header().bytes();
    let packets = (air.len() - head) / shape.packet_bytes();
    for _ in 0..random.among(1..=2) {
        let start = head + random.among(0..=packets - 1) * shape.packet_bytes();
        let axis = random.among(0..=2);
        air[start + axis] = random.among(shape.lengths[axis]..=255) as u8;
    }
    air
}

fn no_file(random: &mut Random) -> Vec<u8> {
    let header = roomy_header(random);
    let shape = header.shape;
    let room = shape.file_bytes() as u32;
    let mut data = data_string(shape, &random_file(random, header));
    let last = data.len() - 1;
    match random.among(0..=3) {
        0 => data.fill_with(|| random.byte()),
        1 => data[random.among(0..=last)] ^= random.nonzero_byte(),
        2 => data[last] ^= random.nonzero_byte(),
        // Another length: one of the longest that there is room for, that there is no room for, or that can be written.
        _ => {
            let len = random.pick(&[room, room + 1, u32::MAX - 4, u32::MAX - 3, u32::MAX]);
            data[..COUNT].copy_from_slice(&len.to_le_bytes());
        }
    }
    Source::new(header, &data).some_of_it(random)
}

/// Any whole pack; half of them are jobs.
pub(crate) fn whole(random: &mut Random) -> Vec<u8> {
    if random.chance(50) {
        return job(random);
    }
    let (_, make) = random.pick(&KINDS[..WHOLE]);
    make(random)
}

fn cut(random: &mut Random) -> Vec<u8> {
    let mut pack = whole(random);
    let last = pack.len() - 1;
    let most = random.pick(&[last, last.min(MOST_HEAD + 6)]);
    pack.truncate(random.among(0..=most));
    pack
}

fn bytes_after(random: &mut Random) -> Vec<u8> {
    let mut pack = whole(random);
    let count = random.among(1..=12);
    pack.extend(random.bytes(count));
    pack
}

fn other_count(random: &mut Random) -> Vec<u8> {
    let mut pack = whole(random);
    let count_at = |at: usize| {
        let count = pack[at..at + COUNT].try_into().expect("four bytes");
        u32::from_le_bytes(count)
    };
    let file = COUNT + count_at(0) as usize;
    let places = [0, file, file + COUNT + count_at(file) as usize];
    let at = random.pick(&places);
    let count = count_at(at);
    let header = read_header(&pack).expect("section 1 is good");
    let room = header.shape.file_bytes() as u32;
    let others = [
        0,
        1,
        count.wrapping_sub(1),
        count + 1,
        random.among(5..=10) as u32,
        room,
        room + 1,
        0x2000_0000,
        u32::MAX,
        random.number() as u32,
    ];
    pack[at..at + COUNT].copy_from_slice(&random.pick(&others).to_le_bytes());
    pack
}

fn other_shape(random: &mut Random) -> Vec<u8> {
    let mut pack = whole(random);
    match random.among(0..=2) {
        0 => pack[random.among(4..=8)] = random.pick(&[0, 1, 2, 3, 4, 5, 127, 128, 254, 255]),
        1 => {
            let w = random.pick(&[0, 1, 3, 4, 5, 1023, 1024, 1025, 65535u16]);
            pack[7..9].copy_from_slice(&w.to_le_bytes());
        }
        _ => {
            let (shape, _) = random.pick(&SHAPES_AT_THE_LIMITS);
            let lengths = [shape.l1, shape.l2, shape.l3].map(|length| length as u8);
            pack[4..7].copy_from_slice(&lengths);
            pack[7..9].copy_from_slice(&(shape.w as u16).to_le_bytes());
        }
    }
    pack
}

fn bytes_changed(random: &mut Random) -> Vec<u8> {
    let mut pack = whole(random);
    let last = pack.len() - 1;
    for _ in 0..random.among(1..=3) {
        let most = random.pick(&[last, last.min(MOST_HEAD - 1)]);
        pack[random.among(0..=most)] ^= random.nonzero_byte();
    }
    pack
}

/// Random bytes, perhaps behind a good section 1.
fn garbage(random: &mut Random) -> Vec<u8> {
    let len = random.among(0..=60);
    let bytes = random.bytes(len);
    if random.chance(50) {
        return bytes;
    }
    let header = roomy_header(random);
    let mut head = pack(header, &[], &[]);
    head.truncate(header.bytes() - 2 * COUNT);
    [head, bytes].concat()
}
