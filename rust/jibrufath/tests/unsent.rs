//! Packs with data cells that are never sent: the writer and the receiver compared with the independent program, answers and every lent
//! byte, over garbage; what the request says of them; and the wrapper's headers.

use std::collections::BTreeMap;

use compare::{
    Answers, KINDS, Lens, SHAPES_AT_THE_LIMITS, Source, Trial, air_of, random_shape, random_used,
    twin,
};
use jibrufath::{
    AirPack, Error, Header, Packet, Received, Refusal, Shape, job_pack, receive_pack, write,
};
use reference::fill::{is_stopping_set, largest_stopping_set};
use reference::pack::{pack, packet};
use reference::random::Random;
use reference::write::data_string;
use reference::{Outcome, needs};

/// Random packs that section 1 of count 9 begins.
const PACKS: usize = 20_000;

/// 2 by 3 by 4 data cells of 3 bytes: rows of 2, planes of 6.
const SMALL: reference::Shape = reference::Shape {
    lengths: [4, 5, 6],
    w: 3,
};

/// Both calls by both programs, which must agree.
fn tried(what: &str, trial: &Trial) -> Answers {
    trial
        .compare(&mut Random::new(13_000))
        .unwrap_or_else(|difference| panic!("{what}: {difference}"))
}

/// The numbers that the writer and the receiver refuse a pack with.
fn refusals(what: &str, pack: Vec<u8>) -> [Option<u8>; 2] {
    let Answers { write, receive } = tried(what, &Trial::new(pack));
    [write.err(), receive.err().map(|refusal| refusal.number)]
}

/// The header of the independent program.
fn twin_header(header: Header) -> reference::Header {
    reference::Header {
        shape: twin(header.shape),
        used: header.used,
    }
}

/// A random header that has room for the file's length.
fn random_header(random: &mut Random) -> Header {
    loop {
        let shape = random_shape(random);
        if twin(shape).capacity() >= 4 {
            let used = random_used(random, twin(shape)).used_cells();
            return shape.used(used);
        }
    }
}

#[test]
fn random_packs() {
    let mut random = Random::new(13_001);
    let mut writer = BTreeMap::new();
    let mut receiver = BTreeMap::new();
    let (mut case, mut compared) = (0, 0);
    while compared < PACKS {
        case += 1;
        let kind = case % KINDS.len();
        let trial = Trial::random(&mut random, kind);
        if trial.pack.first() != Some(&9) {
            continue;
        }
        compared += 1;
        let Answers { write, receive } = trial
            .compare(&mut random)
            .unwrap_or_else(|difference| panic!("{}: {difference}", KINDS[kind].0));
        let heard = receive.map(|received| matches!(received.outcome, Outcome::File { .. }));
        *writer.entry(write).or_insert(0) += 1;
        *receiver
            .entry(heard.map_err(|refusal| refusal.number))
            .or_insert(0) += 1;
    }
    for number in [1, 2, 3, 4, 6, 8, 9, 10, 19] {
        assert!(writer[&Err(number)] > 10, "{writer:?}");
        assert!(receiver[&Err(number)] > 10, "{receiver:?}");
    }
    for number in [11, 13, 14] {
        assert!(receiver[&Err(number)] > 100, "{receiver:?}");
    }
    assert!(writer[&Ok(())] > 1_000, "{writer:?}");
    for file in [true, false] {
        assert!(receiver[&Ok(file)] > 1_000, "{receiver:?}");
    }
}

/// Every number of used data cells, in the middle of a row, at its end, at a plane's end: what is written, and what is received of it.
#[test]
fn every_number_of_used_cells() {
    let mut random = Random::new(13_002);
    for used in 2..=24 {
        let header = SMALL.used(used);
        let source = Source::with_file(&mut random, header);
        let sent = header.sent();
        assert_eq!(sent.len(), 120 - 24 + used);
        let what = format!("{used} cells in use");
        for cells in [&sent[..], &sent[1..], &sent[..used], &[]] {
            let received = tried(&what, &Trial::new(source.air_in_order(cells))).receive;
            assert!(received.is_ok(), "{what}: {received:?}");
        }
        let file: Vec<u8> = random.bytes(used * 3 - 4);
        let job = pack(header, &file, &[]);
        assert_eq!(tried(&what, &Trial::new(job)).write, Ok(()), "{what}");
        let written = write(Shape::new(4, 5, 6, 3).used(used), &file).expect("the file fits");
        let source = Source::new(header, &data_string(SMALL, &file));
        assert_eq!(written.len(), 21 + sent.len() * 6);
        assert!(written == source.air_in_order(&sent), "{what}");
    }
}

#[test]
fn numbers_of_used_cells_that_are_refused() {
    for (used, number) in [
        (0, Some(19)),
        (1, None),
        (24, None),
        (25, Some(19)),
        (255, Some(19)),
        (24 + (1 << 8), Some(19)),
        (24 + (1 << 16), Some(19)),
        (24 + (1 << 24), Some(19)),
        (1 + (1 << 31), Some(19)),
        (u32::MAX as usize, Some(19)),
    ] {
        let what = format!("{used} cells in use");
        let air = pack(SMALL.used(used), &[], &[]);
        // One cell has no room for the file's length, which is nothing to the receiver.
        let writer = if used == 1 { Some(19) } else { number };
        assert_eq!(refusals(&what, air.clone()), [writer, number], "{what}");
        // The number is judged before section 2 is looked for.
        let number = number.or(Some(6));
        let cut = air[..13].to_vec();
        assert_eq!(refusals(&what, cut), [number, number], "{what}, cut");
    }
}

/// 1, 2, 3 and 10 come before 19; 19 comes before 6, 9 and 8 of the sections behind.
#[test]
fn the_first_of_several_reasons() {
    for (shape, number) in SHAPES_AT_THE_LIMITS {
        let longest = shape.l1.max(shape.l2).max(shape.l3);
        if longest > 255 || shape.w > 65_535 {
            continue;
        }
        let number = match number {
            4 if twin(shape).capacity() >= 4 => 19,
            4 => 10,
            _ => number,
        };
        let what = format!("{shape:?}");
        for rest in [&[][..], &[0], &[0xFF; 8]] {
            let mut air = pack(twin(shape).used(0), &[], &[]);
            air.truncate(13);
            air.extend(rest);
            assert_eq!(refusals(&what, air), [Some(number); 2], "{what}");
        }
        // The whole of section 1 must be there before.
        let air = pack(twin(shape).used(0), &[], &[])[..12].to_vec();
        assert_eq!(refusals(&what, air), [Some(6); 2], "{what}, cut");
    }
}

#[test]
fn files_that_just_fit() {
    // 3 cells of 3 bytes have room for 5 bytes and their length; the cube has room for 68.
    let header = SMALL.used(3);
    for (len, number) in [
        (0, None),
        (4, None),
        (5, None),
        (6, Some(19)),
        (68, Some(19)),
        (69, Some(10)),
    ] {
        let what = format!("a file of {len} bytes");
        let job = pack(header, &vec![7; len], &[]);
        assert_eq!(refusals(&what, job.clone())[0], number, "{what}");
        // 10 and 19 come before the file's bytes are needed.
        let cut = job[..17].to_vec();
        assert_eq!(refusals(&what, cut)[0], number.or(Some(6)), "{what}, cut");
        // 19 comes before the count of section 3.
        let mut other = job;
        other[17 + len] = 1;
        assert_eq!(refusals(&what, other)[0], number.or(Some(9)), "{what}, 9");
    }
}

#[test]
fn cut_at_every_byte() {
    let header = SMALL.used(5);
    let source = Source::new(header, &data_string(SMALL, &[1, 2, 3]));
    let mut bad_length = pack(header, &[], &[]);
    bad_length[5] = 2;
    for (whole, call) in [
        (pack(header, &[1, 2, 3], &[]), 0),
        (pack(header, &[], &[]), 1),
        (source.air_in_order(&[0, 119, 0]), 1),
        (bad_length[..13].to_vec(), 0),
        (bad_length[..13].to_vec(), 1),
    ] {
        for len in 0..whole.len() {
            let refusal = refusals("cut", whole[..len].to_vec())[call];
            assert_eq!(refusal, Some(6), "{len} of {} bytes", whole.len());
        }
    }
    assert_eq!(refusals("a length of 2", bad_length), [Some(1); 2]);
}

#[test]
fn counts_of_section_1() {
    let whole = pack(SMALL.used(5), &[], &[]);
    for count in (0..=30_u32).chain([0x0105, 0x0109, 0x0900_0000, 0x0100_0009, u32::MAX]) {
        let mut air = whole.clone();
        air[..4].copy_from_slice(&count.to_le_bytes());
        let what = format!("count {count}");
        let expected = match count {
            // The number of used cells is then the count of section 2.
            5 => [Some(6), Some(9)],
            9 => [None; 2],
            _ => [Some(7); 2],
        };
        assert_eq!(refusals(&what, air), expected, "{what}");
        let cut = count.to_le_bytes().to_vec();
        let number = if count == 5 || count == 9 { 6 } else { 7 };
        assert_eq!(refusals(&what, cut), [Some(number); 2], "{what}, cut");
    }
}

/// The output has the packets of the cells that are sent; the other slices are as long as without the number.
#[test]
fn slices_of_other_lengths() {
    let header = SMALL.used(5);
    let exact = Lens::exact(header);
    assert_eq!(exact.output, 21 + 101 * 6);
    let all = Lens::exact(SMALL);
    assert_eq!(
        [exact.cube, exact.flags, exact.file],
        [all.cube, all.flags, all.file]
    );
    let answers = |lens: Lens| {
        let pack = pack(header, &[], &[]);
        let Answers { write, receive } = tried(&format!("{lens:?}"), &Trial { pack, lens });
        [write.err(), receive.err().map(|refusal| refusal.number)]
    };
    assert_eq!(answers(exact), [None; 2]);
    // The pack of all cells, of a cell more or less, of count 5, and a byte more or less.
    for output in [
        all.output,
        exact.output + 6,
        exact.output - 6,
        17 + 101 * 6,
        0,
        626,
        628,
    ] {
        assert_eq!(answers(Lens { output, ..exact }), [Some(4), None]);
    }
    for less in 1..=3 {
        let [cube, flags, file] = [exact.cube, exact.flags, exact.file].map(|len| len - less);
        assert_eq!(answers(Lens { cube, ..exact }), [Some(4); 2]);
        assert_eq!(answers(Lens { flags, ..exact }), [None, Some(4)]);
        assert_eq!(answers(Lens { file, ..exact }), [None, Some(4)]);
    }
}

/// Of the data cells 0, 1, 4, 5, 8, 9 in the first plane, 5, 8 and 9 are unsent, as all in the planes behind.
#[test]
fn packets_for_unsent_cells() {
    let header = SMALL.used(3);
    let source = Source::new(header, &data_string(SMALL, &[1, 2, 3]));
    let outside = [4, 0, 0];
    // The cells of the packets; where none stands, one is outside the cube. The index of the first packet that is refused.
    for (cells, index) in [
        (vec![Some(5)], Some(0)),
        (vec![Some(4), Some(5)], Some(1)),
        (vec![Some(0), Some(0), Some(8), None], Some(2)),
        (vec![Some(0), None, Some(8)], Some(1)),
        (vec![Some(20)], Some(0)),
        (vec![Some(69)], Some(0)),
        (vec![Some(0), Some(1), Some(4)], None),
        (vec![Some(2), Some(6), Some(12), Some(80), Some(119)], None),
    ] {
        for bytes in [None, Some([7; 3])] {
            let packets = cells.iter().map(|cell| {
                let mut packet = packet(SMALL, &source.cube, cell.unwrap_or(0));
                packet.bytes = bytes.as_ref().map_or(packet.bytes, |bytes| bytes);
                packet.place = cell.map_or(outside, |_| packet.place);
                packet
            });
            let air = pack(header, &[], &packets.collect::<Vec<_>>());
            let received = tried(&format!("{cells:?}"), &Trial::new(air)).receive;
            let place = received.err().filter(|refusal| refusal.number == 11);
            let place = place.and_then(|refusal| refusal.place);
            assert_eq!(place, index, "{cells:?}");
        }
    }
}

/// Without packets the cells left are the largest stopping set of those that are sent, never fewer than 27.
#[test]
fn no_packets() {
    let mut random = Random::new(13_003);
    for _ in 0..500 {
        let header = twin_header(random_header(&mut random));
        let shape = header.shape;
        let missing: Vec<bool> = header.unsent().iter().map(|unsent| !unsent).collect();
        let stuck = largest_stopping_set(shape, &missing);
        let left = stuck.iter().filter(|&&stuck| stuck).count();
        assert!(left >= 27 && is_stopping_set(shape, &stuck), "{header:?}");
        let received = tried("no packet", &Trial::new(pack(header, &[], &[]))).receive;
        let outcome = received.map(|received| received.outcome);
        assert_eq!(outcome, Ok(Outcome::Left { cells: left }), "{header:?}");
    }
}

/// The receiver asks nothing about a file's end: with a length beyond the cells in use the file ends in 00h.
#[test]
fn files_beyond_the_cells_in_use() {
    let header = SMALL.used(2);
    for (len, answer) in [(2, Ok(2)), (3, Ok(3)), (68, Ok(68)), (69, Err(14))] {
        let mut data = vec![0; 72];
        data[..6].copy_from_slice(&[len, 0, 0, 0, 7, 8]);
        let source = Source::new(header, &data);
        for cells in [vec![0, 1], header.sent()] {
            let received = tried("a length", &Trial::new(source.air_in_order(&cells))).receive;
            let len = received.map(|received| match received.outcome {
                Outcome::File { len } => len,
                Outcome::Left { cells } => panic!("{cells} cells are left"),
            });
            assert_eq!(len.map_err(|refusal| refusal.number), answer);
        }
    }
}

/// A list of packets of a written file, with copies that differ, and what is lost of the cells that were sent.
struct Heard {
    air: Vec<u8>,
    lost: Vec<bool>,
}

fn heard(random: &mut Random, source: &Source) -> Heard {
    let percent = random.among(0..=100);
    let mut copies = Vec::new();
    let mut lost = vec![false; source.shape.cells()];
    for cell in source.header().sent() {
        lost[cell] = random.chance(percent);
        if !lost[cell] {
            let times = random.pick(&[1, 1, 1, 2, 3]);
            copies.extend(vec![source.sent(cell); times]);
        } else if random.chance(20) {
            copies.extend(source.differing(random, cell));
        }
    }
    let air = air_of(source.header(), &random.shuffled(&copies));
    Heard { air, lost }
}

/// What the receiver leaves of these packets, over garbage: the flags and the cells are those that the header's table names, and the file
/// buffer changes only where a file comes out. Answers how many cells are left.
fn check_demand(random: &mut Random, source: &Source, file: &[u8], heard: &Heard) -> usize {
    let header = source.header();
    let stuck = largest_stopping_set(header.shape, &heard.lost);
    let left = stuck.iter().filter(|&&stuck| stuck).count();
    let lens = Lens::exact(header);
    let [mut cube, mut flags, before] =
        [lens.cube, lens.flags, lens.file].map(|len| random.bytes(len));
    let mut buffer = before.clone();
    let received = receive_pack(&heard.air, &mut cube, &mut flags, &mut buffer);
    for (cell, unsent) in header.unsent().into_iter().enumerate() {
        let [held, right] = [&cube, &source.cube].map(|cube| &cube[header.shape.bytes(cell)]);
        let (flag, bytes) = match stuck[cell] {
            true => (1, vec![0x00; right.len()]),
            false => (2 * u8::from(unsent), right.to_vec()),
        };
        assert_eq!(
            (flags[cell], held),
            (flag, &bytes[..]),
            "{header:?}, {cell}"
        );
    }
    let came = match received.expect("packets of one code cube") {
        Received::File { len, .. } => {
            assert_eq!((left, len), (0, file.len()), "{header:?}");
            file
        }
        Received::Left { cells, .. } => {
            assert!(left > 0 && cells == left, "{header:?}");
            &[]
        }
    };
    assert!(
        buffer == [came, &before[came.len()..]].concat(),
        "{header:?}"
    );
    left
}

/// A lost place is one that was sent; the file comes back exactly where no stopping set of these exists.
#[test]
fn the_third_demand() {
    let mut random = Random::new(13_004);
    let mut ends = [0; 2];
    for _ in 0..4_000 {
        let header = random_header(&mut random);
        let other = twin_header(header);
        let len = random.among(0..=other.used_cells() * header.shape.w - 4);
        let file = random.bytes(len);
        let source = Source::new(other, &data_string(other.shape, &file));
        let written = write(header, &file).expect("the file fits");
        assert!(written == source.air_in_order(&other.sent()), "{header:?}");
        let heard = heard(&mut random, &source);
        let left = check_demand(&mut random, &source, &file, &heard);
        ends[usize::from(left > 0)] += 1;
    }
    assert!(ends.iter().all(|&count| count > 500), "{ends:?}");
}

/// A builder takes a packet for each cell that is sent, and refuses one for each that is not.
fn check_builder(header: Header) {
    let other = twin_header(header);
    let mut builder = AirPack::new(header).expect("a good header");
    assert_eq!(builder.as_bytes(), pack(other, &[], &[]));
    let bytes = &vec![0; header.shape.w];
    for (cell, unsent) in other.unsent().into_iter().enumerate().take(300) {
        let coordinates = other.shape.coordinates(cell).map(|place| place as u8);
        assert_eq!(header.sends(coordinates), !unsent, "{header:?}, {cell}");
        let packet = u64::from(builder.packets());
        let expected = match unsent {
            true => Err(Refusal::CellIndex { packet }.into()),
            false => Ok(()),
        };
        let pushed = builder.push(Packet { coordinates, bytes });
        assert_eq!(pushed, expected, "{header:?}, {cell}");
    }
}

/// The wrapper's headers: what they need, which cells they send, and the packs that are built with them.
#[test]
fn headers() {
    let mut random = Random::new(13_005);
    for _ in 0..500 {
        let header = random_header(&mut random);
        let air = pack(twin_header(header), &[], &[]);
        assert_eq!(Header::of_pack(&air), Ok(header));
        let places = needs(&air).expect("a good header");
        let [pack_bytes, used] = [places[8], places[9]].map(|size| size as usize);
        let told = header.needs().expect("a good header");
        assert_eq!([told.pack_bytes, told.used], [pack_bytes, used]);
        assert_eq!(header.pack_bytes(), Ok(pack_bytes));
        check_builder(header);
    }
    let shape = Shape::new(4, 5, 6, 3);
    assert_eq!(Header::of_pack(&pack(SMALL, &[], &[])), Ok(shape.into()));
    assert!(!shape.used(3).sends([4, 0, 0]) && !Header::from(shape).sends([0, 0, 6]));
}

/// The fewest cells that have room for a file, and what is refused with one less or with numbers that no pack can hold.
#[test]
fn headers_for_files() {
    let shape = Shape::new(4, 5, 6, 3);
    for len in 0..=68 {
        let header = shape.used_by(len);
        let used = header.used.expect("a number");
        assert_eq!(used, (4 + len).div_ceil(3));
        let file = vec![7; len];
        let job = job_pack(header, &file).expect("the file fits");
        assert_eq!(job, pack(SMALL.used(used), &file, &[]));
        let refused = Err(Error::Refused(Refusal::UsedCells));
        assert_eq!(job_pack(shape.used(used - 1), &file), refused);
        assert_eq!(write(shape.used(used - 1), &file), refused);
    }
    let refused = |header: Header| AirPack::new(header).map(|_| ());
    for (header, refusal) in [
        (shape.used_by(69), Refusal::UsedCells),
        (shape.used_by(usize::MAX), Refusal::UsedCells),
        (shape.used(0), Refusal::UsedCells),
        (shape.used((1 << 32) + 1), Refusal::UsedCells),
        (shape.used(usize::MAX), Refusal::UsedCells),
        (Shape::new(4, 5, 6, 0).used_by(7), Refusal::PacketSize),
        (Shape::new(4, 5, 262, 3).used(1), Refusal::Dimension),
        (Shape::new(3, 3, 3, 3).used(0), Refusal::Capacity),
        (Shape::new(255, 255, 255, 17).used(1), Refusal::CubeSize),
    ] {
        assert_eq!(refused(header), Err(refusal.into()), "{header:?}");
        let job = job_pack(header, &[0; 100]);
        assert_eq!(job, Err(refusal.into()), "{header:?}");
    }
    // A file that the cube has no room for is 10, before the cells in use are asked.
    let job = job_pack(shape.used(1), &[0; 69]);
    assert_eq!(job, Err(Refusal::Capacity.into()));
}
