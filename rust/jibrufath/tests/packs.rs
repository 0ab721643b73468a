//! The writer and the receiver compared with the independent program: answers and every lent byte, over garbage.

use std::collections::BTreeMap;

use compare::{
    Answers, KINDS, LARGE_SHAPES, Lens, SHAPES_AT_THE_LIMITS, Source, Trial, random_shape, twin,
};
use jibrufath::{Error, Reception, Refusal, Shape, receive, write};
use reference::pack::{Packet, pack, packet, read_air};
use reference::random::Random;
use reference::write::data_string;
use reference::{Outcome, Received};

/// Both calls by both programs, which must agree.
fn tried(what: &str, trial: &Trial) -> Answers {
    trial
        .compare(&mut Random::new(5000))
        .unwrap_or_else(|difference| panic!("{what}: {difference}"))
}

/// The numbers that the writer and the receiver refuse a pack with.
fn refusals(what: &str, trial: &Trial) -> [Option<u8>; 2] {
    let Answers { write, receive } = tried(what, trial);
    [write.err(), receive.err().map(|refusal| refusal.number)]
}

/// 3 by 3 by 3 cells of 8 bytes: a file has up to 4.
const SMALL: reference::Shape = reference::Shape {
    lengths: [3; 3],
    w: 8,
};

/// A job of the small shape.
fn small_job() -> Vec<u8> {
    pack(SMALL, &[1, 2, 3], &[])
}

/// The code cube of the same file.
fn small_source() -> Source {
    Source::new(SMALL, &data_string(SMALL, &[1, 2, 3]))
}

#[test]
fn random_packs() {
    let mut random = Random::new(5001);
    let mut writer = BTreeMap::new();
    let mut receiver = BTreeMap::new();
    for case in 0..24_000 {
        let kind = case % KINDS.len();
        let trial = Trial::random(&mut random, kind);
        let Answers { write, receive } = trial
            .compare(&mut random)
            .unwrap_or_else(|difference| panic!("{}: {difference}", KINDS[kind].0));
        let heard = match receive {
            Ok(Received { outcome, .. }) => Ok(matches!(outcome, Outcome::File { .. })),
            Err(refusal) => Err(refusal.number),
        };
        *writer.entry(write).or_insert(0) += 1;
        *receiver.entry(heard).or_insert(0) += 1;
    }
    // Every answer that there is has come often.
    let often = 40;
    for number in [1, 2, 3, 4, 6, 7, 8, 9, 10, 19] {
        assert!(writer[&Err(number)] > often, "{writer:?}");
        assert!(receiver[&Err(number)] > often, "{receiver:?}");
    }
    for number in [11, 13, 14] {
        assert!(receiver[&Err(number)] > often, "{receiver:?}");
    }
    assert!(writer[&Ok(())] > often, "{writer:?}");
    for file in [true, false] {
        assert!(receiver[&Ok(file)] > often, "{receiver:?}");
    }
}

#[test]
fn cut_at_every_byte() {
    let source = small_source();
    let all: Vec<usize> = (0..27).collect();
    for (whole, call) in [
        (small_job(), 0),
        (pack(SMALL, &[], &[]), 0),
        (pack(SMALL, &[], &[]), 1),
        (source.air_in_order(&[0, 13, 13]), 1),
        (source.air_in_order(&all), 1),
    ] {
        for len in 0..whole.len() {
            let trial = Trial::new(whole[..len].to_vec());
            let refusal = refusals("cut", &trial)[call];
            assert_eq!(refusal, Some(6), "{len} of {} bytes", whole.len());
        }
    }
}

#[test]
fn other_counts() {
    let job = small_job();
    let air = small_source().air_in_order(&[0, 13]);
    let nothing = pack(SMALL, &[], &[]);
    // Where the count stands, what it is, and the refusals of the writer and of the receiver.
    for (whole, at, count, writer, receiver) in [
        (&job, 0, 0, 7, 7),
        (&job, 0, 4, 7, 7),
        (&job, 0, 6, 7, 7),
        (&job, 0, 8, 7, 7),
        (&job, 0, 10, 7, 7),
        // The four bytes behind the shape are then the number of used data cells, and 3 are too many.
        (&job, 0, 9, 19, 19),
        (&job, 0, 0x0109, 7, 7),
        (&job, 0, 0x0105, 7, 7),
        (&job, 0, 0x0100_0005, 7, 7),
        (&job, 0, 0xFFFF_FFFF, 7, 7),
        // The file is 1, 2, 3: a shorter one leaves bytes of it for the count of section 3.
        (&job, 9, 0, 9, 6),
        (&job, 9, 2, 9, 9),
        (&job, 9, 4, 6, 9),
        // No room.
        (&job, 9, 5, 10, 9),
        (&job, 9, 0x0100_0003, 10, 9),
        (&job, 9, 0x2000_0000, 10, 9),
        (&job, 9, 0xFFFF_FFFF, 10, 9),
        (&job, 16, 1, 9, 9),
        (&job, 16, 0x0100_0000, 9, 9),
        (&job, 16, 0xFFFF_FFFF, 9, 9),
        // The first byte of the count 2 is the file, and so the count is 0.
        (&air, 9, 1, 8, 9),
        (&air, 9, 0x0100_0000, 10, 9),
        (&air, 9, 0xFFFF_FFFF, 10, 9),
        (&air, 13, 0, 8, 8),
        (&air, 13, 1, 9, 8),
        (&air, 13, 3, 9, 6),
        (&air, 13, 0x0100_0002, 9, 6),
        (&air, 13, 0xFFFF_FFFF, 9, 6),
        (&nothing, 13, 1, 9, 6),
        (&nothing, 13, 0x2000_0000, 9, 6),
    ] {
        let mut changed = whole.clone();
        changed[at..at + 4].copy_from_slice(&u32::to_le_bytes(count));
        let what = format!("count {count:X}h at {at}");
        let answers = refusals(&what, &Trial::new(changed));
        assert_eq!(answers, [Some(writer), Some(receiver)], "{what}");
    }
    // With W 5 a packet has 8 bytes, and so many of them 2^32 bytes: 0 in 32 bits.
    let mut changed = pack(reference::Shape::new(3, 3, 3, 5), &[], &[]);
    changed[13..].copy_from_slice(&u32::to_le_bytes(0x2000_0000));
    assert_eq!(refusals("2^32 bytes", &Trial::new(changed))[1], Some(6));
}

#[test]
fn shapes_at_the_limits() {
    let in_a_pack = |shape: &Shape| {
        let longest = shape.l1.max(shape.l2).max(shape.l3);
        longest <= 255 && shape.w <= 65535
    };
    for (shape, number) in SHAPES_AT_THE_LIMITS {
        if !in_a_pack(&shape) {
            continue;
        }
        // A good shape may still have no room for the file's length.
        let number = match number {
            4 if twin(shape).capacity() < 4 => 10,
            _ => number,
        };
        let what = format!("{shape:?}");
        let mut trial = Trial::new(pack(twin(shape), &[], &[]));
        trial.lens = Lens {
            cube: 1,
            flags: 1,
            file: 1,
            output: 1,
        };
        assert_eq!(refusals(&what, &trial), [Some(number); 2], "{what}");
        // The shape is judged before section 2 is read.
        trial.pack.truncate(9);
        let number = if number == 4 { 6 } else { number };
        assert_eq!(refusals(&what, &trial), [Some(number); 2], "{what}, cut");
        // Section 1 must be whole before.
        trial.pack.truncate(8);
        assert_eq!(refusals(&what, &trial), [Some(6); 2], "{what}, cut short");
    }
}

#[test]
fn capacity_at_the_limit() {
    // The capacity is W.
    for (w, file_len, refusal) in [
        (3, 0, Some(10)),
        (4, 0, None),
        (4, 1, Some(10)),
        (5, 1, None),
        (5, 2, Some(10)),
        (1024, 1020, None),
        (1024, 1021, Some(10)),
    ] {
        let job = pack(reference::Shape::new(3, 3, 3, w), &vec![7; file_len], &[]);
        let what = format!("W {w}, a file of {file_len} bytes");
        assert_eq!(refusals(&what, &Trial::new(job))[0], refusal, "{what}");
    }
}

#[test]
fn slices_of_other_lengths() {
    // Without packets the pack is good for both calls.
    let nothing = pack(SMALL, &[], &[]);
    assert_eq!(refusals("exact", &Trial::new(nothing.clone())), [None; 2]);
    // Which slice: the cube, the flags, the file, the output; and the calls that are lent it.
    for (slice, calls) in [
        (0, [Some(4), Some(4)]),
        (1, [None, Some(4)]),
        (2, [None, Some(4)]),
        (3, [Some(4), None]),
    ] {
        let exact = *Lens::exact(SMALL).each_mut()[slice];
        for len in [0, exact - 1, exact + 1, 2 * exact] {
            let mut trial = Trial::new(nothing.clone());
            *trial.lens.each_mut()[slice] = len;
            let what = format!("{:?}", trial.lens);
            assert_eq!(refusals(&what, &trial), calls, "{what}");
        }
    }
}

#[test]
fn the_first_of_several_reasons() {
    let wrong_lens = Lens {
        cube: 1,
        flags: 1,
        file: 1,
        output: 1,
    };
    let outside = Packet {
        place: [3, 0, 0],
        bytes: &[0; 8],
    };
    let exact = Lens::exact(SMALL);
    let with = |bytes: &[u8]| [&pack(SMALL, &[], &[])[..9], bytes].concat();
    let after = |mut pack: Vec<u8>| {
        pack.push(0);
        pack
    };
    for (pack, lens, writer, receiver) in [
        // A count that is not 5, and nothing behind it.
        (vec![4, 0, 0, 0], exact, 7, 7),
        // Section 2's count, and nothing behind it.
        (with(&[0xFF; 4]), exact, 10, 9),
        (with(&[4, 0, 0, 0]), exact, 6, 9),
        (with(&[5, 0, 0, 0]), exact, 10, 9),
        // Section 3's count, and nothing behind it.
        (with(&[0, 0, 0, 0, 1, 0, 0, 0]), exact, 9, 6),
        // Bytes after the end, and wrong slices.
        (after(pack(SMALL, &[], &[])), wrong_lens, 8, 8),
        // Wrong slices, and a packet outside.
        (pack(SMALL, &[], &[outside]), wrong_lens, 9, 4),
    ] {
        let what = format!("{pack:?}");
        let answers = refusals(&what, &Trial { pack, lens });
        assert_eq!(answers, [Some(writer), Some(receiver)], "{what}");
    }
}

#[test]
fn packets_outside() {
    let [x, y] = [[0, 0, 0], [2, 2, 2u8]];
    // The packets by their places and one byte of their cells; the index of the first outside.
    for (packets, index) in [
        (vec![([3, 0, 0], 1)], 0),
        (vec![([0, 3, 0], 1)], 0),
        (vec![([0, 0, 3], 1)], 0),
        (vec![([255, 255, 255], 1)], 0),
        (vec![(x, 1), (y, 1), ([0, 255, 0], 1), ([3, 0, 0], 1)], 2),
        // All indexes are checked before any packet is placed.
        (vec![(x, 1), (x, 2), ([3, 0, 0], 1)], 2),
        (vec![(x, 1), ([3, 0, 0], 1), (x, 2)], 1),
        (vec![([0, 3, 0], 1), ([0, 3, 0], 2)], 0),
    ] {
        let cells: Vec<[u8; 8]> = packets
            .iter()
            .map(|&(_, byte)| [7, 7, 7, 7, 7, 7, 7, byte])
            .collect();
        let packets: Vec<Packet> = packets
            .iter()
            .zip(&cells)
            .map(|(&(place, _), bytes)| Packet { place, bytes })
            .collect();
        let what = format!("{packets:?}");
        let answer = tried(&what, &Trial::new(pack(SMALL, &[], &packets))).receive;
        let refusal = answer.expect_err(&what);
        assert_eq!((refusal.number, refusal.place), (11, Some(index)), "{what}");
    }
}

#[test]
fn places_left_and_contradictions() {
    let block = reference::Shape::new(3, 3, 3, 8);
    let flat = reference::Shape::new(4, 4, 3, 2);
    let cubic = reference::Shape::new(4, 4, 4, 2);
    let none = |_: [usize; 3]| false;
    let all = |_| true;
    let first = |place| place == [0, 0, 0];
    let but_first = |place| place != [0, 0, 0];
    let off_diagonal = |[a, b, _]: [usize; 3]| a != b;
    let latin = |[a, b, c]: [usize; 3]| (a + b + c) % 4 != 0;
    // The cells lost; whether a byte of cell (0,0,0) is wrong; the cells left, or the refusal.
    for (shape, lost, wrong, answer) in [
        (block, none as fn([usize; 3]) -> bool, false, Ok(0)),
        (block, but_first, false, Ok(0)),
        (block, all, false, Ok(27)),
        (flat, off_diagonal, false, Ok(36)),
        (cubic, latin, false, Ok(48)),
        (block, none, true, Err(13)),
        (block, first, true, Ok(0)),
        // The cell is all there is: it makes another cube, whose data string is of no file.
        (block, but_first, true, Err(14)),
        // A line along axis 3 sees the byte, and has no cell that is left.
        (flat, off_diagonal, true, Err(13)),
        // Every line that sees the byte has cells that are left.
        (cubic, latin, true, Ok(48)),
    ] {
        let mut source = Source::new(shape, &data_string(shape, &[]));
        if wrong {
            source.cube[shape.w - 1] ^= 0x10;
        }
        let heard = |cell: &usize| !lost(shape.coordinates(*cell));
        let heard: Vec<usize> = (0..shape.cells()).filter(heard).collect();
        let what = format!("{shape:?}, {} heard, wrong: {wrong}", heard.len());
        let received = tried(&what, &Trial::new(source.air_in_order(&heard))).receive;
        let left = received.map(|received| match received.outcome {
            Outcome::File { .. } => 0,
            Outcome::Left { cells } => cells,
        });
        assert_eq!(left.map_err(|refusal| refusal.number), answer, "{what}");
    }
}

#[test]
fn data_strings_of_no_file() {
    for (data, answer) in [
        ([4, 0, 0, 0, 1, 2, 3, 4], Ok(4)),
        ([4, 0, 0, 0, 0, 0, 0, 0], Ok(4)),
        ([3, 0, 0, 0, 1, 2, 3, 0], Ok(3)),
        ([0; 8], Ok(0)),
        ([3, 0, 0, 0, 1, 2, 3, 4], Err(14)),
        ([0, 0, 0, 0, 1, 0, 0, 0], Err(14)),
        ([0, 0, 0, 0, 0, 0, 0, 255], Err(14)),
        ([5, 0, 0, 0, 0, 0, 0, 0], Err(14)),
        ([4, 1, 0, 0, 0, 0, 0, 0], Err(14)),
        ([0, 0, 0, 1, 0, 0, 0, 0], Err(14)),
        // 4 more than these is 0 in 32 bits.
        ([252, 255, 255, 255, 0, 0, 0, 0], Err(14)),
        ([255; 8], Err(14)),
    ] {
        let source = Source::new(SMALL, &data);
        for cells in [vec![26], vec![26, 0, 26], (0..27).collect()] {
            let received = tried("data string", &Trial::new(source.air_in_order(&cells))).receive;
            let outcome = received.map(|received| received.outcome);
            let expected = answer.map(|len| Outcome::File { len });
            assert_eq!(
                outcome.map_err(|refusal| refusal.number),
                expected,
                "{data:?}"
            );
        }
    }
}

#[test]
fn packets_and_repeats_are_counted() {
    let source = small_source();
    for (cells, left, packets, repeats) in [
        (&[] as &[usize], 27, 0, 0),
        (&[5], 0, 1, 0),
        (&[5, 5, 5], 0, 3, 2),
        (&[5, 6, 5, 6, 7], 0, 5, 2),
    ] {
        let received = tried("counts", &Trial::new(source.air_in_order(cells))).receive;
        let outcome = match left {
            0 => Outcome::File { len: 3 },
            cells => Outcome::Left { cells },
        };
        let expected = Received {
            outcome,
            packets,
            repeats,
            conflicts: 0,
        };
        assert_eq!(received, Ok(expected), "{cells:?}");
    }
}

#[test]
fn large_packs() {
    let mut random = Random::new(5002);
    for large in LARGE_SHAPES {
        let shape = twin(large);
        let source = Source::with_file(&mut random, shape);
        let two_planes = 2 * large.l1 * large.l2;
        let first = random.among(0..=shape.cells() - two_planes);
        let burst = first..first + two_planes;
        let some: Vec<usize> = (0..shape.cells()).filter(|_| random.chance(40)).collect();
        for (pack, all) in [
            (source.without(&mut random, |_| false), true),
            (
                source.without(&mut random, |cell| burst.contains(&cell)),
                true,
            ),
            (source.air(&mut random, some), false),
        ] {
            let lens = Lens::exact(shape);
            let received = tried(&format!("{shape:?}"), &Trial { pack, lens }).receive;
            let outcome = received.expect("a code cube with losses").outcome;
            assert!(matches!(outcome, Outcome::File { .. }) || !all, "{shape:?}");
        }
    }
}

#[test]
fn memory_of_its_own() {
    let mut random = Random::new(5003);
    for _ in 0..500 {
        let shape = random_shape(&mut random);
        let other = twin(shape);
        if other.capacity() < 4 {
            assert_eq!(write(shape, &[]), Err(Refusal::Capacity.into()));
            continue;
        }
        let len = random.among(0..=other.file_bytes());
        let file = random.bytes(len);
        let source = Source::new(other, &data_string(other, &file));
        let all: Vec<usize> = (0..other.cells()).collect();
        let written = write(shape, &file).expect("the file fits");
        assert!(written == source.air_in_order(&all), "{shape:?}");

        let percent = random.among(0..=100);
        let lost: Vec<bool> = all.iter().map(|_| random.chance(percent)).collect();
        let air = source.without(&mut random, |cell| lost[cell]);
        let stuck = reference::fill::largest_stopping_set(other, &lost);
        let left: Vec<usize> = all.into_iter().filter(|&cell| stuck[cell]).collect();
        let packets = read_air(&air).expect("a good pack").packets.len() as u64;
        let heard = lost.iter().filter(|&&lost| !lost).count() as u64;
        let counts = [packets, packets - heard, 0];
        let reception = receive(&air).expect("a code cube with losses");
        assert!(reception.left().eq(left.iter().copied()), "{shape:?}");
        match reception {
            Reception::File {
                file: received,
                packets,
                repeats,
                conflicts,
                ..
            } => {
                assert!(left.is_empty() && received == file, "{shape:?}");
                assert_eq!([packets, repeats, conflicts], counts, "{shape:?}");
            }
            Reception::Left {
                cells,
                packets,
                repeats,
                conflicts,
                ..
            } => {
                assert_eq!(cells, left.len(), "{shape:?}");
                assert_eq!([packets, repeats, conflicts], counts, "{shape:?}");
            }
        }
    }
}

#[test]
fn refusals_with_memory_of_its_own() {
    for (shape, number) in SHAPES_AT_THE_LIMITS {
        if number != 4 {
            let refused = refusal(write(shape, &[]));
            assert_eq!(refused.map(Refusal::number), Some(number), "{shape:?}");
        }
    }
    assert_eq!(
        write(Shape::new(3, 3, 3, 8), &[7; 5]),
        Err(Refusal::Capacity.into())
    );

    let mut random = Random::new(5004);
    for case in 0..3_600 {
        let (kind, make) = KINDS[case % KINDS.len()];
        let trial = Trial::new(make(&mut random));
        let Err(expected) = tried(kind, &trial).receive else {
            continue;
        };
        // Only a trial whose cube is too large to lend.
        if expected.number == 4 {
            continue;
        }
        let refused = refusal(receive(&trial.pack)).expect(kind);
        assert_eq!(refused.number(), expected.number, "{kind}");
        assert_eq!(refused.packet(), expected.place, "{kind}");
    }
}

/// The refusal in an error; none where the call did its work or had no memory.
fn refusal<T>(result: Result<T, Error>) -> Option<Refusal> {
    match result {
        Err(Error::Refused(refusal)) => Some(refusal),
        _ => None,
    }
}

#[test]
fn example_of_document_01() {
    let shape = reference::Shape::new(3, 3, 3, 5);
    let file = [0x08];
    let written = write(Shape::new(3, 3, 3, 5), &file).expect("the file fits");
    let source = Source::new(shape, &data_string(shape, &file));
    let packets: Vec<Packet> = (1..27)
        .map(|cell| packet(shape, &source.cube, cell))
        .collect();
    let air = pack(shape, &[], &packets);
    assert_eq!(air[17..], written[17 + 8..]);
    let reception = receive(&air).expect("a code cube with one loss");
    assert!(matches!(
        reception,
        Reception::File {
            packets: 26,
            repeats: 0,
            conflicts: 0,
            ..
        }
    ));
    assert_eq!(reception.into_file().as_deref(), Some(&file[..]));
}
