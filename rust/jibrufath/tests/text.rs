//! The calls on texts compared with the independent program: answers and every lent byte, over garbage. What is accepted goes both
//! ways: each text that is read is written back, and each that is written is read back.

use std::collections::BTreeMap;

use compare::{FromText, KINDS, LARGE_SHAPES, Source, TEXT_KINDS, ToText, broken_words, twin};
use jibrufath::text::{from_text, to_text};
use jibrufath::{Error, Refusal, Shape};
use reference::pack::{Packet, pack, read_air};
use reference::random::Random;
use reference::text::{Text, print};

/// A number, with the packet or the line that it names; none where the call does its work.
type Refused = Option<(u8, Option<u64>)>;

fn refused(answer: Result<(), reference::Refusal>) -> Refused {
    answer.err().map(|refusal| (refusal.number, refusal.place))
}

/// The text read by both programs, which must agree.
fn read(trial: &FromText) -> Refused {
    let answer = trial.compare(&mut Random::new(8500));
    let told = |difference| {
        let text = String::from_utf8_lossy(&trial.text);
        panic!("{text:?}: {difference}")
    };
    refused(answer.unwrap_or_else(told))
}

/// The text, lent the exact length for its pack.
fn read_exact(text: impl Into<Vec<u8>>) -> Refused {
    read(&FromText::new(text.into()))
}

/// The pack written as text by both programs, which must agree.
fn write(trial: &ToText) -> Refused {
    let answer = trial.compare(&mut Random::new(8501));
    let told = |difference| panic!("{:02X?}: {difference}", trial.air);
    refused(answer.unwrap_or_else(told))
}

/// A refusal of a line.
fn line(number: u64) -> Refused {
    Some((17, Some(number)))
}

/// A refusal that names no place.
fn plain(number: u8) -> Refused {
    Some((number, None))
}

/// A refusal of a packet.
fn packet(index: u64) -> Refused {
    Some((11, Some(index)))
}

/// Small texts in the form, with what the reader answers.
const SMALL: [(&str, Refused); 6] = [
    ("shape 3 3 3 4\n", None),
    ("shape 3 4 5 5\npacket 0 0 0 01 00 00 00 a8\n", None),
    (
        "shape 10 3 255 1\npacket 9 2 0 f0\npacket 0 0 254 0f\n",
        None,
    ),
    ("shape 3 3 3 0\npacket 0 0 0\n", Some((2, None))),
    ("shape 99999 0 3 1\npacket 7 0 0 9a\n", Some((1, None))),
    (
        "shape 4 3 3 2\npacket 1 2 0 00 00\npacket 100 0 0 00 ff\n",
        Some((11, Some(1))),
    ),
];

/// A text with this word in one of its seven number places.
fn with_word(place: usize, word: &str) -> String {
    let mut words = ["3", "3", "3", "4", "0", "0", "0"];
    words[place] = word;
    let [l1, l2, l3, w, a, b, c] = words;
    let first = format!("shape {l1} {l2} {l3} {w}\n");
    // Where W is the word, no packet says how many bytes it has.
    match place {
        3 => first,
        _ => format!("{first}packet {a} {b} {c} 01 23 45 67\n"),
    }
}

/// What the reader answers to a number in one of the seven places.
fn judged(place: usize, number: usize) -> Refused {
    match (place, number) {
        (0..=2, 3..=255) => None,
        (0..=2, _) => plain(1),
        (3, 4..=1024) => None,
        (3, 1..=3) => plain(10),
        (3, _) => plain(2),
        (_, 0..=2) => None,
        _ => packet(0),
    }
}

#[test]
fn every_decimal_in_each_place() {
    for place in 0..7 {
        for number in 0..100_000 {
            let text = with_word(place, &number.to_string());
            assert_eq!(read_exact(&*text), judged(place, number), "{text}");
        }
    }
}

/// Each decimal once in each place, changed to a word that is no number; those at the limits in every way.
#[test]
fn near_misses_of_decimals() {
    let limits = [0, 2, 3, 9, 10, 255, 256, 1024, 1025, 9_999, 10_000, 99_999];
    for place in 0..7 {
        let expected = line(if place < 4 { 1 } else { 2 });
        for number in 0..100_000 {
            let mut words = broken_words(&number.to_string());
            if !limits.contains(&number) {
                words = vec![words.swap_remove((number + place) % words.len())];
            }
            for word in words {
                let text = with_word(place, &word);
                assert_eq!(read_exact(&*text), expected, "{text:?}");
            }
        }
        for number in 100_000..100_200 {
            let text = with_word(place, &number.to_string());
            assert_eq!(read_exact(&*text), expected, "{text:?}");
        }
    }
}

/// Numbers that a byte, or two, would cut to good ones.
#[test]
fn no_number_is_cut() {
    for place in 0..7 {
        for above in [256, 512, 65_536, 65_792, 98_304] {
            for number in [0, 3, 4, 200] {
                let text = with_word(place, &(above + number).to_string());
                let expected = judged(place, above + number);
                assert_eq!(read_exact(&*text), expected, "{text}");
            }
        }
    }
}

#[test]
fn every_byte_written_in_hexadecimal() {
    let lines: String = (0..=255u8)
        .map(|byte| format!("packet 0 0 0 {byte:02x} {:02x} {byte:02x} 00\n", !byte))
        .collect();
    assert_eq!(read_exact(format!("shape 3 3 3 4\n{lines}")), None);
    // Every pair of bytes in the place of two digits.
    for first in 0..=255u8 {
        for second in 0..=255u8 {
            let digits = |digit: u8| matches!(digit, b'0'..=b'9' | b'a'..=b'f');
            let in_form = digits(first) && digits(second);
            let text = [
                &b"shape 3 3 3 4\npacket 0 0 0 00 "[..],
                &[first, second],
                b" ff 00\n",
            ];
            let expected = if in_form { None } else { line(2) };
            assert_eq!(
                read_exact(text.concat()),
                expected,
                "{first:02X}h {second:02X}h"
            );
        }
    }
}

#[test]
fn every_character_replaced_by_every_byte() {
    for (text, expected) in SMALL {
        assert_eq!(read_exact(text), expected, "{text}");
        for at in 0..text.len() {
            for byte in 0..=255 {
                let mut changed = text.as_bytes().to_vec();
                changed[at] = byte;
                read_exact(changed);
            }
        }
    }
}

#[test]
fn every_character_deleted_and_every_byte_inserted() {
    for (text, _) in SMALL {
        for at in 0..=text.len() {
            let (before, behind) = text.as_bytes().split_at(at);
            for byte in 0..=255 {
                read_exact([before, &[byte], behind].concat());
            }
            if let [_, behind @ ..] = behind {
                read_exact([before, behind].concat());
            }
        }
    }
}

#[test]
fn cut_at_every_character() {
    for (text, _) in SMALL {
        for at in 0..text.len() {
            let cut = &text[..at];
            let whole_lines = cut.is_empty() || cut.ends_with('\n');
            match (whole_lines, at) {
                (true, 1..) => {
                    let number = read_exact(cut).map(|(number, _)| number);
                    assert_ne!(number, Some(17), "{cut:?}");
                }
                _ => {
                    let broken = 1 + cut.matches('\n').count() as u64;
                    assert_eq!(read_exact(cut), line(broken), "{cut:?}");
                }
            }
        }
    }
}

#[test]
fn lines_that_break_the_form() {
    const SHAPE: &str = "shape 3 3 3 4\n";
    const A: &str = "packet 0 0 0 01 02 03 04\n";
    const B: &str = "packet 2 1 0 fc fd fe ff\n";
    let cr = |line: &str| line.replace('\n', "\r\n");
    let no_end = |line: &str| line.trim_end_matches('\n').to_string();
    let with = |parts: &[&str]| parts.concat();
    for (text, expected) in [
        // Lines in the form, in any order, any number of times.
        (with(&[SHAPE, A, B]), None),
        (with(&[SHAPE, B, A]), None),
        (with(&[SHAPE, A, A, B, A]), None),
        (with(&[SHAPE]), None),
        // No line, or an empty one.
        (with(&[]), line(1)),
        (with(&["\n"]), line(1)),
        (with(&["\n", SHAPE]), line(1)),
        (with(&[SHAPE, "\n"]), line(2)),
        (with(&[SHAPE, "\n", A]), line(2)),
        (with(&[SHAPE, A, "\n", B]), line(3)),
        (with(&[SHAPE, A, B, "\n"]), line(4)),
        (with(&[SHAPE, A, B, "\n\n"]), line(4)),
        // No newline at the end.
        (no_end(SHAPE), line(1)),
        (no_end(&with(&[SHAPE, A])), line(2)),
        (no_end(&with(&[SHAPE, A, B])), line(3)),
        // Newlines of other systems.
        (cr(SHAPE), line(1)),
        (cr(&with(&[SHAPE, A, B])), line(1)),
        (with(&[SHAPE, &cr(A), B]), line(2)),
        (with(&[SHAPE, A, &cr(B)]), line(3)),
        (with(&[SHAPE, A, B]).replace('\n', "\r"), line(1)),
        (with(&[SHAPE, A, B, "\0"]), line(4)),
        (with(&["\u{FEFF}", SHAPE]), line(1)),
        // Lines out of their places, joined, or in two parts.
        (with(&[A, SHAPE]), line(1)),
        (with(&[A, B]), line(1)),
        (with(&[SHAPE, SHAPE]), line(2)),
        (with(&[SHAPE, SHAPE, A]), line(2)),
        (with(&[SHAPE, A, SHAPE, B]), line(3)),
        (with(&[&no_end(SHAPE), A]), line(1)),
        (with(&[&no_end(SHAPE), " ", A]), line(1)),
        (with(&[SHAPE, &no_end(A), B]), line(2)),
        (with(&[SHAPE, &no_end(A), " ", B]), line(2)),
        (with(&[SHAPE, A, "packet 0 0 0 01 02\n 03 04\n"]), line(3)),
        (with(&[SHAPE, A, "packet\n", B]), line(3)),
        // Words more or less, or others.
        (with(&["shape 3 3 3\n"]), line(1)),
        (with(&["shape 3 3 3 4 4\n"]), line(1)),
        (with(&["shape\n"]), line(1)),
        (with(&["Shape 3 3 3 4\n"]), line(1)),
        (with(&["shapes 3 3 3 4\n"]), line(1)),
        (with(&[SHAPE, "packet 0 0 01 02 03 04\n"]), line(2)),
        (with(&[SHAPE, "packet 0 0 0 01 02 03\n"]), line(2)),
        (with(&[SHAPE, "packet 0 0 0 01 02 03 04 05\n"]), line(2)),
        (with(&[SHAPE, "packet 0 0 0\n"]), line(2)),
        (with(&[SHAPE, "PACKET 0 0 0 01 02 03 04\n"]), line(2)),
        (with(&[SHAPE, "hole 0 0 0\n"]), line(2)),
        (with(&[SHAPE, "packet 0 0 0 01020304\n"]), line(2)),
        (with(&[SHAPE, "packet 0 0 0 01 02 03 4\n"]), line(2)),
        (with(&[SHAPE, "packet 0 0 0 01 02 03 0A\n"]), line(2)),
        // Spaces more or less, or others.
        (with(&[SHAPE, "packet 0 0 0 01 02 03 04 \n"]), line(2)),
        (with(&[SHAPE, " packet 0 0 0 01 02 03 04\n"]), line(2)),
        (with(&[SHAPE, "packet  0 0 0 01 02 03 04\n"]), line(2)),
        (with(&[SHAPE, "packet 0 0 0  01 02 03 04\n"]), line(2)),
        (with(&[SHAPE, "packet 0 0 0\t01 02 03 04\n"]), line(2)),
        (with(&[SHAPE, "packet0 0 0 01 02 03 04\n"]), line(2)),
        // The first of two.
        (with(&[SHAPE, A, "\n", B, "packet\n"]), line(3)),
    ] {
        assert_eq!(read_exact(&*text), expected, "{text:?}");
    }
}

#[test]
fn checks_of_the_reader_in_order() {
    const FAR: &str = "packet 256 99999 255 00 00 00 00\n";
    let far = |first: &str| format!("{first}{FAR}");
    // The text, the bytes lent for its pack, the answer.
    for (text, air_len, expected) in [
        // 17 comes before all else, also on the last line.
        ("shape 2 3 3 0\npacket\n".into(), 0, line(2)),
        (far("shape 255 255 255 1025\n"), 0, line(2)),
        (far("shape 3 3 3 4\n") + "\n", 24, line(3)),
        // Then the shape.
        ("shape 2 3 3 0\n".into(), 17, plain(1)),
        ("shape 3 256 3 0\n".into(), 17, plain(1)),
        ("shape 3 3 99999 99999\n".into(), 17, plain(1)),
        ("shape 0 0 0 0\npacket 0 0 0\n".into(), 20, plain(1)),
        ("shape 3 3 3 0\n".into(), 17, plain(2)),
        ("shape 3 3 3 0\npacket 0 0 9\n".into(), 20, plain(2)),
        ("shape 255 255 255 1025\n".into(), 17, plain(2)),
        ("shape 255 255 255 99999\n".into(), 17, plain(2)),
        ("shape 255 255 255 17\n".into(), 17, plain(3)),
        ("shape 128 128 17 1024\n".into(), 17, plain(3)),
        ("shape 3 3 3 3\n".into(), 0, plain(10)),
        ("shape 3 3 3 1\npacket 3 3 3 00\n".into(), 0, plain(10)),
        // Then the slice, then the packets.
        (far("shape 3 3 3 4\n"), 23, plain(4)),
        (far("shape 3 3 3 4\n"), 25, plain(4)),
        (far("shape 3 3 3 4\n"), 0, plain(4)),
        (far("shape 3 3 3 4\n"), 24, packet(0)),
        ("shape 255 255 255 16\n".into(), 17, None),
        ("shape 128 128 16 1024\n".into(), 17, None),
    ] {
        let text = text.into_bytes();
        let what = String::from_utf8_lossy(&text).into_owned();
        assert_eq!(read(&FromText { text, air_len }), expected, "{what}");
    }
}

/// 3 by 4 by 5 cells of 6 bytes, and so many packets, of which one may name a cell outside the cube.
fn some_pack(packets: usize, outside: Option<(usize, [u8; 3])>) -> Vec<u8> {
    let shape = reference::Shape::new(3, 4, 5, 6);
    let bytes: Vec<[u8; 6]> = (0..packets).map(|i| [i as u8 ^ 0xA5; 6]).collect();
    let packets = (0..packets).map(|i| {
        let place = match outside {
            Some((at, place)) if at == i => place,
            _ => shape.coordinates(i % 60).map(|coordinate| coordinate as u8),
        };
        Packet {
            place,
            bytes: &bytes[i],
        }
    });
    pack(shape, &[], &packets.collect::<Vec<_>>())
}

/// The text of a pack, whatever cells its packets name.
fn text_of(air: &[u8]) -> String {
    print(&Text::of_air(&read_air(air).expect("a pack")))
}

#[test]
fn checks_of_the_writer_in_order() {
    let head = |count: u8, rest: &[u8]| [&[count, 0, 0, 0][..], rest].concat();
    let outside = some_pack(2, Some((1, [3, 0, 0])));
    let exact = ToText::new(outside.clone()).text_len;
    // The pack, the bytes lent for its text, the answer.
    for (air, text_len, expected) in [
        (vec![], 0, plain(6)),
        (vec![5, 0, 0], 0, plain(6)),
        (vec![4, 0, 0, 0], 0, plain(7)),
        (vec![9, 0, 0, 0], 0, plain(7)),
        // A text has no place for a number of used data cells, good or bad, cut or whole.
        (head(9, &[2, 3, 3, 0, 0, 0, 0, 0, 0]), 0, plain(7)),
        (head(9, &[3, 3, 3, 5, 0, 1, 0, 0]), 0, plain(7)),
        (
            head(9, &[3, 3, 3, 5, 0, 1, 0, 0, 0, 0, 0, 0, 0, 0, 0, 0, 0]),
            14,
            plain(7),
        ),
        (head(5, &[2, 3, 3, 0]), 0, plain(6)),
        (head(5, &[2, 3, 3, 0, 0]), 0, plain(1)),
        (head(5, &[3, 3, 3, 0, 0]), 0, plain(2)),
        (head(5, &[255, 255, 255, 1, 4]), 0, plain(2)),
        (head(5, &[255, 255, 255, 17, 0]), 0, plain(3)),
        (head(5, &[3, 3, 3, 3, 0]), 0, plain(10)),
        (head(5, &[3, 3, 3, 4, 0, 0]), 0, plain(6)),
        (head(5, &[3, 3, 3, 4, 0, 1, 0, 0, 0]), 0, plain(9)),
        (head(5, &[3, 3, 3, 4, 0, 0, 0, 0, 0, 1]), 0, plain(6)),
        (outside[..outside.len() - 1].to_vec(), exact, plain(6)),
        ([&outside[..], &[0]].concat(), exact, plain(8)),
        (outside.clone(), exact - 1, plain(4)),
        (outside.clone(), exact + 1, plain(4)),
        (outside.clone(), 0, plain(4)),
        (outside, exact, packet(1)),
    ] {
        let what = format!("{air:?}, {text_len} bytes lent");
        assert_eq!(write(&ToText { air, text_len }), expected, "{what}");
    }
}

#[test]
fn slices_of_other_lengths() {
    for packets in [0, 1, 2, 60, 200] {
        let air = some_pack(packets, None);
        let text = text_of(&air);
        assert_eq!(write(&ToText::new(air.clone())), None);
        assert_eq!(read_exact(&*text), None);
        let others = |exact: usize| [0, 1, exact - 1, exact + 1, exact + 8, 2 * exact];
        for text_len in others(text.len()) {
            let air = air.clone();
            assert_eq!(write(&ToText { air, text_len }), plain(4), "{text_len}");
        }
        for air_len in others(air.len()) {
            let text = text.clone().into_bytes();
            assert_eq!(read(&FromText { text, air_len }), plain(4), "{air_len}");
        }
    }
}

#[test]
fn the_first_packet_outside() {
    for index in [0, 1, 7, 59, 60, 99] {
        for place in [
            [3, 0, 0],
            [0, 4, 0],
            [0, 0, 5],
            [255, 255, 255],
            [2, 3, 255],
        ] {
            let mut air = some_pack(100, Some((index, place)));
            // A later packet is outside, too.
            air[17 + 99 * 9] = 254;
            let text = text_of(&air);
            assert_eq!(write(&ToText::new(air)), packet(index as u64));
            assert_eq!(read_exact(text), packet(index as u64));
        }
    }
}

#[test]
fn random_packs_to_text() {
    let mut random = Random::new(8503);
    let mut seen = BTreeMap::new();
    for case in 0..20_000 {
        let (kind, make) = KINDS[case % KINDS.len()];
        let air = make(&mut random);
        let trial = ToText::random(&mut random, air);
        let answer = trial.compare(&mut random);
        let answer = answer.unwrap_or_else(|difference| panic!("{kind}: {difference}\n{trial:?}"));
        *seen
            .entry(answer.map_err(|refusal| refusal.number))
            .or_insert(0) += 1;
    }
    for number in [1, 2, 3, 4, 6, 7, 8, 9, 10, 11] {
        assert!(seen[&Err(number)] > 20, "{seen:?}");
    }
    assert!(seen[&Ok(())] > 5_000 && seen.len() == 11, "{seen:?}");
}

#[test]
fn random_texts_to_packs() {
    let mut random = Random::new(8504);
    let mut seen = BTreeMap::new();
    for case in 0..27_000 {
        let (kind, make) = TEXT_KINDS[case % TEXT_KINDS.len()];
        let text = make(&mut random);
        let trial = FromText::random(&mut random, text);
        let answer = trial.compare(&mut random);
        let answer = answer.unwrap_or_else(|difference| panic!("{kind}: {difference}\n{trial:?}"));
        *seen
            .entry(answer.map_err(|refusal| refusal.number))
            .or_insert(0) += 1;
    }
    for number in [1, 2, 3, 4, 10, 11, 17] {
        assert!(seen[&Err(number)] > 40, "{seen:?}");
    }
    assert!(seen[&Ok(())] > 3_000 && seen.len() == 8, "{seen:?}");
}

/// Copies of a cell that repeat each other or differ are lines like any other.
#[test]
fn repeats_and_copies_that_differ() {
    let text = "shape 3 3 3 4\n\
        packet 1 1 1 00 00 00 00\n\
        packet 1 1 1 00 00 00 00\n\
        packet 1 1 1 00 00 00 01\n\
        packet 1 1 1 00 00 00 00\n";
    assert_eq!(read_exact(text), None);
    let air = from_text(text.as_bytes()).expect("a text in the form");
    assert_eq!(write(&ToText::new(air.clone())), None);
    assert_eq!(to_text(&air).as_deref(), Ok(text));
}

#[test]
fn large_shapes() {
    let mut random = Random::new(8505);
    for large in LARGE_SHAPES {
        let shape = twin(large);
        let source = Source::with_file(&mut random, shape);
        let some: Vec<usize> = (0..shape.cells()).filter(|_| random.chance(20)).collect();
        let mut air = source.air(&mut random, some);
        assert_eq!(write(&ToText::new(air.clone())), None, "{shape:?}");
        let mut text = to_text(&air).expect("a pack").into_bytes();
        assert_eq!(read_exact(text.clone()), None, "{shape:?}");
        // The last line loses its newline; the last packet is outside.
        text.pop();
        let lines = text.iter().filter(|&&byte| byte == b'\n').count() as u64;
        assert_eq!(read_exact(text), line(lines + 1), "{shape:?}");
        let last = air.len() - shape.packet_bytes();
        air[last + 2] = 255;
        assert_eq!(write(&ToText::new(air)), packet(lines - 1), "{shape:?}");
    }
}

#[test]
fn memory_of_its_own() {
    let mut random = Random::new(8506);
    let as_refused = |error: Error| match error {
        Error::Refused(refusal) => compare::placed(refusal),
        other => panic!("{other}"),
    };
    for case in 0..3_600 {
        let (kind, make) = KINDS[case % KINDS.len()];
        let air = make(&mut random);
        let ToText { text_len, .. } = ToText::new(air.clone());
        let mut text = vec![0; text_len];
        let expected = reference::write_text(&air, &mut text);
        let given = to_text(&air).map(String::into_bytes).map_err(as_refused);
        assert_eq!(given, expected.map(|()| text), "{kind}");
    }
    for case in 0..3_600 {
        let (kind, make) = TEXT_KINDS[case % TEXT_KINDS.len()];
        let text = make(&mut random);
        let FromText { air_len, .. } = FromText::new(text.clone());
        let mut air = vec![0; air_len];
        let expected = reference::read_text(&text, &mut air);
        let given = from_text(&text).map_err(as_refused);
        assert_eq!(given, expected.map(|()| air), "{kind}");
    }
}

/// The form by its own sentences: shape, packets, decimals, digits.
#[test]
fn a_text_by_hand() {
    let shape = Shape::new(3, 10, 255, 10);
    let bytes = [0x00, 0x01, 0x09, 0x0A, 0x0F, 0x10, 0x7F, 0x80, 0xA0, 0xFF];
    let packets = [[2, 9, 254], [0, 0, 0], [1, 0, 100]].map(|place| Packet {
        place,
        bytes: &bytes,
    });
    let air = pack(twin(shape), &[], &packets);
    let expected = "shape 3 10 255 10\n\
        packet 2 9 254 00 01 09 0a 0f 10 7f 80 a0 ff\n\
        packet 0 0 0 00 01 09 0a 0f 10 7f 80 a0 ff\n\
        packet 1 0 100 00 01 09 0a 0f 10 7f 80 a0 ff\n";
    assert_eq!(to_text(&air).as_deref(), Ok(expected));
    assert_eq!(from_text(expected.as_bytes()), Ok(air));
    let broken = expected.replace("7f", "7F");
    let refusal = Refusal::Line { line: 2 };
    assert_eq!(from_text(broken.as_bytes()), Err(Error::Refused(refusal)));
}
