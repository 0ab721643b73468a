//! Random texts of every kind, in the form and damaged.

use reference::pack::read_air;
use reference::random::Random;
use reference::text::{PacketLine, Text, print};

use crate::{KINDS, SHAPES_AT_THE_LIMITS, twin};

/// Makes a random text.
type Make = fn(&mut Random) -> Vec<u8>;

/// The kinds of texts, each with the function that makes one.
pub const TEXT_KINDS: [(&str, Make); 9] = [
    ("the text of a pack", text),
    ("a text of other numbers", other_numbers),
    ("a text with a cell outside the cube", cell_outside),
    ("a text with a word that is no number", wrong_word),
    ("a text cut", cut),
    ("a text with characters changed", characters_changed),
    ("a text with characters more or less", characters_moved),
    ("a text with lines moved", lines_moved),
    ("no text", no_text),
];

/// A text has at most so many packets, but for one in fifty, which has all of its pack.
const FEW: usize = 12;

/// Numbers at the limits of the checks, of a byte and of the form.
const EDGE_NUMBERS: [usize; 18] = [
    0, 1, 2, 3, 4, 9, 10, 99, 100, 254, 255, 256, 257, 1024, 1025, 65_539, 99_998, 99_999,
];

/// Characters that stand in texts, and their neighbours.
const NEAR: &[u8] = b" \n\r\t019afgAF/:`@packetshape+-._\0\x7F\x80\xFF";

/// The text of a random air pack, taken apart; its packets may repeat each other, disagree or name cells outside the cube.
fn taken_apart(random: &mut Random) -> Text {
    loop {
        let (_, make) = random.pick(&KINDS);
        let pack = make(random);
        let Ok(mut air) = read_air(&pack) else {
            continue;
        };
        if !random.chance(2) {
            air.packets.truncate(random.among(0..=FEW));
        }
        return Text::of_air(&air);
    }
}

fn text(random: &mut Random) -> Vec<u8> {
    print(&taken_apart(random)).into()
}

/// Other numbers on the first line or on a packet's line, mostly with as many bytes on each line as the first line says.
fn other_numbers(random: &mut Random) -> Vec<u8> {
    let mut text = taken_apart(random);
    let number = match random.among(0..=3) {
        0 => random.among(0..=99_999),
        _ => random.pick(&EDGE_NUMBERS),
    };
    match random.among(0..=5) {
        0 => text.shape.w = number,
        1 => text.shape.lengths[random.among(0..=2)] = number,
        2 => {
            for line in &mut text.packets {
                line.place[random.among(0..=2)] = number;
            }
        }
        3 => text.shape = reference::Shape::new(3, 3, 3, random.among(0..=4)),
        _ => {
            let (shape, _) = random.pick(&SHAPES_AT_THE_LIMITS);
            let modulo = |number: usize| number % 100_000;
            text.shape = twin(shape);
            text.shape.lengths = text.shape.lengths.map(modulo);
            text.shape.w = modulo(shape.w).min(2_000);
        }
    }
    if random.chance(80) {
        for line in &mut text.packets {
            line.bytes.resize(text.shape.w.min(2_000), 0xC3);
        }
    }
    print(&text).into()
}

fn cell_outside(random: &mut Random) -> Vec<u8> {
    let mut text = taken_apart(random);
    text.packets.push(PacketLine {
        place: [0; 3],
        bytes: vec![0x5A; text.shape.w],
    });
    for _ in 0..random.among(1..=2) {
        let line = random.among(0..=text.packets.len() - 1);
        let axis = random.among(0..=2);
        let length = text.shape.lengths[axis];
        // One that is a coordinate modulo 256, too.
        let outside = [length, length + 1, 255, 256, 256 + length, 65_536, 99_999];
        text.packets[line].place[axis] = random.pick(&outside);
    }
    print(&text).into()
}

/// Words that are no number of the form, for one that is.
pub fn broken_words(word: &str) -> Vec<String> {
    let behind = word.get(1..).unwrap_or_default();
    vec![
        String::new(),
        format!("0{word}"),
        format!("00000{word}"),
        format!("+{word}"),
        format!("-{word}"),
        format!(" {word}"),
        format!("{word} "),
        format!("{word}.0"),
        format!("0x{word}"),
        format!("{word}000000"),
        format!("{behind}_{word}"),
        format!("{word}\u{663}"),
        "100000".into(),
        "4294967296".into(),
        "18446744073709551616".into(),
    ]
}

fn wrong_word(random: &mut Random) -> Vec<u8> {
    let text = print(&taken_apart(random));
    let mut lines: Vec<Vec<String>> = text
        .lines()
        .map(|line| line.split(' ').map(String::from).collect())
        .collect();
    let last = lines.len() - 1;
    let line = &mut lines[random.among(0..=last)];
    let at = random.among(0..=line.len() - 1);
    let others = broken_words(&line[at]);
    line[at] = others[random.among(0..=others.len() - 1)].clone();
    let lines = lines.iter().map(|words| words.join(" ") + "\n");
    lines.collect::<String>().into()
}

fn cut(random: &mut Random) -> Vec<u8> {
    let mut text = text(random);
    text.truncate(random.among(0..=text.len() - 1));
    text
}

/// Another character: mostly one that stands in texts.
fn character(random: &mut Random) -> u8 {
    match random.among(0..=3) {
        0 => random.byte(),
        _ => random.pick(NEAR),
    }
}

fn characters_changed(random: &mut Random) -> Vec<u8> {
    let mut text = text(random);
    let last = text.len() - 1;
    for _ in 0..random.among(1..=3) {
        text[random.among(0..=last)] = character(random);
    }
    text
}

fn characters_moved(random: &mut Random) -> Vec<u8> {
    let mut text = text(random);
    for _ in 0..random.among(1..=2) {
        let at = random.among(0..=text.len() - 1);
        match random.among(0..=2) {
            0 => text.insert(at, character(random)),
            1 => drop(text.remove(at)),
            _ => text.insert(at, text[at]),
        }
    }
    text
}

/// A line is taken out, repeated, changed with another, joined to the next or split, or one of another text is put in.
fn lines_moved(random: &mut Random) -> Vec<u8> {
    let text = text(random);
    let mut lines: Vec<Vec<u8>> = text
        .split_inclusive(|&byte| byte == b'\n')
        .map(<[u8]>::to_vec)
        .collect();
    let last = lines.len() - 1;
    let [one, other] = [0; 2].map(|_| random.among(0..=last));
    match random.among(0..=6) {
        0 => drop(lines.remove(one)),
        1 => lines.insert(other, lines[one].clone()),
        2 => lines.swap(one, other),
        3 => drop(lines[one].pop()),
        4 => {
            let at = random.among(0..=lines[one].len() - 1);
            lines[one].insert(at, b'\n');
        }
        5 => lines.insert(one, b"\n".to_vec()),
        _ => lines.push(self::text(random)),
    }
    lines.concat()
}

/// Random bytes, a pack, or nothing.
fn no_text(random: &mut Random) -> Vec<u8> {
    match random.among(0..=3) {
        0 => vec![],
        1 => KINDS[random.among(0..=KINDS.len() - 1)].1(random),
        2 => {
            let len = random.among(1..=40);
            (0..len).map(|_| random.pick(NEAR)).collect()
        }
        _ => {
            let len = random.among(1..=40);
            random.bytes(len)
        }
    }
}

#[cfg(test)]
mod tests {
    use super::*;
    use reference::text::parse;

    #[test]
    fn broken_words_are_broken() {
        for word in ["0", "7", "99999", "packet", "00", "a7"] {
            for broken in broken_words(word) {
                let text = format!("shape {broken} 3 3 5\n");
                assert!(parse(text.as_bytes()).is_err(), "{broken:?}");
            }
        }
    }

    #[test]
    fn texts_of_every_kind() {
        let mut random = Random::new(8001);
        for (kind, make) in TEXT_KINDS {
            let in_form = (0..300).filter(|_| parse(&make(&mut random)).is_ok());
            let in_form = in_form.count();
            match kind {
                "the text of a pack" | "a text with a cell outside the cube" => {
                    assert_eq!(in_form, 300, "{kind}");
                }
                _ => assert!(in_form < 300, "{kind}"),
            }
        }
    }
}
