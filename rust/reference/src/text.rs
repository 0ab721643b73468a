//! The text of an air pack: a line for its shape and one for each packet, printed by `format!` and read by splitting.
//!
//! What is read is printed again and compared: a word is a number of the form where the number is printed as that word.

use std::fmt::Write;
use std::str::from_utf8;

use crate::pack::{Air, COUNT, Packet, number, pack, read_air};
use crate::{Refusal, Shape};

/// The most packets, which is what the count of section 3 can say.
const MOST_PACKETS: usize = 4_294_967_295;

/// Decimals have one to five digits.
const MOST_NUMBER: usize = 99_999;

/// A text in the form: its numbers as they stand there, not yet judged.
#[derive(Debug, PartialEq, Eq)]
pub struct Text {
    pub shape: Shape,
    pub packets: Vec<PacketLine>,
}

/// The numbers a, b and c on a packet's line, perhaps of no cell, and its bytes.
#[derive(Clone, Debug, PartialEq, Eq)]
pub struct PacketLine {
    pub place: [usize; 3],
    pub bytes: Vec<u8>,
}

/// Writes the text of an air pack.
pub fn write_text(air: &[u8], text: &mut [u8]) -> Result<(), Refusal> {
    let twin = Text::of_air(&read_plain(air)?);
    let written = print(&twin);
    if text.len() != written.len() {
        return Err(4.into());
    }
    check_places(&twin)?;
    text.copy_from_slice(written.as_bytes());
    Ok(())
}

/// Reads a text, and writes its air pack.
pub fn read_text(text: &[u8], air: &mut [u8]) -> Result<(), Refusal> {
    let text = parse(text)?;
    if air.len() != text.pack_bytes()? {
        return Err(4.into());
    }
    check_places(&text)?;
    let packets = text.packets.iter().map(|line| Packet {
        place: line.place.map(|number| number as u8),
        bytes: &line.bytes,
    });
    air.copy_from_slice(&pack(text.shape, &[], &packets.collect::<Vec<_>>()));
    Ok(())
}

/// The bytes of an air pack's text, whatever cells its packets name.
pub fn text_bytes(air: &[u8]) -> Result<usize, Refusal> {
    Ok(print(&Text::of_air(&read_plain(air)?)).len())
}

/// Reads an air pack that a text can say: 7 where the count of section 1 is there and is not 5.
fn read_plain(air: &[u8]) -> Result<Air<'_>, u8> {
    match air.get(..COUNT) {
        Some(count) if number(count) != 5 => Err(7),
        _ => read_air(air),
    }
}

/// The bytes of a text's air pack, whatever cells its packets name.
pub fn text_pack_bytes(text: &[u8]) -> Result<usize, Refusal> {
    Ok(parse(text)?.pack_bytes()?)
}

/// The characters of a text, whatever its numbers are.
pub fn print(text: &Text) -> String {
    let [l1, l2, l3] = text.shape.lengths;
    let mut printed = format!("shape {l1} {l2} {l3} {}\n", text.shape.w);
    for PacketLine { place, bytes } in &text.packets {
        let [a, b, c] = place;
        printed += &format!("packet {a} {b} {c}");
        for byte in bytes {
            write!(printed, " {byte:02x}").expect("a string has room");
        }
        printed += "\n";
    }
    printed
}

/// Takes a text apart; 17 where a line breaks the form.
pub fn parse(text: &[u8]) -> Result<Text, Refusal> {
    parse_within(text, MOST_PACKETS)
}

/// As [`parse`], with another number of packets as the most.
fn parse_within(text: &[u8], most: usize) -> Result<Text, Refusal> {
    let mut lines = (1..).zip(text.split_inclusive(|&byte| byte == b'\n'));
    let broken = |line| Refusal::at(17, line);
    let (number, first) = lines.next().unwrap_or((1, &[]));
    let shape = parse_shape(first).ok_or(broken(number))?;
    let mut packets = Vec::new();
    for (number, line) in lines {
        let line = parse_packet(line, shape.w).filter(|_| packets.len() < most);
        packets.push(line.ok_or(broken(number))?);
    }
    Ok(Text { shape, packets })
}

/// `shape L1 L2 L3 W`
fn parse_shape(line: &[u8]) -> Option<Shape> {
    let numbers: Option<Vec<usize>> = words_behind("shape", line)?.map(decimal).collect();
    let [l1, l2, l3, w] = numbers?.try_into().ok()?;
    Some(Shape::new(l1, l2, l3, w))
}

/// `packet a b c` and W bytes.
fn parse_packet(line: &[u8], w: usize) -> Option<PacketLine> {
    let mut words = words_behind("packet", line)?;
    let numbers: Option<Vec<usize>> = words.by_ref().take(3).map(decimal).collect();
    let place = numbers?.try_into().ok()?;
    let bytes: Vec<u8> = words.map(hexadecimal).collect::<Option<_>>()?;
    (bytes.len() == w).then_some(PacketLine { place, bytes })
}

/// The words of a line, each behind one space, that follow its first word.
fn words_behind<'a>(first: &str, line: &'a [u8]) -> Option<impl Iterator<Item = &'a [u8]>> {
    let mut words = line.strip_suffix(b"\n")?.split(|&byte| byte == b' ');
    (words.next()? == first.as_bytes()).then_some(words)
}

/// The number that a word writes in the one way that there is.
fn decimal(word: &[u8]) -> Option<usize> {
    let number: usize = from_utf8(word).ok()?.parse().ok()?;
    (number <= MOST_NUMBER && number.to_string().as_bytes() == word).then_some(number)
}

/// The byte that a word writes in two digits, lower case.
fn hexadecimal(word: &[u8]) -> Option<u8> {
    let byte = u8::from_str_radix(from_utf8(word).ok()?, 16).ok()?;
    (format!("{byte:02x}").as_bytes() == word).then_some(byte)
}

/// 11, with the index of the first packet that names no cell.
fn check_places(text: &Text) -> Result<(), Refusal> {
    let outside =
        |line: &PacketLine| (0..3).any(|axis| line.place[axis] >= text.shape.lengths[axis]);
    match text.packets.iter().position(outside) {
        Some(index) => Err(Refusal::at(11, index)),
        None => Ok(()),
    }
}

impl Text {
    /// The packets of an air pack, line by line.
    pub fn of_air(air: &Air) -> Text {
        let packets = air.packets.iter().map(|packet| PacketLine {
            place: packet.place.map(usize::from),
            bytes: packet.bytes.to_vec(),
        });
        Text {
            shape: air.header.shape,
            packets: packets.collect(),
        }
    }

    /// The bytes of its pack, after 1, 2, 3 and 10.
    fn pack_bytes(&self) -> Result<usize, u8> {
        self.shape.check_room()?;
        Ok(17 + self.packets.len() * self.shape.packet_bytes())
    }
}

#[cfg(test)]
mod tests {
    use super::*;

    /// 27 cells of 5 bytes, and two packets.
    const TEXT: &str = "shape 3 3 3 5\npacket 0 0 0 01 00 00 00 08\npacket 2 1 0 ff 0a a0 9f 00\n";

    const PACK: [u8; 33] = [
        5, 0, 0, 0, 3, 3, 3, 5, 0, 0, 0, 0, 0, 2, 0, 0, 0, 0, 0, 0, 1, 0, 0, 0, 8, 2, 1, 0, 0xFF,
        0x0A, 0xA0, 0x9F, 0,
    ];

    /// The line that breaks the form of a text; none where all are in the form.
    fn broken(text: &str) -> Option<u64> {
        parse(text.as_bytes()).err()?.place
    }

    #[test]
    fn a_pack_and_its_text() {
        let mut text = [0xAA; TEXT.len()];
        assert_eq!(text_bytes(&PACK), Ok(TEXT.len()));
        assert_eq!(write_text(&PACK, &mut text), Ok(()));
        assert_eq!(text, TEXT.as_bytes());
        let mut air = [0xAA; PACK.len()];
        assert_eq!(text_pack_bytes(&text), Ok(PACK.len()));
        assert_eq!(read_text(&text, &mut air), Ok(()));
        assert_eq!(air, PACK);
    }

    #[test]
    fn words() {
        for (word, number) in [
            ("0", Some(0)),
            ("7", Some(7)),
            ("10", Some(10)),
            ("99999", Some(99_999)),
            ("100000", None),
            ("00", None),
            ("07", None),
            ("+7", None),
            ("-0", None),
            ("", None),
            ("7 ", None),
            ("a", None),
            ("99999999999999999999999", None),
            ("\u{663}", None),
        ] {
            assert_eq!(decimal(word.as_bytes()), number, "{word:?}");
        }
        for (word, byte) in [
            ("00", Some(0x00)),
            ("0a", Some(0x0A)),
            ("f9", Some(0xF9)),
            ("0A", None),
            ("+a", None),
            ("a", None),
            ("00a", None),
            ("0g", None),
            ("", None),
        ] {
            assert_eq!(hexadecimal(word.as_bytes()), byte, "{word:?}");
        }
        assert_eq!(decimal(&[0xFF]), None);
        assert_eq!(hexadecimal(&[0xFF, 0xFF]), None);
    }

    #[test]
    fn the_first_line_that_breaks_the_form() {
        assert_eq!(broken(TEXT), None);
        assert_eq!(broken("shape 3 3 3 5\n"), None);
        assert_eq!(broken("shape 0 99999 3 0\npacket 0 99999 256\n"), None);
        for (text, line) in [
            ("", 1),
            ("\n", 1),
            ("shape 3 3 3 5", 1),
            ("shape 3 3 3\n", 1),
            ("shape 3 3 3 5 \n", 1),
            ("shape  3 3 3 5\n", 1),
            (" shape 3 3 3 5\n", 1),
            ("shape 3 3 3 5\r\n", 1),
            ("packet 0 0 0\n", 1),
            ("shape 3 3 3 1\n\n", 2),
            ("shape 3 3 3 1\nshape 3 3 3 1\n", 2),
            ("shape 3 3 3 1\npacket 0 0 0 00", 2),
            ("shape 3 3 3 1\npacket 0 0 0\n", 2),
            ("shape 3 3 3 1\npacket 0 0 00\n", 2),
            ("shape 3 3 3 1\npacket 0 0 0 00 00\n", 2),
            ("shape 3 3 3 0\npacket 0 0 0\npacket 0 0 0 \n", 3),
            ("shape 3 3 3 1\npacket 0 0 0 00\n\n", 3),
        ] {
            assert_eq!(broken(text), Some(line), "{text:?}");
        }
    }

    #[test]
    fn one_packet_too_many() {
        let text = "shape 3 3 3 0\npacket 0 0 0\npacket 0 0 0\npacket 0 0 0\n";
        assert_eq!(parse_within(text.as_bytes(), 3).map(|_| ()), Ok(()));
        let refused = parse_within(text.as_bytes(), 2);
        assert_eq!(refused, Err(Refusal::at(17, 4)));
    }

    #[test]
    fn checks_in_order() {
        let far = "packet 99999 0 0 00 00 00 00 00\n";
        // The text, the bytes lent for its pack, the refusal and its place.
        for (text, lent, number, place) in [
            ("shape 2 3 3 0\n\n", 0, 17, Some(2)),
            ("shape 256 3 3 0\n", 0, 1, None),
            ("shape 3 3 99999 1\n", 0, 1, None),
            ("shape 255 255 255 0\n", 0, 2, None),
            ("shape 255 255 255 1025\n", 0, 2, None),
            ("shape 255 255 255 17\n", 0, 3, None),
            ("shape 3 3 3 3\n", 0, 10, None),
            (&format!("shape 3 3 3 5\n{far}"), 24, 4, None),
            (&format!("shape 3 3 3 5\n{far}"), 25, 11, Some(0)),
            (&format!("{TEXT}{far}"), 41, 11, Some(2)),
        ] {
            let mut air = vec![0xAA; lent];
            let refusal = Refusal { number, place };
            assert_eq!(read_text(text.as_bytes(), &mut air), Err(refusal), "{text}");
            assert_eq!(air, vec![0xAA; lent]);
        }
        let mut air = PACK;
        air[25] = 3;
        for (lent, number, place) in [(TEXT.len(), 11, Some(1)), (0, 4, None)] {
            let mut text = vec![0xAA; lent];
            let refusal = Refusal { number, place };
            assert_eq!(write_text(&air, &mut text), Err(refusal));
            assert_eq!(text, vec![0xAA; lent]);
        }
        assert_eq!(text_bytes(&air), Ok(TEXT.len()));
        assert_eq!(text_bytes(&air[..32]), Err(6.into()));
    }

    /// A text cannot say U: a pack with it is refused by its count, cut or whole.
    #[test]
    fn count_9_has_no_text() {
        let air = pack(Shape::new(3, 3, 3, 5).used(1), &[], &[]);
        for len in 0..=air.len() {
            let number = if len < 4 { 6 } else { 7 };
            assert_eq!(text_bytes(&air[..len]), Err(number.into()));
            assert_eq!(write_text(&air[..len], &mut []), Err(number.into()));
        }
    }
}
