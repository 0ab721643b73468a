//! One pack for the text writer of both programs, or one text for the text reader of both; what is accepted goes both ways.

use jibrufath::text::{read_text, text_bytes, text_pack_bytes, write_text};
use reference::Refusal;
use reference::random::Random;

use crate::{Calls, compare, placed};

/// A pack, and the length of the slice that is lent for its text.
#[derive(Debug)]
pub struct ToText {
    pub air: Vec<u8>,
    pub text_len: usize,
}

/// A text, and the length of the slice that is lent for its pack.
#[derive(Debug)]
pub struct FromText {
    pub text: Vec<u8>,
    pub air_len: usize,
}

/// What is lent for an input that has no size.
const ANY_LEN: usize = 25;

/// Now and then a wrong length.
pub(crate) fn nearly(random: &mut Random, exact: usize) -> usize {
    if random.chance(5) {
        return random.pick(&[exact + 1, exact.saturating_sub(1), 0]);
    }
    exact
}

impl ToText {
    /// The pack, with a slice of the exact length for its text.
    pub fn new(air: Vec<u8>) -> ToText {
        let text_len = reference::text_bytes(&air).unwrap_or(ANY_LEN);
        ToText { air, text_len }
    }

    /// The pack; now and then the slice has a wrong length.
    pub fn random(random: &mut Random, air: Vec<u8>) -> ToText {
        let exact = ToText::new(air);
        ToText {
            text_len: nearly(random, exact.text_len),
            ..exact
        }
    }

    /// Asks both programs for the length of the text, gives both the pack, over garbage, and compares the answers and every lent
    /// byte. A text that was written must read back to the pack.
    pub fn compare(&self, random: &mut Random) -> Result<Result<(), Refusal>, String> {
        compare(
            random,
            [&self.air],
            |[air]| text_bytes(air).map_err(placed),
            |[air]| reference::text_bytes(air),
        )
        .map_err(|difference| format!("text_bytes: {difference}"))?;
        let text = random.bytes(self.text_len);
        let agreed = compare(
            random,
            [&self.air, &text],
            |[air, text]| write_text(air, text).map_err(placed),
            |[air, text]| reference::write_text(air, text),
        )
        .map_err(|difference| format!("write_text: {difference}"))?;
        if agreed.answer.is_ok() {
            let mut back = random.bytes(self.air.len());
            let answer = read_text(&agreed.after[1], &mut back);
            if answer.is_err() || back != self.air {
                return Err(format!("the text reads back to {answer:?}, {back:02X?}"));
            }
        }
        Ok(agreed.answer)
    }

    /// Records the calls that [`ToText::compare`] makes with the pack.
    pub fn record(&self, random: &mut Random, calls: &mut Calls) {
        let text = random.bytes(self.text_len);
        calls.call("text_bytes", [&self.air], &[], |[air]| {
            reference::text_bytes(air)
        });
        calls.call("write_text", [&self.air, &text], &[], |[air, text]| {
            reference::write_text(air, text)
        });
    }
}

impl FromText {
    /// The text, with a slice of the exact length for its pack.
    pub fn new(text: Vec<u8>) -> FromText {
        let air_len = reference::text_pack_bytes(&text).unwrap_or(ANY_LEN);
        FromText { text, air_len }
    }

    /// The text; now and then the slice has a wrong length.
    pub fn random(random: &mut Random, text: Vec<u8>) -> FromText {
        let exact = FromText::new(text);
        FromText {
            air_len: nearly(random, exact.air_len),
            ..exact
        }
    }

    /// Asks both programs for the length of the pack, gives both the text, over garbage, and compares the answers and every lent
    /// byte. A text that was accepted must be written back to the same characters.
    pub fn compare(&self, random: &mut Random) -> Result<Result<(), Refusal>, String> {
        compare(
            random,
            [&self.text],
            |[text]| text_pack_bytes(text).map_err(placed),
            |[text]| reference::text_pack_bytes(text),
        )
        .map_err(|difference| format!("text_pack_bytes: {difference}"))?;
        let air = random.bytes(self.air_len);
        let agreed = compare(
            random,
            [&self.text, &air],
            |[text, air]| read_text(text, air).map_err(placed),
            |[text, air]| reference::read_text(text, air),
        )
        .map_err(|difference| format!("read_text: {difference}"))?;
        if agreed.answer.is_ok() {
            let mut back = random.bytes(self.text.len());
            let answer = write_text(&agreed.after[1], &mut back);
            if answer.is_err() || back != self.text {
                let back = String::from_utf8_lossy(&back);
                return Err(format!("the pack is written back: {answer:?}, {back:?}"));
            }
        }
        Ok(agreed.answer)
    }

    /// Records the calls that [`FromText::compare`] makes with the text.
    pub fn record(&self, random: &mut Random, calls: &mut Calls) {
        let air = random.bytes(self.air_len);
        calls.call("text_pack_bytes", [&self.text], &[], |[text]| {
            reference::text_pack_bytes(text)
        });
        calls.call("read_text", [&self.text, &air], &[], |[text, air]| {
            reference::read_text(text, air)
        });
    }
}
