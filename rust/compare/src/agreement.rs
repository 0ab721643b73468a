//! Both programs on the same memory: their answers and every lent byte are compared, for each of the library's archives that the processor
//! can run.

use std::array;
use std::fmt::Debug;

use jibrufath::Refusal;
use jibrufath::processor::Instructions;
use reference::random::Random;

/// What both programs answer, and what both leave in the lent slices.
pub struct Agreed<A, const N: usize> {
    pub answer: A,
    pub after: [Vec<u8>; N],
}

/// Lends both programs slices that hold the same bytes, and says what they agree on, or how they differ. Slices that a call
/// only reads are lent in the same way.
pub fn compare<A: PartialEq + Debug, const N: usize>(
    random: &mut Random,
    before: [&[u8]; N],
    library: impl Fn([&mut [u8]; N]) -> A,
    independent: impl FnOnce([&mut [u8]; N]) -> A,
) -> Result<Agreed<A, N>, String> {
    let starts = before.map(|_| random.among(64..=127));
    let mut expected = before.map(<[u8]>::to_vec);
    let answer = independent(expected.each_mut().map(Vec::as_mut_slice));
    for &instructions in Instructions::available() {
        let mut lent: [Lent; N] = array::from_fn(|i| Lent::new(starts[i], before[i]));
        let told = instructions.with(|| library(lent.each_mut().map(Lent::bytes_mut)));
        if told != answer {
            return Err(format!(
                "{instructions:?}: the answer is {told:?}, and not {answer:?}"
            ));
        }
        for (i, (lent, expected)) in lent.iter().zip(&expected).enumerate() {
            if let Some(difference) = lent.difference(expected) {
                return Err(format!(
                    "{instructions:?}: {answer:?}, slice {i}: {difference}"
                ));
            }
        }
    }
    Ok(Agreed {
        answer,
        after: expected,
    })
}

/// As [`compare`], and fails where the programs differ.
pub fn agree<A: PartialEq + Debug, const N: usize>(
    what: &str,
    random: &mut Random,
    before: [&[u8]; N],
    library: impl Fn([&mut [u8]; N]) -> A,
    independent: impl FnOnce([&mut [u8]; N]) -> A,
) -> Agreed<A, N> {
    compare(random, before, library, independent)
        .unwrap_or_else(|difference| panic!("{what}: {difference}"))
}

/// The library's result as the independent program gives it: a refusal by its number.
pub fn numbered<T>(result: Result<T, Refusal>) -> Result<T, u8> {
    result.map_err(Refusal::number)
}

/// A refusal as the independent program gives it: its number, with the packet, the line or the offset that it names.
pub fn placed(refusal: Refusal) -> reference::Refusal {
    let place = refusal.packet().or(refusal.line()).or(refusal.offset());
    reference::Refusal {
        number: refusal.number(),
        place,
    }
}

/// A slice to lend, at any alignment inside a longer buffer.
struct Lent {
    buffer: Vec<u8>,
    start: usize,
    end: usize,
}

/// The byte that stands beside a lent slice, on both sides.
const BESIDE: u8 = 0xA5;

impl Lent {
    fn new(start: usize, bytes: &[u8]) -> Lent {
        let end = start + bytes.len();
        let mut buffer = vec![BESIDE; end + 64];
        buffer[start..end].copy_from_slice(bytes);
        Lent { buffer, start, end }
    }

    fn bytes_mut(&mut self) -> &mut [u8] {
        &mut self.buffer[self.start..self.end]
    }

    /// How the slice differs from these bytes, of the same length, or what has changed beside it.
    fn difference(&self, bytes: &[u8]) -> Option<String> {
        let held = &self.buffer[self.start..self.end];
        if held != bytes {
            let i = (0..bytes.len()).find(|&i| held[i] != bytes[i])?;
            return Some(format!(
                "byte {i} is {:02X}h, and not {:02X}h",
                held[i], bytes[i]
            ));
        }
        let mut beside = self.buffer[..self.start]
            .iter()
            .chain(&self.buffer[self.end..]);
        beside
            .any(|&byte| byte != BESIDE)
            .then(|| "a byte beside it has changed".into())
    }
}

#[cfg(test)]
mod tests {
    use super::*;

    #[test]
    fn programs_that_differ() {
        let mut random = Random::new(1);
        let mut differ = |first: fn([&mut [u8]; 2]) -> u8| {
            compare(&mut random, [&[1], &[2, 3]], first, |[_, b]| b[1]).err()
        };
        assert_eq!(differ(|[_, b]| b[1]), None);
        assert_eq!(
            differ(|[a, _]| a[0]).as_deref(),
            Some("Baseline: the answer is 1, and not 3")
        );
        let changed = differ(|[_, b]| {
            b[0] = 7;
            b[1]
        });
        assert_eq!(
            changed.as_deref(),
            Some("Baseline: 3, slice 1: byte 0 is 07h, and not 02h")
        );
    }

    #[test]
    fn bytes_beside_a_slice() {
        let mut lent = Lent::new(64, &[1, 2]);
        assert_eq!(lent.difference(&[1, 2]), None);
        for beside in [lent.start - 1, lent.end] {
            lent.buffer[beside] = 0;
            assert!(lent.difference(&[1, 2]).is_some());
            lent.buffer[beside] = BESIDE;
        }
    }
}
