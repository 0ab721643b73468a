//! Calls recorded for other processors: what is lent, and what the independent program answers and leaves. targets/play.c and
//! targets/play.mjs play them on the library.
//!
//! A file begins with how many calls it has, in 8 bytes. Each call is:
//!
//! - name: a byte for its length, then its characters, without `jibrufath_`
//! - slices: a byte for how many; for each its length in 4 bytes, what it holds before, and a byte that is 0 where it is kept, or
//!   else 1 and what it holds afterwards
//! - numbers: a byte for how many, then 8 bytes each
//! - arrays: a byte for how many; for each a byte for its places, then what these hold afterwards, 8 bytes each
//! - answer: 8 bytes
//!
//! Numbers are low byte first. Slices, numbers and arrays are those of the call, which takes them in this order.

use reference::{Outcome, Received, Refusal, Scan};

/// Calls that take more bytes than this together are too long for a file.
const MOST_BYTES: usize = 49_152;

/// Calls that are recorded, one behind the other.
#[derive(Default)]
pub struct Calls {
    count: u64,
    bytes: Vec<u8>,
}

impl Calls {
    /// Gives the independent program slices that hold these bytes, and records the call with what comes of it.
    pub fn call<T: Told, E: Into<Refusal>, const N: usize>(
        &mut self,
        name: &str,
        before: [&[u8]; N],
        numbers: &[usize],
        independent: impl FnOnce([&mut [u8]; N]) -> Result<T, E>,
    ) {
        let mut after = before.map(<[u8]>::to_vec);
        let told = independent(after.each_mut().map(Vec::as_mut_slice)).map_err(Into::into);
        self.write_name(name);
        self.bytes.push(N as u8);
        for (before, after) in before.iter().zip(&after) {
            self.write_slice(before, after);
        }
        self.write_numbers(numbers);
        let refused = || T::PLACES.iter().map(|&places| vec![0; places]).collect();
        self.write_arrays(&told.as_ref().map_or_else(|_| refused(), Told::arrays));
        self.write_u64(match told {
            Ok(told) => told.count() << 8,
            Err(Refusal { number, place }) => place.unwrap_or(0) << 8 | u64::from(number),
        });
    }

    /// Records a call of the field, which takes bytes and answers with one.
    pub(crate) fn call_of_the_field(&mut self, name: &str, bytes: &[u8], answer: u8) {
        self.write_name(name);
        self.bytes.push(0);
        self.write_numbers(&bytes.iter().map(|&b| b.into()).collect::<Vec<_>>());
        self.write_arrays(&[]);
        self.write_u64(answer.into());
    }

    /// Adds other calls, unless they are too long.
    pub(crate) fn add(&mut self, calls: Calls) {
        if calls.bytes.len() <= MOST_BYTES {
            self.count += calls.count;
            self.bytes.extend(calls.bytes);
        }
    }

    /// The file of these calls.
    pub fn into_file(self) -> Vec<u8> {
        [&self.count.to_le_bytes()[..], &self.bytes].concat()
    }

    fn write_name(&mut self, name: &str) {
        self.count += 1;
        self.bytes.push(name.len() as u8);
        self.bytes.extend(name.as_bytes());
    }

    fn write_slice(&mut self, before: &[u8], after: &[u8]) {
        self.bytes.extend((before.len() as u32).to_le_bytes());
        self.bytes.extend(before);
        self.bytes.push(u8::from(before != after));
        if before != after {
            self.bytes.extend(after);
        }
    }

    fn write_numbers(&mut self, numbers: &[usize]) {
        self.bytes.push(numbers.len() as u8);
        numbers.iter().for_each(|&n| self.write_u64(n as u64));
    }

    fn write_arrays(&mut self, arrays: &[Vec<u64>]) {
        self.bytes.push(arrays.len() as u8);
        for array in arrays {
            self.bytes.push(array.len() as u8);
            array.iter().for_each(|&word| self.write_u64(word));
        }
    }

    fn write_u64(&mut self, number: u64) {
        self.bytes.extend(number.to_le_bytes());
    }
}

/// What a call hands back where it refuses nothing: the count in its answer, and its arrays.
pub trait Told {
    /// How many places each array has. All of them are 0 with a refusal.
    const PLACES: &'static [usize] = &[];

    fn count(&self) -> u64 {
        0
    }

    fn arrays(&self) -> Vec<Vec<u64>> {
        vec![]
    }
}

impl Told for () {}

impl Told for usize {
    fn count(&self) -> u64 {
        *self as u64
    }
}

impl Told for bool {
    fn count(&self) -> u64 {
        u64::from(*self)
    }
}

/// What a pack needs.
impl Told for [u64; 16] {
    const PLACES: &'static [usize] = &[16];

    fn arrays(&self) -> Vec<Vec<u64>> {
        vec![self.to_vec()]
    }
}

/// The entries of a plan.
impl Told for [usize; 3] {
    const PLACES: &'static [usize] = &[3];

    fn arrays(&self) -> Vec<Vec<u64>> {
        vec![self.map(|entries| entries as u64).to_vec()]
    }
}

impl Told for Scan {
    const PLACES: &'static [usize] = &[2];

    fn arrays(&self) -> Vec<Vec<u64>> {
        vec![vec![self.holes as u64, self.read as u64]]
    }
}

impl Told for Received {
    const PLACES: &'static [usize] = &[16];

    fn count(&self) -> u64 {
        match self.outcome {
            Outcome::File { .. } => 0,
            Outcome::Left { cells } => cells as u64,
        }
    }

    fn arrays(&self) -> Vec<Vec<u64>> {
        let mut counts = vec![0; 16];
        if let Outcome::File { len } = self.outcome {
            counts[0] = len as u64;
        }
        [counts[1], counts[2], counts[13]] = [self.packets, self.repeats, self.conflicts];
        vec![counts]
    }
}

/// What the plan receiver hands back.
impl Told for (Received, [usize; 3]) {
    const PLACES: &'static [usize] = &[16, 3];

    fn count(&self) -> u64 {
        self.0.count()
    }

    fn arrays(&self) -> Vec<Vec<u64>> {
        [self.0.arrays(), self.1.arrays()].concat()
    }
}

#[cfg(test)]
mod tests {
    use super::*;

    #[test]
    fn the_form() {
        let mut calls = Calls::default();
        calls.call("scan", [&[7, 8], &[9]], &[1 << 32], |[first, _]| {
            first[1] = 6;
            Ok::<_, u8>(Scan { holes: 3, read: 4 })
        });
        let count = [1, 0, 0, 0, 0, 0, 0, 0];
        let name = *b"\x04scan";
        let changed = [2, 0, 0, 0, 7, 8, 1, 7, 6];
        let kept = [1, 0, 0, 0, 9, 0];
        let numbers = [1, 0, 0, 0, 0, 1, 0, 0, 0];
        let array = [1, 2, 3, 0, 0, 0, 0, 0, 0, 0, 4, 0, 0, 0, 0, 0, 0, 0];
        let file = [&count[..], &name, &[2], &changed, &kept, &numbers, &array];
        assert_eq!(calls.into_file(), [&file.concat()[..], &[0; 8]].concat());
    }

    /// The last 8 bytes of a file: the answer of its last call.
    fn answer<T: Told>(told: Result<T, Refusal>) -> u64 {
        let mut calls = Calls::default();
        calls.call("call", [], &[], |[]| told);
        let file = calls.into_file();
        let last = file.last_chunk().expect("an answer");
        u64::from_le_bytes(*last)
    }

    #[test]
    fn answers() {
        let [number, place] = [18, 11].map(Refusal::from);
        let place = Refusal {
            place: Some(3),
            ..place
        };
        assert_eq!(answer(Ok(())), 0);
        assert_eq!(answer(Ok(27)), 0x1B00);
        assert_eq!(answer(Ok(true)), 0x100);
        assert_eq!(answer::<()>(Err(number)), 18);
        assert_eq!(answer::<[usize; 3]>(Err(place)), 0x30B);
    }

    #[test]
    fn arrays_are_0_with_a_refusal() {
        let mut calls = Calls::default();
        calls.call("call", [], &[], |[]| Err::<(Received, [usize; 3]), u8>(4));
        let file = calls.into_file();
        let arrays = [&[2, 16][..], &[0; 128], &[3], &[0; 24]].concat();
        let answer = [4, 0, 0, 0, 0, 0, 0, 0];
        assert!(file.ends_with(&[&arrays[..], &answer].concat()));
    }

    #[test]
    fn long_calls_are_left_out() {
        let calls = |len: usize| {
            let mut calls = Calls::default();
            calls.call("call", [&vec![0; len]], &[], |_| Ok::<_, u8>(()));
            calls
        };
        let mut all = Calls::default();
        for len in [MOST_BYTES, 100, 0] {
            all.add(calls(len));
        }
        assert_eq!(all.count, 2);
        assert_eq!(
            all.bytes.len(),
            calls(100).bytes.len() + calls(0).bytes.len()
        );
    }
}
