//! A small generator of random numbers (SplitMix64), so that every run tries the same inputs.

use std::ops::RangeInclusive;

pub struct Random(u64);

impl Random {
    pub fn new(seed: u64) -> Random {
        Random(seed)
    }

    pub fn number(&mut self) -> u64 {
        self.0 = self.0.wrapping_add(0x9E37_79B9_7F4A_7C15);
        let mut z = self.0;
        z = (z ^ (z >> 30)).wrapping_mul(0xBF58_476D_1CE4_E5B9);
        z = (z ^ (z >> 27)).wrapping_mul(0x94D0_49BB_1331_11EB);
        z ^ (z >> 31)
    }

    /// A number in the range, which is small against 64 bits.
    pub fn among(&mut self, range: RangeInclusive<usize>) -> usize {
        let size = range.end() - range.start() + 1;
        range.start() + (self.number() % size as u64) as usize
    }

    pub fn pick<T: Copy>(&mut self, items: &[T]) -> T {
        items[self.among(0..=items.len() - 1)]
    }

    /// True in `percent` of a hundred calls.
    pub fn chance(&mut self, percent: usize) -> bool {
        self.among(0..=99) < percent
    }

    pub fn byte(&mut self) -> u8 {
        self.number() as u8
    }

    pub fn nonzero_byte(&mut self) -> u8 {
        self.among(1..=255) as u8
    }

    pub fn bytes(&mut self, count: usize) -> Vec<u8> {
        let mut bytes = vec![0; count];
        for part in bytes.chunks_mut(8) {
            let number = self.number().to_le_bytes();
            part.copy_from_slice(&number[..part.len()]);
        }
        bytes
    }

    /// The items in random order.
    pub fn shuffled<T: Clone>(&mut self, items: &[T]) -> Vec<T> {
        let order = self.different(items.len(), items.len());
        order.into_iter().map(|i| items[i].clone()).collect()
    }

    /// `count` different numbers below `bound`, in random order.
    pub fn different(&mut self, count: usize, bound: usize) -> Vec<usize> {
        let mut numbers: Vec<usize> = (0..bound).collect();
        for i in 0..count {
            let j = self.among(i..=bound - 1);
            numbers.swap(i, j);
        }
        numbers.truncate(count);
        numbers
    }
}
