//! Copies of cells, as they come through more than one transponder: equal, different, lost.

use reference::Header;
use reference::pack::{Packet, pack};
use reference::random::Random;

use crate::Source;

/// A copy of a cell: the cell's number, and the bytes that came for it.
#[derive(Clone, Debug)]
pub struct CellCopy {
    pub cell: usize,
    pub bytes: Vec<u8>,
}

impl CellCopy {
    /// Changes a byte.
    pub fn damage(&mut self, random: &mut Random) {
        let at = random.among(0..=self.bytes.len() - 1);
        self.bytes[at] ^= random.nonzero_byte();
    }
}

/// The air pack of these copies, in their order.
pub fn air_of(header: impl Into<Header>, copies: &[CellCopy]) -> Vec<u8> {
    let header = header.into();
    let shape = header.shape;
    let packets = copies.iter().map(|CellCopy { cell, bytes }| Packet {
        place: shape.coordinates(*cell).map(|coordinate| coordinate as u8),
        bytes,
    });
    pack(header, &[], &packets.collect::<Vec<_>>())
}

impl Source {
    /// A cell as it was sent.
    pub fn sent(&self, cell: usize) -> CellCopy {
        CellCopy {
            cell,
            bytes: self.cube[self.shape.bytes(cell)].to_vec(),
        }
    }

    /// Every cell that is sent.
    pub fn all_sent(&self) -> Vec<CellCopy> {
        let cells = self.header().sent().into_iter();
        cells.map(|cell| self.sent(cell)).collect()
    }

    /// Two to five copies of a cell that are not all equal, whatever their bytes.
    pub fn differing(&self, random: &mut Random, cell: usize) -> Vec<CellCopy> {
        let mut copies = vec![self.arrived(random, cell)];
        for _ in 0..random.among(1..=4) {
            let another = match random.chance(30) {
                true => copies[0].clone(),
                false => self.arrived(random, cell),
            };
            copies.push(another);
        }
        if copies.iter().all(|copy| copy.bytes == copies[0].bytes) {
            let one = random.among(0..=copies.len() - 1);
            copies[one].damage(random);
        }
        copies
    }

    /// The air pack of a random part of the cells, with copies that differ of several.
    pub(crate) fn some_differ(&self, random: &mut Random) -> Vec<u8> {
        let percent = random.among(0..=100);
        let mut copies = self.all_sent();
        copies.retain(|_| !random.chance(percent));
        let count = random.among(1..=6);
        for cell in random
            .shuffled(&self.header().sent())
            .into_iter()
            .take(count)
        {
            copies.extend(self.differing(random, cell));
        }
        air_of(self.header(), &random.shuffled(&copies))
    }

    /// A cell as it was sent, with a byte changed, or with any bytes.
    fn arrived(&self, random: &mut Random, cell: usize) -> CellCopy {
        let mut copy = self.sent(cell);
        match random.among(0..=2) {
            0 => {}
            1 => copy.damage(random),
            _ => copy.bytes = random.bytes(self.shape.w),
        }
        copy
    }
}

/// One cell comes two to five times, and one of its copies has another byte.
pub(crate) fn one_differs(random: &mut Random) -> Vec<u8> {
    let source = Source::random(random);
    let mut copies = source.all_sent();
    let mut copy = copies[random.among(0..=copies.len() - 1)].clone();
    let again = random.among(0..=3);
    copies.extend(vec![copy.clone(); again]);
    copy.damage(random);
    copies.push(copy);
    air_of(source.header(), &random.shuffled(&copies))
}

/// Several cells have copies that differ, among packets that are lost at random.
pub(crate) fn some_differ(random: &mut Random) -> Vec<u8> {
    Source::random(random).some_differ(random)
}

/// No cell has copies that are all equal.
pub(crate) fn all_differ(random: &mut Random) -> Vec<u8> {
    let source = Source::random(random);
    let cells = source.header().sent().into_iter();
    let copies: Vec<CellCopy> = cells
        .flat_map(|cell| source.differing(random, cell))
        .collect();
    air_of(source.header(), &random.shuffled(&copies))
}

/// Copies that differ in nothing but their last byte.
pub(crate) fn last_byte_differs(random: &mut Random) -> Vec<u8> {
    let source = Source::random(random);
    let mut copies = source.all_sent();
    let count = random.among(1..=3);
    for mut copy in random.shuffled(&copies).into_iter().take(count) {
        copy.bytes[source.shape.w - 1] ^= random.nonzero_byte();
        copies.push(copy);
    }
    air_of(source.header(), &random.shuffled(&copies))
}

/// Every packet is sent twice, and each copy is lost or damaged by itself. The second transponder comes behind the first, or both at
/// once.
pub(crate) fn two_transponders(random: &mut Random) -> Vec<u8> {
    let source = Source::random(random);
    let [lost, damaged] = [40, 20].map(|most| random.among(0..=most));
    let mut copies = [source.all_sent(), source.all_sent()].concat();
    copies.retain(|_| !random.chance(lost));
    for copy in &mut copies {
        if random.chance(damaged) {
            copy.damage(random);
        }
    }
    if random.chance(50) {
        copies = random.shuffled(&copies);
    }
    air_of(source.header(), &copies)
}

#[cfg(test)]
mod tests {
    use super::*;
    use reference::Shape;
    use reference::write::data_string;

    #[test]
    fn differing_copies_differ() {
        let mut random = Random::new(6);
        let mut seen = [0; 6];
        for w in [1, 2, 9] {
            let shape = Shape::new(4, 4, 3, w);
            let source = Source::new(shape, &data_string(shape, &[]));
            for _ in 0..1_000 {
                let copies = source.differing(&mut random, 7);
                assert!(copies.iter().any(|copy| copy.bytes != copies[0].bytes));
                assert!(copies.iter().all(|copy| copy.cell == 7));
                seen[copies.len()] += 1;
            }
        }
        assert!(seen[2..].iter().all(|&count| count > 500), "{seen:?}");
    }
}
