//! What section 1 of a pack says: a shape, and with count 9 how many of its data cells are in use.
//!
//! The data cells from the U-th on, counted from 0, are unsent: 00h, known from the start, and in no packet. They are taken from the
//! list of all data cells.

use crate::Shape;
use crate::pack::{COUNT, count, number};

/// A shape, and U where section 1 has count 9.
#[derive(Clone, Copy, Debug, PartialEq, Eq)]
pub struct Header {
    pub shape: Shape,
    pub used: Option<usize>,
}

impl From<Shape> for Header {
    fn from(shape: Shape) -> Header {
        Header { shape, used: None }
    }
}

impl Shape {
    /// This shape in a section 1 of count 9.
    pub fn used(self, used: usize) -> Header {
        Header {
            shape: self,
            used: Some(used),
        }
    }
}

impl Header {
    /// The header in the bytes of section 1, of which there are 5 or 9; after 1, 2, 3, 10 and 19.
    pub(crate) fn of_section(section: &[u8]) -> Result<Header, u8> {
        let [l1, l2, l3] = [0, 1, 2].map(|axis| usize::from(section[axis]));
        let shape = Shape::new(l1, l2, l3, number(&section[3..5]) as usize);
        shape.check_room()?;
        let used = (section.len() == 9).then(|| number(&section[5..]) as usize);
        if used.is_some_and(|used| used < 1 || used > shape.number_of_data_cells()) {
            return Err(19);
        }
        Ok(Header { shape, used })
    }

    /// Section 1 behind its count. The lengths fit in a byte, W in two and U in four.
    pub(crate) fn section(self) -> Vec<u8> {
        let mut section = self.shape.lengths.map(|length| length as u8).to_vec();
        section.extend((self.shape.w as u16).to_le_bytes());
        section.extend(self.used.into_iter().flat_map(count));
        section
    }

    /// The bytes of a pack before its packets, where it has no file.
    pub fn bytes(self) -> usize {
        3 * COUNT + self.section().len()
    }

    /// The number of data cells in use: U, or all.
    pub fn used_cells(self) -> usize {
        self.used.unwrap_or(self.shape.number_of_data_cells())
    }

    /// For each cell, whether it is unsent.
    pub fn unsent(self) -> Vec<bool> {
        let mut unsent = vec![false; self.shape.cells()];
        for cell in self.shape.data_cells().skip(self.used_cells()) {
            unsent[cell] = true;
        }
        unsent
    }

    /// The cells that are sent, in cell order.
    pub fn sent(self) -> Vec<usize> {
        let unsent = self.unsent();
        (0..self.shape.cells())
            .filter(|&cell| !unsent[cell])
            .collect()
    }

    /// The bytes of the pack that the writer writes.
    pub fn pack_bytes(self) -> usize {
        let unsent = self.shape.number_of_data_cells() - self.used_cells();
        self.bytes() + (self.shape.cells() - unsent) * self.shape.packet_bytes()
    }
}

#[cfg(test)]
mod tests {
    use super::*;

    #[test]
    fn unsent_cells() {
        // 4 by 5 by 4 has the data cells (0,0,0), (1,0,0), (0,1,0), (1,1,0), (0,2,0), (1,2,0), and the same with c 1.
        let shape = Shape::new(4, 5, 4, 2);
        let data = [0, 1, 4, 5, 8, 9, 20, 21, 24, 25, 28, 29];
        for used in 1..=12 {
            let unsent = shape.used(used).unsent();
            let cells: Vec<usize> = (0..80).filter(|&cell| unsent[cell]).collect();
            assert_eq!(cells, data[used..]);
            let sent = shape.used(used).sent();
            assert_eq!(sent.len(), 80 - 12 + used);
            assert_eq!(shape.used(used).pack_bytes(), 21 + sent.len() * 5);
        }
        assert!(Header::from(shape).unsent().iter().all(|&unsent| !unsent));
        assert_eq!(Header::from(shape).pack_bytes(), shape.pack_bytes());
    }

    #[test]
    fn numbers_of_data_cells() {
        // 4 by 3 by 3 cells of 2 bytes: 2 data cells.
        let shape = Shape::new(4, 3, 3, 2);
        for (used, refusal) in [
            ([0, 0, 0, 0], Some(19)),
            ([1, 0, 0, 0], None),
            ([2, 0, 0, 0], None),
            ([3, 0, 0, 0], Some(19)),
            ([1, 1, 0, 0], Some(19)),
            ([1, 0, 1, 0], Some(19)),
            ([2, 0, 0, 0x80], Some(19)),
            ([0xFF; 4], Some(19)),
        ] {
            let section = [&[4, 3, 3, 2, 0], &used[..]].concat();
            let header = Header::of_section(&section);
            assert_eq!(header.err(), refusal, "{used:?}");
            if let Ok(header) = header {
                assert_eq!(header, shape.used(number(&used) as usize));
                assert_eq!(header.section(), section);
            }
        }
        assert_eq!(Header::of_section(&[4, 3, 3, 2, 0]), Ok(shape.into()));
    }
}
