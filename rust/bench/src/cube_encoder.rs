//! A three-axis encode by a library that encodes lines of packets: two parity packets a line, in the field of 11Dh.
//!
//! A line of length L has L - 2 data places c(i); its first parity adds all c(i), its second adds 2^i times c(i).

use std::fmt;

use jibrufath::Shape;

/// Parity packets a line.
pub const PARITY: usize = 2;

/// How the encode goes through memory.
#[derive(Clone, Copy, PartialEq, Eq)]
pub enum Order {
    /// All lines of axis 1, then of axis 2, then of axis 3, each with packets of W bytes.
    Plain,
    /// In each plane axis 2 with rows as wide packets, then axis 1; after all planes axis 3 with planes as wide packets.
    /// Wide packets are taken some bytes at a time: `row_part` of rows, `plane_part` of planes. Where `gather` is set, axis 1
    /// is encoded in a copy of the plane that has equal a side by side, so that its packets are wide as well.
    Planes {
        row_part: usize,
        plane_part: usize,
        gather: bool,
    },
}

impl fmt::Display for Order {
    fn fmt(&self, f: &mut fmt::Formatter<'_>) -> fmt::Result {
        let Order::Planes {
            row_part,
            plane_part,
            gather,
        } = self
        else {
            return write!(f, "plain");
        };
        let copy = if *gather { ", axis 1 in a copy" } else { "" };
        write!(f, "rows by {row_part}, planes by {plane_part}{copy}")
    }
}

/// Encodes one line of packets of any width.
pub trait LineCode {
    /// The code of lines of this length.
    fn new(length: usize) -> Self;

    /// Encodes the line whose packets of `len` bytes stand at `first`, `first + step`, and so on.
    fn encode(&mut self, memory: &mut [u8], first: usize, step: usize, len: usize);

    /// As `encode`, `part` bytes of each packet at a time.
    fn encode_wide(
        &mut self,
        memory: &mut [u8],
        first: usize,
        step: usize,
        len: usize,
        part: usize,
    ) {
        let mut done = 0;
        while done < len {
            // A last part shorter than a vector is joined to the one before.
            let joined = len - done < part + 64;
            let bytes = if joined { len - done } else { part };
            self.encode(memory, first + done, step, bytes);
            done += bytes;
        }
    }
}

/// An encoder for one shape, with its tables and scratch memory ready.
pub struct CubeEncoder<L> {
    shape: Shape,
    codes: [L; 3],
    scratch: Vec<u8>,
}

impl<L: LineCode> CubeEncoder<L> {
    pub fn new(shape: Shape) -> CubeEncoder<L> {
        let Shape { l1, l2, l3, w } = shape;
        CubeEncoder {
            shape,
            codes: [l1, l2, l3].map(L::new),
            scratch: vec![1; l1 * l2 * w],
        }
    }

    /// Encodes the data string into the cube.
    pub fn encode(&mut self, data: &[u8], cube: &mut [u8], order: Order) {
        let Shape { l1, l2, w, .. } = self.shape;
        match order {
            Order::Plain => {
                for (i, plane) in data.chunks(self.data_plane()).enumerate() {
                    self.place(plane, &mut cube[i * l1 * l2 * w..]);
                }
                self.encode_plain(cube);
            }
            Order::Planes {
                row_part,
                plane_part,
                gather,
            } => {
                let planes = cube.chunks_mut(l1 * l2 * w);
                for (data, plane) in data.chunks(self.data_plane()).zip(planes) {
                    self.place(data, plane);
                    self.encode_plane(plane, row_part, gather);
                }
                self.encode_third(cube, plane_part);
            }
        }
    }

    /// Encodes a cube whose data cells are already in place.
    pub fn encode_in_place(&mut self, cube: &mut [u8], order: Order) {
        let Shape { l1, l2, l3, w } = self.shape;
        match order {
            Order::Plain => self.encode_plain(cube),
            Order::Planes {
                row_part,
                plane_part,
                gather,
            } => {
                for plane in cube.chunks_mut(l1 * l2 * w).take(l3 - PARITY) {
                    self.encode_plane(plane, row_part, gather);
                }
                self.encode_third(cube, plane_part);
            }
        }
    }

    /// The data bytes of one plane.
    fn data_plane(&self) -> usize {
        let Shape { l1, l2, w, .. } = self.shape;
        (l1 - PARITY) * (l2 - PARITY) * w
    }

    /// Copies the data of one plane to its rows.
    fn place(&self, data: &[u8], plane: &mut [u8]) {
        let Shape { l1, w, .. } = self.shape;
        let rows = plane.chunks_mut(l1 * w);
        for (packets, row) in data.chunks((l1 - PARITY) * w).zip(rows) {
            row[..packets.len()].copy_from_slice(packets);
        }
    }

    fn encode_plain(&mut self, cube: &mut [u8]) {
        let Shape { l1, l2, l3, w } = self.shape;
        let [row, plane] = [l1 * w, l1 * l2 * w];
        for c in 0..l3 - PARITY {
            for b in 0..l2 - PARITY {
                self.codes[0].encode(cube, c * plane + b * row, w, w);
            }
        }
        for c in 0..l3 - PARITY {
            for a in 0..l1 {
                self.codes[1].encode(cube, c * plane + a * w, row, w);
            }
        }
        for cell in 0..l1 * l2 {
            self.codes[2].encode(cube, cell * w, plane, w);
        }
    }

    fn encode_plane(&mut self, plane: &mut [u8], part: usize, gather: bool) {
        let Shape { l1, l2, w, .. } = self.shape;
        let row = l1 * w;
        self.codes[1].encode_wide(plane, 0, row, (l1 - PARITY) * w, part);
        if !gather {
            for b in 0..l2 {
                self.codes[0].encode(plane, b * row, w, w);
            }
            return;
        }
        // Column a of the plane becomes one wide packet of the scratch memory.
        let column = l2 * w;
        for (b, row) in plane.chunks(row).enumerate() {
            for (a, packet) in row.chunks(w).take(l1 - PARITY).enumerate() {
                copy_packet(&mut self.scratch[a * column + b * w..][..w], packet);
            }
        }
        self.codes[0].encode_wide(&mut self.scratch, 0, column, column, part);
        for (b, row) in plane.chunks_mut(row).enumerate() {
            for (a, packet) in row.chunks_mut(w).enumerate().skip(l1 - PARITY) {
                copy_packet(packet, &self.scratch[a * column + b * w..][..w]);
            }
        }
    }

    fn encode_third(&mut self, cube: &mut [u8], part: usize) {
        let Shape { l1, l2, w, .. } = self.shape;
        let plane = l1 * l2 * w;
        self.codes[2].encode_wide(cube, 0, plane, plane, part);
    }

    /// Whether every line of every axis has the parity packets of this code, by products of the definition.
    pub fn is_code_cube(&self, cube: &[u8]) -> bool {
        let Shape { l1, l2, l3, w } = self.shape;
        let products: Vec<[u8; 256]> = (0..=255)
            .map(|a| std::array::from_fn(|b| product(a, b as u8)))
            .collect();
        let axes = [(l1, 1, l2 * l3), (l2, l1, l1 * l3), (l3, l1 * l2, l1 * l2)];
        axes.iter().all(|&(length, step, lines)| {
            // The factor of each packet of a line in its first and in its second sum.
            let mut factors: Vec<[u8; 2]> =
                std::iter::successors(Some(1), |&p| Some(product(p, 2)))
                    .map(|power| [1, power])
                    .take(length - PARITY)
                    .collect();
            factors.extend([[1, 0], [0, 1]]);
            (0..lines).all(|line| {
                let first = line / step * step * length + line % step;
                let mut sums = [vec![0; w], vec![0; w]];
                for (i, of_packet) in factors.iter().enumerate() {
                    let packet = &cube[(first + i * step) * w..][..w];
                    for (sum, &factor) in sums.iter_mut().zip(of_packet) {
                        let times = &products[usize::from(factor)];
                        for (sum, &byte) in sum.iter_mut().zip(packet) {
                            *sum ^= times[usize::from(byte)];
                        }
                    }
                }
                sums.iter().flatten().all(|&sum| sum == 0)
            })
        })
    }
}

/// Copies a packet; a single byte without a call.
fn copy_packet(to: &mut [u8], from: &[u8]) {
    match (to, from) {
        ([to], [from]) => *to = *from,
        (to, from) => to.copy_from_slice(from),
    }
}

/// The product of two bytes in the field of 11Dh.
pub fn product(a: u8, b: u8) -> u8 {
    let mut sum = 0u16;
    for i in (0..8).rev() {
        sum <<= 1;
        if sum & 0x100 != 0 {
            sum ^= 0x11D;
        }
        if b >> i & 1 == 1 {
            sum ^= u16::from(a);
        }
    }
    sum as u8
}
