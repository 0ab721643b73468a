//! Encoding against memcpy, ISA-L and GF-Complete.

use std::time::Duration;

use jibrufath::{Shape, encode, extract};
use reference::random::Random;

use crate::cube_encoder::{CubeEncoder, Order};
use crate::gf_complete::{ALIGNMENT, GfLine};
use crate::isal::IsalLine;
use crate::measure::{ROUNDS, Row, Times, beside_memcpy, entry, milliseconds};
use crate::{REFERENCE_SET, clock};

/// The reference set, large cubes of other widths, and a small cube of wide cells.
const SHAPES: [Shape; 6] = [
    REFERENCE_SET,
    Shape::new(255, 255, 255, 1),
    Shape::new(150, 150, 130, 16),
    Shape::new(100, 100, 75, 64),
    Shape::new(43, 43, 25, 1024),
    Shape::new(9, 9, 9, 1024),
];

/// What is said before the table.
const HEADER: &str = "\
Encode, from a data string to the whole cube, in milliseconds and over memcpy of the cube. ISA-L: ec_encode_data in its own field, two parity packets a line.
Plain: axis by axis. Best: plane by plane, as the last column says. In place: best, with the data already in the cube.
GF-Complete: the same code and order, a product of a region for each packet; it takes W in multiples of 16 only.

| shape | W | memcpy | ours | ours, AVX2 | ours / memcpy | ours, AVX2 / memcpy | ISA-L best / memcpy | ISA-L plain / memcpy | ISA-L in place / memcpy \
| GF-Complete / memcpy | ours / ISA-L best | ours, AVX2 / ISA-L best | ISA-L's best order |
|---|---|---|---|---|---|---|---|---|---|---|---|---|---|";

/// One shape, with all memory that its encoders need.
struct Encoding {
    shape: Shape,
    data: Vec<u8>,
    cube: Vec<u8>,
    copy: Vec<u8>,
    isal: CubeEncoder<IsalLine>,
    gf_complete: CubeEncoder<GfLine>,
    best: Order,
}

/// What is timed, in the order of the columns: GF-Complete last, since it takes only some widths.
const WORK: [&str; 5] = [
    "encode",
    "encode with ISA-L, best order",
    "encode with ISA-L, plain order",
    "encode with ISA-L, in place",
    "encode with GF-Complete",
];

/// Prints the table, and gives the rows of the reference set that are drawn.
pub fn table() -> Vec<Row> {
    println!("{HEADER}");
    let mut drawn = Vec::new();
    for shape in SHAPES {
        let mut state = Encoding::new(shape);
        state.best = state.best_order();
        let times = state.times();
        state.check();
        let mut rows = times.rows(WORK);
        let mut peers: Vec<String> = rows[1..]
            .iter()
            .map(|row| format!("{:.2}", row.sse2.ratio))
            .collect();
        if !state.aligned() {
            peers[3] = "-".into();
        }
        let Shape { l1, l2, l3, w } = shape;
        let Row { sse2, avx2, .. } = &rows[0];
        let best = rows[1].sse2.ratio;
        println!(
            "| {l1} × {l2} × {l3} | {w} | {:.2} | {:.2} | {} | {:.2} | {} | {} | {:.2} | {} | {} |",
            milliseconds(times.memcpy),
            sse2.milliseconds,
            entry(avx2.as_ref().map(|avx2| avx2.milliseconds)),
            sse2.ratio,
            entry(avx2.as_ref().map(|avx2| avx2.ratio)),
            peers.join(" | "),
            sse2.ratio / best,
            entry(avx2.as_ref().map(|avx2| avx2.ratio / best)),
            state.best,
        );
        if shape == REFERENCE_SET {
            drawn.extend(rows.drain(..2));
        }
    }
    drawn
}

impl Encoding {
    fn new(shape: Shape) -> Encoding {
        let bytes = shape.cube_bytes().expect("the shape is good");
        let data_bytes = shape.capacity().expect("the shape is good");
        Encoding {
            shape,
            data: Random::new(5).bytes(data_bytes),
            cube: vec![1; bytes],
            copy: vec![2; bytes],
            isal: CubeEncoder::new(shape),
            gf_complete: CubeEncoder::new(shape),
            best: Order::Plain,
        }
    }

    /// The least times of all work.
    fn times(&mut self) -> Times {
        beside_memcpy(
            ROUNDS,
            self.shape,
            self,
            |_| {},
            &[
                &|s| encode(s.shape, &s.data, &mut s.cube).expect("encodes"),
                &|s| s.isal.encode(&s.data, &mut s.cube, s.best),
                &|s| s.isal.encode(&s.data, &mut s.cube, Order::Plain),
                &|s| s.isal.encode_in_place(&mut s.cube, s.best),
                &Encoding::encode_by_gf_complete,
            ],
        )
    }

    /// Whether GF-Complete takes the packets as they stand.
    fn aligned(&self) -> bool {
        self.shape.w % ALIGNMENT == 0
    }

    fn encode_by_gf_complete(&mut self) {
        if self.aligned() {
            self.gf_complete
                .encode(&self.data, &mut self.cube, self.best);
        }
    }

    /// The fastest of the orders tried for ISA-L.
    fn best_order(&mut self) -> Order {
        // Below 64 bytes ISA-L leaves its vector code, so that the copy with wide packets always pays there.
        let gather = self.shape.w < 64;
        let parts = [
            (1024, 1024),
            (1024, 8192),
            (2048, 2048),
            (4096, 1024),
            (4096, 16384),
            (16384, 16384),
        ];
        let mut tried = parts.map(|(row_part, plane_part)| {
            let order = Order::Planes {
                row_part,
                plane_part,
                gather,
            };
            (Duration::MAX, order)
        });
        for _ in 0..5 {
            for (least, order) in &mut tried {
                let time = clock::time(|| self.isal.encode(&self.data, &mut self.cube, *order));
                *least = time.min(*least);
            }
        }
        let best = tried.into_iter().min_by_key(|(time, _)| *time);
        best.expect("there is an order").1
    }

    /// Fails unless the encoders leave a code cube of their own field with the data.
    fn check(&mut self) {
        let Shape { l1, l2, l3, w } = self.shape;
        encode(self.shape, &self.data, &mut self.cube).expect("encodes");
        let twin = reference::Shape::new(l1, l2, l3, w);
        assert!(twin.is_code_cube(&self.cube), "ours is no code cube");
        self.check_data();

        self.cube.fill(3);
        self.isal.encode(&self.data, &mut self.cube, self.best);
        assert!(
            self.isal.is_code_cube(&self.cube),
            "ISA-L's is no code cube"
        );
        self.check_data();

        self.copy.fill(4);
        self.isal.encode(&self.data, &mut self.copy, Order::Plain);
        assert!(self.cube == self.copy, "the orders of ISA-L differ");

        self.encode_by_gf_complete();
        assert!(self.cube == self.copy, "GF-Complete differs from ISA-L");
    }

    fn check_data(&self) {
        let mut data = vec![0; self.data.len()];
        extract(self.shape, &self.cube, &mut data).expect("reads");
        assert!(data == self.data, "the cube has other data");
    }
}
