//! Filling and mending, and those of the reference set against memcpy.

use compare::patterns::{at_random, in_succession};
use jibrufath::{Refusal, Shape, encode, fill, mend};
use reference::random::Random;

use crate::REFERENCE_SET;
use crate::measure::{ROUNDS, ROWS, Row, Times, beside_memcpy};

/// A damaged cube, and the memory that it is repaired in.
pub struct Repair {
    shape: Shape,
    right: Vec<u8>,
    damaged: Vec<u8>,
    flags: Vec<u8>,
    cube: Vec<u8>,
    cube_flags: Vec<u8>,
    second: Vec<u8>,
}

pub fn table() -> Result<Vec<Row>, Refusal> {
    println!(
        "\
Filling and mending of 69 × 69 × 25, W 397. Putting the damage back between rounds is not timed; lost cells hold garbage.

{ROWS}"
    );
    let shape = REFERENCE_SET;
    let nothing = vec![0; shape.cells()?];
    let mut rows = Vec::new();
    for (what, flags) in [
        ("fill: nothing lost, a full check", nothing.clone()),
        (
            "fill: 2 × L1 × L2 cells in succession lost",
            in_succession(shape),
        ),
        (
            "fill: 5 % lost at random",
            at_random(&mut Random::new(6), shape, 5, 100),
        ),
    ] {
        let mut repair = Repair::new(shape, flags)?;
        rows.extend(repair.fill_times(ROUNDS).rows([what]));
        assert_eq!(repair.left(), 0, "{what}");
    }
    let mend_times = Repair::new(shape, nothing)?.mend_times(ROUNDS);
    rows.extend(mend_times.rows(["mend: nothing wrong"]));
    rows.iter().for_each(Row::print);
    Ok(rows)
}

impl Repair {
    /// A random code cube, with garbage in the flagged cells.
    pub fn new(shape: Shape, flags: Vec<u8>) -> Result<Repair, Refusal> {
        let mut random = Random::new(7);
        let data = random.bytes(shape.capacity()?);
        let mut right = vec![1; shape.cube_bytes()?];
        encode(shape, &data, &mut right)?;
        let mut damaged = right.clone();
        for (packet, &flag) in damaged.chunks_mut(shape.w).zip(&flags) {
            if flag == 1 {
                packet.copy_from_slice(&random.bytes(shape.w));
            }
        }
        Ok(Repair {
            shape,
            cube: vec![1; right.len()],
            cube_flags: vec![1; flags.len()],
            second: vec![1; right.len()],
            right,
            damaged,
            flags,
        })
    }

    /// The least time of filling the cube; what comes back is looked at.
    pub fn fill_times(&mut self, rounds: usize) -> Times {
        let times = self.times(rounds, |s| {
            fill(s.shape, &mut s.cube, &mut s.cube_flags).expect("a code cube with losses");
        });
        let packets = self.cube.chunks(self.shape.w).zip(&self.cube_flags);
        for ((packet, &flag), right) in packets.zip(self.right.chunks(self.shape.w)) {
            assert!(flag == 1 || packet == right, "filling restores the cube");
        }
        times
    }

    /// How many cells the filling left.
    pub fn left(&self) -> usize {
        self.cube_flags.iter().filter(|&&flag| flag == 1).count()
    }

    fn mend_times(&mut self, rounds: usize) -> Times {
        let times = self.times(rounds, |s| {
            assert_eq!(mend(s.shape, &s.cube, &s.cube_flags, &mut s.second), Ok(()));
        });
        assert!(self.second == self.right, "mending keeps a right cube");
        times
    }

    fn times(&mut self, rounds: usize, work: fn(&mut Repair)) -> Times {
        beside_memcpy(rounds, self.shape, self, Repair::put_damage_back, &[&work])
    }

    fn put_damage_back(&mut self) {
        self.cube.copy_from_slice(&self.damaged);
        self.cube_flags.copy_from_slice(&self.flags);
    }
}
