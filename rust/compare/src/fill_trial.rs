//! One cube, with cells missing, for the filling of both programs.

use jibrufath::{Shape, fill};
use reference::random::Random;

use crate::{Embedded, agree, numbered, random_code_cube, twin};

/// A cube and its flags, before a call.
pub struct FillTrial {
    pub shape: Shape,
    pub cube: Vec<u8>,
    pub flags: Vec<u8>,
}

impl FillTrial {
    /// A random code cube with no cell missing.
    pub fn new(random: &mut Random, shape: Shape) -> FillTrial {
        let cube = random_code_cube(random, shape);
        let flags = vec![0; twin(shape).cells()];
        FillTrial { shape, cube, flags }
    }

    /// A random code cube without the cells of the pattern.
    pub fn without(random: &mut Random, pattern: &Embedded) -> FillTrial {
        let mut trial = FillTrial::new(random, pattern.shape);
        for &cell in &pattern.cells {
            trial.lose(random, cell);
        }
        trial
    }

    /// Makes a cell missing, with garbage for its bytes.
    pub fn lose(&mut self, random: &mut Random, cell: usize) {
        self.flags[cell] = 1;
        let garbage = random.bytes(self.shape.w);
        self.cube[twin(self.shape).bytes(cell)].copy_from_slice(&garbage);
    }

    /// Makes each cell missing with this chance.
    pub fn lose_percent(&mut self, random: &mut Random, percent: usize) {
        for cell in 0..self.flags.len() {
            if random.chance(percent) {
                self.lose(random, cell);
            }
        }
    }

    /// Flags each known cell as unsent with this chance, whatever it holds.
    pub fn unsend_percent(&mut self, random: &mut Random, percent: usize) {
        for flag in &mut self.flags {
            if *flag == 0 && random.chance(percent) {
                *flag = 2;
            }
        }
    }

    /// Adds to one byte of a cell, in a random layer.
    pub fn spoil(&mut self, random: &mut Random, cell: usize) {
        let layer = random.among(0..=self.shape.w - 1);
        self.cube[cell * self.shape.w + layer] ^= random.nonzero_byte();
    }

    /// Runs both programs, compares all that they leave, and hands back the answer.
    pub fn compare(&self, random: &mut Random) -> Result<usize, u8> {
        let shape = self.shape;
        agree(
            &format!("{shape:?}"),
            random,
            [&self.cube, &self.flags],
            |[cube, flags]| numbered(fill(shape, cube, flags)),
            |[cube, flags]| reference::fill(twin(shape), cube, flags),
        )
        .answer
    }
}
