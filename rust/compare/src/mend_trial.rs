//! One damaged cube, for the mending of both programs.

use jibrufath::{Shape, mend};
use reference::random::Random;

use crate::{agree, numbered, twin};

/// What mending made of a damaged code cube.
#[derive(Clone, Copy, Debug, PartialEq, Eq)]
pub enum Mended {
    Restored,
    OtherCodeCube,
    Refused,
}

impl Mended {
    /// Mends a damaged cube by both programs, and compares all that they leave.
    pub fn compare(random: &mut Random, shape: Shape, right: &[u8], damaged: &[u8]) -> Mended {
        // Unsent cells are known.
        let known = (0..twin(shape).cells()).map(|cell| [0, 0, 2][cell % 3]);
        let known: Vec<u8> = known.collect();
        let garbage = random.bytes(damaged.len());
        let agreed = agree(
            &format!("{shape:?}"),
            random,
            [damaged, &known, &garbage],
            |[cube, flags, second]| numbered(mend(shape, cube, flags, second)),
            |[cube, flags, second]| reference::mend(twin(shape), cube, flags, second),
        );
        let [_, _, second] = agreed.after;
        match agreed.answer {
            Ok(()) if second == right => Mended::Restored,
            Ok(()) => Mended::OtherCodeCube,
            Err(_) => Mended::Refused,
        }
    }
}
