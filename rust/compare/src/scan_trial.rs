//! One line, with cells missing, for the scan of both programs.

use jibrufath::{Shape, scan};
use reference::Scan;
use reference::random::Random;

use crate::cube_trial::numbers;
use crate::{Calls, agree, numbered, random_shape, twin};

/// A line of a cube, and the flags before a call.
#[derive(Clone, Debug)]
pub struct ScanTrial {
    pub shape: Shape,
    pub axis: usize,
    pub line: usize,
    pub flags: Vec<u8>,
}

impl ScanTrial {
    /// This line, with flags that may be anything: no flag is refused.
    pub fn new(random: &mut Random, shape: Shape, axis: usize, line: usize) -> ScanTrial {
        let flags = random.bytes(twin(shape).cells());
        ScanTrial {
            shape,
            axis,
            line,
            flags,
        }
    }

    /// A line of a random shape in which each cell is missing with some chance. Now and then there is no such axis or line, or
    /// the flags have a wrong length.
    pub fn random(random: &mut Random) -> ScanTrial {
        let shape = random_shape(random);
        let axis = if random.chance(3) {
            random.pick(&[0, 4])
        } else {
            random.among(1..=3)
        };
        let lines = twin(shape).lines(axis.clamp(1, 3)).count();
        let behind = usize::from(random.chance(3));
        let line = random.among(0..=lines - 1 + behind);
        let mut trial = ScanTrial::new(random, shape, axis, line);
        let percent = random.among(0..=60);
        for flag in &mut trial.flags {
            if *flag == 1 || random.chance(90) {
                *flag = u8::from(random.chance(percent));
            }
        }
        if random.chance(3) {
            trial.flags.pop();
        }
        trial
    }

    /// Runs both programs, compares what they answer and leave, and hands back the answer.
    pub fn compare(&self, random: &mut Random) -> Result<Scan, u8> {
        let ScanTrial {
            shape, axis, line, ..
        } = *self;
        agree(
            &format!("{shape:?}, axis {axis}, line {line}"),
            random,
            [&self.flags],
            |[flags]| {
                numbered(scan(shape, axis, line, flags)).map(|scan| Scan {
                    holes: scan.erasures,
                    read: scan.read,
                })
            },
            |[flags]| reference::scan(twin(shape), axis, line, flags),
        )
        .answer
    }

    /// Records the call.
    pub fn record(&self, calls: &mut Calls) {
        let ScanTrial {
            shape, axis, line, ..
        } = *self;
        let numbers = [&numbers(shape)[..], &[axis, line]].concat();
        calls.call("scan", [&self.flags], &numbers, |[flags]| {
            reference::scan(twin(shape), axis, line, flags)
        });
    }
}
