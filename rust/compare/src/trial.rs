//! One pack for the writer and the receiver of both programs.

use jibrufath::{Needs, Received, needs, receive_pack, write_pack};
use reference::pack::read_header;
use reference::random::Random;
use reference::{Header, Outcome, Shape};

use crate::{Calls, KINDS, compare, numbered, placed};

/// A pack, and the lengths of the slices that are lent with it.
#[derive(Debug)]
pub struct Trial {
    pub pack: Vec<u8>,
    pub lens: Lens,
}

/// The lengths of lent slices.
#[derive(Clone, Copy, Debug)]
pub struct Lens {
    pub cube: usize,
    pub flags: usize,
    pub file: usize,
    pub output: usize,
}

/// What the writer and the receiver answer to one pack.
#[derive(Clone, Copy, Debug, PartialEq, Eq)]
pub struct Answers {
    pub write: Result<(), u8>,
    pub receive: Result<reference::Received, reference::Refusal>,
}

/// No cube above so many bytes is lent.
const MOST_BYTES: usize = 1_000_000;

impl Lens {
    /// The exact lengths for a shape, or for one whose data cells are not all in use.
    pub fn exact(header: impl Into<Header>) -> Lens {
        let header = header.into();
        let shape = header.shape;
        Lens {
            cube: shape.cube_bytes(),
            flags: shape.cells(),
            file: shape.file_bytes(),
            output: header.pack_bytes(),
        }
    }

    /// All of them, to be changed.
    pub fn each_mut(&mut self) -> [&mut usize; 4] {
        [
            &mut self.cube,
            &mut self.flags,
            &mut self.file,
            &mut self.output,
        ]
    }

    /// Random bytes of these lengths.
    fn garbage(self, random: &mut Random) -> [Vec<u8>; 4] {
        [self.cube, self.flags, self.file, self.output].map(|len| random.bytes(len))
    }
}

impl Trial {
    /// The pack, with slices of the exact lengths for its shape; those of a small cube where it has no good shape or too large
    /// a one.
    pub fn new(pack: Vec<u8>) -> Trial {
        let header = read_header(&pack).ok();
        let header = header.filter(|header| header.shape.cube_bytes() <= MOST_BYTES);
        let lens = Lens::exact(header.unwrap_or(Shape::new(3, 3, 3, 5).into()));
        Trial { pack, lens }
    }

    /// A pack of this kind. Now and then one slice has a wrong length.
    pub fn random(random: &mut Random, kind: usize) -> Trial {
        let (_, make) = KINDS[kind];
        let mut trial = Trial::new(make(random));
        if random.chance(5) {
            let slice = random.among(0..=3);
            let len = &mut *trial.lens.each_mut()[slice];
            *len = random.pick(&[*len + 1, len.saturating_sub(1)]);
        }
        trial
    }

    /// Asks both programs what the pack needs, gives it to the writer and to the receiver of both, over garbage, and compares the
    /// answers and every lent byte.
    pub fn compare(&self, random: &mut Random) -> Result<Answers, String> {
        compare(
            random,
            [&self.pack],
            |[pack]| numbered(needs(pack)).map(told_needs),
            |[pack]| reference::needs(pack),
        )
        .map_err(|difference| format!("needs: {difference}"))?;
        let garbage = self.lens.garbage(random);
        let [cube, flags, file, output] = garbage.each_ref().map(Vec::as_slice);
        let write = compare(
            random,
            [&self.pack, cube, output],
            |[job, cube, output]| numbered(write_pack(job, cube, output)),
            |[job, cube, output]| reference::write_pack(job, cube, output),
        )
        .map_err(|difference| format!("writer: {difference}"))?;
        let receive = compare(
            random,
            [&self.pack, cube, flags, file],
            |[air, cube, flags, file]| {
                receive_pack(air, cube, flags, file)
                    .map(told)
                    .map_err(placed)
            },
            |[air, cube, flags, file]| reference::receive_pack(air, cube, flags, file),
        )
        .map_err(|difference| format!("receiver: {difference}"))?;
        Ok(Answers {
            write: write.answer,
            receive: receive.answer,
        })
    }

    /// Records the calls that [`Trial::compare`] makes.
    pub fn record(&self, random: &mut Random, calls: &mut Calls) {
        let pack = &self.pack;
        let garbage = self.lens.garbage(random);
        let [cube, flags, file, output] = garbage.each_ref().map(Vec::as_slice);
        calls.call("needs", [pack], &[], |[pack]| reference::needs(pack));
        calls.call("write_pack", [pack, cube, output], &[], |slices| {
            let [job, cube, output] = slices;
            reference::write_pack(job, cube, output)
        });
        calls.call("receive_pack", [pack, cube, flags, file], &[], |slices| {
            let [air, cube, flags, file] = slices;
            reference::receive_pack(air, cube, flags, file)
        });
    }
}

/// What came of a pack, as the independent program gives it.
pub(crate) fn told(received: Received) -> reference::Received {
    let (outcome, packets, repeats, conflicts) = match received {
        Received::File {
            len,
            packets,
            repeats,
            conflicts,
            ..
        } => (Outcome::File { len }, packets, repeats, conflicts),
        Received::Left {
            cells,
            packets,
            repeats,
            conflicts,
            ..
        } => (Outcome::Left { cells }, packets, repeats, conflicts),
    };
    reference::Received {
        outcome,
        packets,
        repeats,
        conflicts,
    }
}

/// What the library says that a pack needs, in the places of the exported call.
fn told_needs(needs: Needs) -> [u64; 16] {
    let shape = needs.shape;
    let mut places = [0; 16];
    let told = [
        shape.l1,
        shape.l2,
        shape.l3,
        shape.w,
        needs.cells,
        needs.cube_bytes,
        needs.capacity,
        needs.file_bytes,
        needs.pack_bytes,
        needs.used,
    ];
    for (place, told) in places.iter_mut().zip(told) {
        *place = told as u64;
    }
    places
}
