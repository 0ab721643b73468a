//! The calls on a whole cube, in which nothing is lost and nothing is wrong.

use jibrufath::{
    Error, Received, Shape, encode, extract, fill, is_code_cube, job_pack, mend, receive_pack,
    write_pack,
};
use reference::random::Random;

use crate::measure::{Times, beside_memcpy};

/// A call that is timed.
pub struct Call {
    pub name: &'static str,
    run: fn(&mut Calls),
}

pub const ENCODE: Call = Call {
    name: "encode",
    run: |s| assert_eq!(encode(s.shape, &s.data, &mut s.cube), Ok(())),
};

pub const CHECK: Call = Call {
    name: "check",
    run: |s| assert_eq!(is_code_cube(s.shape, &s.cube), Ok(true)),
};

pub const FILL: Call = Call {
    name: "fill, nothing lost",
    run: |s| assert_eq!(fill(s.shape, &mut s.cube, &mut s.flags), Ok(0)),
};

pub const MEND: Call = Call {
    name: "mend, nothing wrong",
    run: |s| assert_eq!(mend(s.shape, &s.cube, &s.flags, &mut s.second), Ok(())),
};

pub const RECEIVE: Call = Call {
    name: "receive, all packets",
    run: |s| {
        let received = receive_pack(&s.pack, &mut s.cube, &mut s.flags, &mut s.file);
        assert!(matches!(received, Ok(Received::File { .. })));
    },
};

pub const WRITE: Call = Call {
    name: "write",
    run: |s| assert_eq!(write_pack(&s.job, &mut s.cube, &mut s.pack), Ok(())),
};

/// One shape with a file, in every form that it has on its way, and all memory that the calls are lent.
pub struct Calls {
    shape: Shape,
    job: Vec<u8>,
    data: Vec<u8>,
    cube: Vec<u8>,
    second: Vec<u8>,
    flags: Vec<u8>,
    pack: Vec<u8>,
    file: Vec<u8>,
}

impl Calls {
    /// The forms of a random file that fills the shape.
    pub fn new(shape: Shape) -> Result<Calls, Error> {
        let file = Random::new(10).bytes(shape.file_bytes()?);
        let mut calls = Calls {
            shape,
            job: job_pack(shape, &file)?,
            data: vec![1; shape.capacity()?],
            cube: vec![1; shape.cube_bytes()?],
            second: vec![1; shape.cube_bytes()?],
            flags: vec![0; shape.cells()?],
            pack: vec![1; shape.pack_bytes()?],
            file,
        };
        write_pack(&calls.job, &mut calls.cube, &mut calls.pack)?;
        extract(shape, &calls.cube, &mut calls.data)?;
        Ok(calls)
    }

    /// The least times of these calls. They keep the file, so each finds what the one before needed, too.
    pub fn times(&mut self, rounds: usize, calls: &[Call]) -> Times {
        let work: Vec<&dyn Fn(&mut Calls)> = calls.iter().map(|call| &call.run as _).collect();
        let [file, pack] = [&self.file, &self.pack].map(Vec::clone);
        let times = beside_memcpy(rounds, self.shape, self, |_| {}, &work);
        assert!(self.file == file && self.pack == pack, "the file is kept");
        times
    }
}
