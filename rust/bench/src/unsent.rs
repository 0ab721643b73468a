//! A short file in a big cube: writing and receiving with every cell sent, beside the same without the data cells that the file does not
//! reach.

use jibrufath::{Error, Header, Needs, Received, Shape, job_pack, needs, receive_pack, write_pack};
use reference::random::Random;

use crate::REFERENCE_SET;
use crate::measure::{Row, beside_memcpy};

/// The shapes, each with the rounds that it is measured in.
const SHAPES: [(Shape, usize); 2] = [(REFERENCE_SET, 60), (Shape::new(255, 255, 255, 1), 10)];

/// The file takes one part in so many of the capacity.
const SHARE: usize = 100;

/// Prints the table.
pub fn table() -> Result<(), Error> {
    println!(
        "\
A file of 1 % of the capacity, written and received with every packet: with all data cells sent (count 5), and without those that the
file does not reach (count 9). Minimum of {} and {} rounds.

| shape | call | bytes on air | milliseconds | over memcpy | AVX2: milliseconds | over memcpy |
|---|---|---|---|---|---|---|",
        SHAPES[0].1, SHAPES[1].1
    );
    for (shape, rounds) in SHAPES {
        let Shape { l1, l2, l3, w } = shape;
        let file = Random::new(12).bytes(shape.capacity()? / SHARE);
        let headers = [shape.into(), shape.used_by(file.len())];
        for (row, bytes) in rows(shape, headers, &file, rounds)? {
            let Row { what, .. } = &row;
            println!(
                "| {l1} × {l2} × {l3}, W {w} | {what} | {bytes} | {} |",
                row.columns()
            );
        }
    }
    Ok(())
}

/// Writing with each of the headers, then receiving, all in the same rounds, and the bytes of each written pack.
fn rows(
    shape: Shape,
    headers: [Header; 2],
    file: &[u8],
    rounds: usize,
) -> Result<Vec<(Row, usize)>, Error> {
    let [all, some] = headers.map(|header| Job::new(header, file));
    let mut state = State::new(shape, [all?, some?])?;
    let work: [&dyn Fn(&mut State); 4] =
        [&|s| s.write(0), &|s| s.write(1), &|s| s.receive(0), &|s| {
            s.receive(1)
        }];
    let names = [
        "write, count 5",
        "write, count 9",
        "receive, count 5",
        "receive, count 9",
    ];
    let times = beside_memcpy(rounds, shape, &mut state, |_| {}, &work);
    assert!(state.file.starts_with(file), "the file comes back");
    let bytes = [0, 1, 0, 1].map(|job| state.jobs[job].pack.len());
    Ok(times.rows(names).into_iter().zip(bytes).collect())
}

/// A file to write, and memory for its pack.
struct Job {
    job: Vec<u8>,
    pack: Vec<u8>,
}

impl Job {
    fn new(header: Header, file: &[u8]) -> Result<Job, Error> {
        let job = job_pack(header, file)?;
        let pack = vec![1; needs(&job)?.pack_bytes];
        Ok(Job { job, pack })
    }
}

/// The jobs, and the memory that all of them are lent.
struct State {
    jobs: [Job; 2],
    cube: Vec<u8>,
    flags: Vec<u8>,
    file: Vec<u8>,
}

impl State {
    fn new(shape: Shape, jobs: [Job; 2]) -> Result<State, Error> {
        let Needs {
            cube_bytes,
            cells,
            file_bytes,
            ..
        } = Header::from(shape).needs()?;
        Ok(State {
            jobs,
            cube: vec![1; cube_bytes],
            flags: vec![1; cells],
            file: vec![1; file_bytes],
        })
    }

    fn write(&mut self, job: usize) {
        let Job { job, pack } = &mut self.jobs[job];
        assert_eq!(write_pack(job, &mut self.cube, pack), Ok(()));
    }

    fn receive(&mut self, job: usize) {
        let air = &self.jobs[job].pack;
        let received = receive_pack(air, &mut self.cube, &mut self.flags, &mut self.file);
        assert!(matches!(received, Ok(Received::File { .. })));
    }
}
