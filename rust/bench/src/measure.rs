//! How work is timed: in rounds that take every piece of work in turn, with memcpy, the unit of the ratios, in the same rounds. Work that
//! calls the library is timed with each of the instructions that the processor has for it.

use std::hint::black_box;
use std::time::Duration;

use jibrufath::processor::Instructions;
use jibrufath::{Shape, encode};

use crate::clock;

/// Enough for several seconds a row: a shared machine is slow for a second or two at a time.
pub const ROUNDS: usize = 120;

/// The least times of a piece of work: with SSE2 alone, which every x86-64 processor has, and with AVX2 where this one has it.
#[derive(Clone, Copy)]
pub struct Time {
    pub sse2: Duration,
    pub avx2: Option<Duration>,
}

/// The least times of pieces of work, and of memcpy of the cube in the same rounds.
pub struct Times {
    pub memcpy: Duration,
    pub work: Vec<Time>,
}

/// How long a piece of work takes.
pub struct Row {
    pub what: String,
    pub sse2: Figures,
    pub avx2: Option<Figures>,
}

/// A time by itself and over memcpy of the cube.
pub struct Figures {
    pub milliseconds: f64,
    pub ratio: f64,
}

/// The head of a table of rows.
pub const ROWS: &str = "\
| call | milliseconds | over memcpy | AVX2: milliseconds | over memcpy |
|---|---|---|---|---|";

impl Time {
    /// Of what the rounds give for one piece of work: a time for each of the instructions, SSE2 first.
    fn new(times: &[Duration]) -> Time {
        Time {
            sse2: times[0],
            avx2: times.get(1).copied(),
        }
    }
}

impl Times {
    /// A row for each piece of work, by these names.
    pub fn rows<'a>(&self, names: impl IntoIterator<Item = &'a str>) -> Vec<Row> {
        let named = names.into_iter().zip(&self.work);
        named
            .map(|(what, time)| Row {
                what: what.into(),
                sse2: self.figures(time.sse2),
                avx2: time.avx2.map(|time| self.figures(time)),
            })
            .collect()
    }

    fn figures(&self, time: Duration) -> Figures {
        Figures {
            milliseconds: milliseconds(time),
            ratio: over(time, self.memcpy),
        }
    }
}

impl Row {
    pub fn print(&self) {
        println!("| {} | {} |", self.what, self.columns());
    }

    /// Milliseconds and ratio, with SSE2 and with AVX2.
    pub fn columns(&self) -> String {
        let avx2 = self.avx2.as_ref();
        format!(
            "{} | {}",
            self.sse2.columns(),
            avx2.map_or("- | -".into(), Figures::columns)
        )
    }
}

impl Figures {
    fn columns(&self) -> String {
        format!("{:.2} | {:.2}", self.milliseconds, self.ratio)
    }
}

/// A figure of an entry that may be missing.
pub fn entry(figure: Option<f64>) -> String {
    figure.map_or("-".into(), |figure| format!("{figure:.2}"))
}

/// memcpy of a cube, always in one state, that which a call meets behind another: the source is a cube that `encode` has just written, and
/// the target is a buffer that nothing else touches. Repeated at once, on a source that was only read since, it takes another time.
struct Memcpy {
    shape: Shape,
    data: Vec<u8>,
    cube: Vec<u8>,
    target: Vec<u8>,
}

impl Memcpy {
    fn new(shape: Shape) -> Memcpy {
        let bytes = shape.cube_bytes().expect("the shape is good");
        let data_bytes = shape.capacity().expect("the shape is good");
        Memcpy {
            shape,
            data: vec![1; data_bytes],
            cube: vec![1; bytes],
            target: vec![2; bytes],
        }
    }

    /// Encoding is not timed.
    fn time(&mut self) -> Duration {
        encode(self.shape, &self.data, &mut self.cube).expect("encodes");
        clock::time(|| black_box(&mut self.target).copy_from_slice(&self.cube))
    }
}

/// The least times in so many rounds of pieces of work, and of memcpy of a cube of this shape. `before` comes before each piece of work,
/// and is not timed.
pub fn beside_memcpy<S>(
    rounds: usize,
    shape: Shape,
    state: &mut S,
    before: impl Fn(&mut S),
    work: &[&dyn Fn(&mut S)],
) -> Times {
    let mut memcpy = Memcpy::new(shape);
    let mut least = least(rounds, || {
        let mut times = round(state, &before, work);
        times.push(memcpy.time());
        times
    });
    Times {
        memcpy: least.pop().expect("memcpy is the last"),
        work: by_work(&least),
    }
}

/// The least times of pieces of work.
pub fn least_times<S>(rounds: usize, state: &mut S, work: &[&dyn Fn(&mut S)]) -> Vec<Time> {
    by_work(&least(rounds, || round(state, &|_| {}, work)))
}

/// The times of rounds, piece of work by piece of work.
fn by_work(least: &[Duration]) -> Vec<Time> {
    let times = least.chunks(Instructions::available().len());
    times.map(Time::new).collect()
}

/// The least of the times that the rounds give, each for itself.
fn least(rounds: usize, mut round: impl FnMut() -> Vec<Duration>) -> Vec<Duration> {
    let mut least = round();
    for _ in 1..rounds {
        for (least, time) in least.iter_mut().zip(round()) {
            *least = time.min(*least);
        }
    }
    least
}

/// The times of one round: for each piece of work one with each of the instructions.
fn round<S>(state: &mut S, before: &impl Fn(&mut S), work: &[&dyn Fn(&mut S)]) -> Vec<Duration> {
    let mut times = Vec::new();
    for work in work {
        for &instructions in Instructions::available() {
            before(state);
            times.push(instructions.with(|| clock::time(|| work(state))));
        }
    }
    times
}

pub fn over(time: Duration, other: Duration) -> f64 {
    time.as_secs_f64() / other.as_secs_f64()
}

pub fn milliseconds(time: Duration) -> f64 {
    time.as_secs_f64() * 1e3
}
