//! Filling where much is lost, and the flags that it reads: the count of a line ends at its third missing cell.

use compare::patterns::at_random;
use jibrufath::{Refusal, Shape, scan};
use reference::random::Random;

use crate::REFERENCE_SET;
use crate::repair::Repair;

const SHAPES: [Shape; 3] = [
    Shape::new(255, 255, 100, 1),
    Shape::new(100, 100, 100, 16),
    REFERENCE_SET,
];

/// The shares lost, in percent.
const SHARES: [usize; 4] = [10, 30, 50, 95];

const ROUNDS: usize = 40;

/// The flags that sweeps over all lines read, where each count goes on to the line's end, and where it ends at the third missing cell.
struct FlagsRead {
    to_the_end: usize,
    to_the_third: usize,
}

pub fn table() -> Result<(), Refusal> {
    println!(
        "\
Filling with cells lost at random, minimum of {ROUNDS} rounds; and the flags that its sweeps read if each goes through all lines of its
axis, until three in succession fill nothing: with every line counted to its end, and with the count that ends at the third missing cell.

| cube | W | lost | milliseconds | over memcpy | AVX2: milliseconds | over memcpy | cells left | flags read to the end | to the third | of them |
|---|---|---|---|---|---|---|---|---|---|---|"
    );
    for shape in SHAPES {
        for percent in SHARES {
            print_row(shape, percent)?;
        }
    }
    Ok(())
}

fn print_row(shape: Shape, percent: usize) -> Result<(), Refusal> {
    let flags = at_random(&mut Random::new(11), shape, percent, 100);
    let FlagsRead {
        to_the_end,
        to_the_third,
    } = flags_read(shape, flags.clone())?;
    let mut repair = Repair::new(shape, flags)?;
    let what = format!("{percent} %");
    for row in repair.fill_times(ROUNDS).rows([what.as_str()]) {
        let Shape { l1, l2, l3, w } = shape;
        println!(
            "| {l1} × {l2} × {l3} | {w} | {what} | {} | {} | {to_the_end} | {to_the_third} | {:.1} % |",
            row.columns(),
            repair.left(),
            100.0 * to_the_third as f64 / to_the_end as f64
        );
    }
    Ok(())
}

/// Sweeps over the flags, by the library's own count of a line.
fn flags_read(shape: Shape, mut flags: Vec<u8>) -> Result<FlagsRead, Refusal> {
    let mut read = FlagsRead {
        to_the_end: 0,
        to_the_third: 0,
    };
    let mut idle = 0;
    for axis in [1, 2, 3].into_iter().cycle() {
        let filled = sweep(shape, axis, &mut flags, &mut read)?;
        idle = if filled { 0 } else { idle + 1 };
        if idle == 3 {
            break;
        }
    }
    Ok(read)
}

/// One sweep: clears the flags of every line that misses one or two cells. Says whether there was one.
fn sweep(
    shape: Shape,
    axis: usize,
    flags: &mut [u8],
    read: &mut FlagsRead,
) -> Result<bool, Refusal> {
    let mut filled = false;
    for (number, line) in compare::twin(shape).lines(axis).enumerate() {
        let found = scan(shape, axis, number, flags)?;
        read.to_the_end += line.length;
        read.to_the_third += found.read;
        if (1..=2).contains(&found.erasures) {
            line.cells().for_each(|cell| flags[cell] = 0);
            filled = true;
        }
    }
    Ok(filled)
}
