//! How time grows: with the size of the cube, and with the share of the cells that are lost.

use compare::patterns::at_random;
use jibrufath::processor::Instructions;
use jibrufath::{Error, Refusal, Shape};
use reference::random::Random;

use crate::REFERENCE_SET;
use crate::calls::{Call, Calls, ENCODE, FILL, RECEIVE};
use crate::measure::{ROUNDS, milliseconds};
use crate::repair::Repair;

/// The lengths along axes 1 and 2; axis 3 and W are those of the reference set.
const LENGTHS: [usize; 5] = [9, 18, 35, 69, 137];

/// The shares lost, in percent.
const SHARES: [usize; 7] = [0, 2, 4, 6, 8, 10, 12];

/// The calls that are timed for each size, beside memcpy.
const CALLS: [Call; 3] = [ENCODE, FILL, RECEIVE];

/// The work that is timed for each size.
pub const WORK: [&str; 4] = ["memcpy", ENCODE.name, FILL.name, RECEIVE.name];

/// The milliseconds of each work, for a cube of so many megabytes: with SSE2, and behind them those of the calls with AVX2.
pub struct Size {
    pub megabytes: f64,
    pub milliseconds: Vec<f64>,
}

/// The time of a filling over memcpy, where this share is lost at random.
pub struct Share {
    pub percent: usize,
    pub ratio: f64,
    pub left: usize,
}

/// Prints and gives the times for cubes of growing size.
pub fn by_size() -> Result<Vec<Size>, Error> {
    println!("Growth with the cube's size, in milliseconds: L × L × 25, W 397.");
    let mut columns = WORK.to_vec();
    let avx2 = CALLS.each_ref().map(|call| format!("{}, AVX2", call.name));
    if Instructions::available().contains(&Instructions::Avx2) {
        columns.extend(avx2.iter().map(String::as_str));
    }
    println!("\n| L | megabytes | {} |", columns.join(" | "));
    println!("|---|---|{}", "---|".repeat(columns.len()));
    let mut sizes = Vec::new();
    for length in LENGTHS {
        let Shape { l3, w, .. } = REFERENCE_SET;
        let shape = Shape::new(length, length, l3, w);
        let times = Calls::new(shape)?.times(ROUNDS, &CALLS);
        let sse2 = times.work.iter().map(|time| time.sse2);
        let avx2 = times.work.iter().filter_map(|time| time.avx2);
        let all = [times.memcpy].into_iter().chain(sse2).chain(avx2);
        let size = Size {
            megabytes: shape.cube_bytes()? as f64 / 1e6,
            milliseconds: all.map(milliseconds).collect(),
        };
        print!("| {length} | {:.1} |", size.megabytes);
        size.milliseconds.iter().for_each(|ms| print!(" {ms:.2} |"));
        println!();
        sizes.push(size);
    }
    Ok(sizes)
}

/// Prints and gives the times of fillings of the reference set with growing losses.
pub fn by_share_lost() -> Result<Vec<Share>, Refusal> {
    println!(
        "\
Growth with the share of the cells lost at random: fill of 69 × 69 × 25, W 397.

| lost | milliseconds | over memcpy | AVX2: milliseconds | over memcpy | cells left |
|---|---|---|---|---|---|"
    );
    let mut shares = Vec::new();
    for percent in SHARES {
        let flags = at_random(&mut Random::new(9), REFERENCE_SET, percent, 100);
        let mut repair = Repair::new(REFERENCE_SET, flags)?;
        let what = format!("{percent} %");
        for row in repair.fill_times(ROUNDS).rows([what.as_str()]) {
            let left = repair.left();
            println!("| {what} | {} | {left} |", row.columns());
            shares.push(Share {
                percent,
                ratio: row.sse2.ratio,
                left,
            });
        }
    }
    Ok(shares)
}
