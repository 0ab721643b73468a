//! The benchmark: every call against memcpy of the cube, and encoding against ISA-L, GF-Complete, zfec and par2; writing and reading
//! the text of a pack against xxd; reading and writing plans against memcpy of their files; short files with and without the cells that
//! they leave empty; how time grows with the cube, with the losses and with the sweeps that they take.
//!
//! `bench` prints all tables, `bench TABLE ...` those that are named, `bench --svg PATH` all of them, and draws some. All times of one
//! table row come from the same run, in rounds that take every candidate in turn; each is the minimum of its rounds, in processor time
//! of the thread. Buffers are allocated and touched before any timing. The programs zfec, par2 and xxd alone are timed as their tables
//! say.

mod bars;
mod calls;
mod clock;
mod cube_encoder;
mod encoding;
mod folder;
mod gf_complete;
mod growth;
mod isal;
mod measure;
mod plans;
mod plot;
mod programs;
mod receiving;
mod repair;
mod scans;
mod sweeps;
mod texts;
mod unsent;
mod widths;

use std::env;
use std::error::Error;
use std::fs;

use jibrufath::Shape;

use crate::measure::ROUNDS;

/// The set of source document 004.
const REFERENCE_SET: Shape = Shape::new(69, 69, 25, 397);

/// The names of the tables, in the order in which they are printed.
const TABLES: [&str; 11] = [
    "encoding",
    "repair",
    "receiving",
    "unsent",
    "growth",
    "widths",
    "sweeps",
    "scans",
    "programs",
    "texts",
    "plans",
];

fn main() -> Result<(), Box<dyn Error>> {
    let words: Vec<String> = env::args().skip(1).collect();
    let words: Vec<&str> = words.iter().map(String::as_str).collect();
    let (path, names) = match words[..] {
        [] => (None, &TABLES[..]),
        ["--svg", path] => (Some(path), &TABLES[..]),
        ref names if names.iter().all(|name| TABLES.contains(name)) => (None, names),
        _ => {
            let tables = TABLES.join(", ");
            return Err(format!("usage: bench [--svg PATH | TABLE ...]; tables: {tables}").into());
        }
    };
    println!(
        "\
Thread processor time, minimum of {ROUNDS} interleaved rounds where nothing else is said. Ratios are to memcpy in the same rounds: of a
cube that encode has just written, to a buffer that nothing else touches. Buffers are allocated and touched before timing."
    );
    let (mut rows, mut sizes, mut shares, mut bars) = (vec![], vec![], vec![], vec![]);
    for name in TABLES.into_iter().filter(|name| names.contains(name)) {
        println!();
        match name {
            "encoding" => rows.extend(encoding::table()),
            "repair" => rows.extend(repair::table()?),
            "receiving" => {
                let (received, bar) = receiving::table()?;
                rows.extend(received);
                bars.push(bar);
            }
            "unsent" => unsent::table()?,
            "growth" => {
                sizes = growth::by_size()?;
                println!();
                shares = growth::by_share_lost()?;
            }
            "widths" => bars.extend(widths::table()?),
            "sweeps" => bars.extend(sweeps::table()?),
            "scans" => scans::table()?,
            "programs" => programs::table()?,
            "texts" => texts::table()?,
            _ => bars.extend(plans::table()?),
        }
    }
    if !bars.is_empty() {
        println!();
        bars::print(&bars);
    }
    if let Some(path) = path {
        fs::write(path, plot::draw(&rows, &sizes, &shares))?;
    }
    Ok(())
}
