//! Receiving where everything comes back, but only in many sweeps: at two sizes, so that growth is seen.

use compare::patterns::MANY_SWEEPS;
use jibrufath::{Error, Shape};

use crate::bars::Bar;
use crate::measure::Row;
use crate::receiving::{Kind, Receiving};

/// The lengths along all three axes, W 1. The bar is at the last.
const LENGTHS: [usize; 2] = [128, 255];

/// A round takes seconds.
const ROUNDS: usize = 5;

/// Prints the table, and gives the bar that it is held to: the worst pattern against a receive of the same cube with nothing lost.
pub fn table() -> Result<Vec<Bar>, Error> {
    println!(
        "\
Receiving of L × L × L, W 1, without the cells of a pattern, over memcpy of the cube and over a receive with nothing lost; minimum of
{ROUNDS} rounds. Sweeps: those of a filling that goes through all lines each time.

| L | lost | of the cells | sweeps | milliseconds | over memcpy | AVX2: milliseconds | over memcpy | over nothing lost |
|---|---|---|---|---|---|---|---|---|"
    );
    let mut worst = 0.0;
    for length in LENGTHS {
        worst = print_rows(length)?;
    }
    Ok(vec![Bar {
        what: "255 cubed, W 1: receive without the worst pattern, over nothing lost".into(),
        measured: worst,
        most: 20.0,
    }])
}

/// Prints the rows of a length, and gives the longest time over nothing lost.
fn print_rows(length: usize) -> Result<f64, Error> {
    let shape = Shape::new(length, length, length, 1);
    let cells = shape.cells()?;
    let mut patterns = vec![("nothing", 3, vec![0; cells])];
    for pattern in MANY_SWEEPS {
        let sweeps = (pattern.sweeps)(length);
        patterns.push((pattern.name, sweeps, (pattern.flags)(shape)));
    }
    let kinds = patterns
        .iter()
        .map(|(name, _, flags)| Kind::without(name, flags));
    let rows = Receiving::new(shape, kinds.collect())?.rows(ROUNDS);
    let over_nothing = |row: &Row| row.sse2.milliseconds / rows[0].sse2.milliseconds;
    for (row, (name, sweeps, flags)) in rows.iter().zip(&patterns) {
        let lost = flags.iter().filter(|&&flag| flag == 1).count();
        println!(
            "| {length} | {name} | {:.2} % | {sweeps} | {} | {:.2} |",
            100.0 * lost as f64 / cells as f64,
            row.columns(),
            over_nothing(row)
        );
    }
    Ok(rows.iter().map(over_nothing).fold(0.0, f64::max))
}
