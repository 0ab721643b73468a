//! `plan [PATH]`: writes a splice plan as packets, loses half of them, receives the rest, and draws the plan that is shown, to PATH or
//! to target/plan.svg.

#[path = "../drawing/mod.rs"]
mod drawing;
mod svg;

use std::error::Error;

use jibrufath::plan::{Closure, Fibre, Plan, Splice, receive};
use jibrufath::{AirPack, Reception, Shape, packets, write};

/// The lengths of the cube: 18 of its 100 cells hold data.
const LENGTHS: [usize; 3] = [5, 5, 4];

/// What is to be done in a closure: the fibres that are spliced, two by two, and those that are only there.
struct Work {
    closure: u16,
    spliced: &'static [(u16, u16)],
    open: &'static [u16],
}

const WORKS: [Work; 3] = [
    Work {
        closure: 17,
        spliced: &[(1, 13), (2, 14), (3, 16), (4, 15), (5, 17), (6, 18)],
        open: &[],
    },
    Work {
        closure: 42,
        spliced: &[(1, 28), (2, 27), (3, 26), (4, 25)],
        open: &[5, 6],
    },
    Work {
        closure: 210,
        spliced: &[(7, 148), (8, 145), (9, 151), (10, 146), (11, 150)],
        open: &[12],
    },
];

fn main() -> Result<(), Box<dyn Error>> {
    let planned = plan();
    let file = planned.to_bytes()?;
    let [l1, l2, l3] = LENGTHS;
    let data_cells = (l1 - 2) * (l2 - 2) * (l3 - 2);
    let shape = Shape::new(l1, l2, l3, (4 + file.len()).div_ceil(data_cells));
    let pack = write(shape, &file)?;

    // The first half of the packets, as many as two planes have.
    let lost = 2 * l1 * l2;
    let mut air = AirPack::new(shape)?;
    for packet in packets(&pack)?.skip(lost) {
        air.push(packet)?;
    }
    let shown = match receive(air.as_bytes())? {
        Reception::File { file, .. } if file == planned => file,
        Reception::File { .. } => return Err("another plan came out".into()),
        Reception::Left { cells, .. } => return Err(format!("{cells} cells are left").into()),
    };
    let title = format!(
        "{} closures, {} fibres and {} splices, out of {} of {} packets",
        shown.closures.len(),
        shown.fibres.len(),
        shown.splices.len(),
        shape.cells()? - lost,
        shape.cells()?
    );
    let kept = drawing::keep(&svg::draw(&title, &shown), "plan.svg")?;
    println!("{title}.\nThe plan is drawn in {}.", kept.display());
    Ok(())
}

/// The plan of all works: its lists in the order that the rules ask for.
fn plan() -> Plan {
    let mut plan = Plan::default();
    for Work {
        closure,
        spliced,
        open,
    } in WORKS
    {
        plan.closures.push(Closure { number: closure });
        let ends = spliced.iter().flat_map(|&(one, other)| [one, other]);
        let mut numbers: Vec<u16> = ends.chain(open.iter().copied()).collect();
        numbers.sort();
        let start = plan.fibres.len();
        let index = |number| (start + numbers.partition_point(|&n| n < number)) as u32;
        plan.splices
            .extend(spliced.iter().map(|&(one, other)| Splice {
                first: index(one),
                second: index(other),
            }));
        let fibres = numbers.iter().map(|&number| Fibre { closure, number });
        plan.fibres.extend(fibres);
    }
    plan
}
