//! `demo [PATH]`: writes README.md as packets, loses some of them in three ways, receives the rest, and draws what came of it, to
//! PATH or to target/demo.svg.

#[path = "../drawing/mod.rs"]
mod drawing;
mod svg;

use std::error::Error;
use std::fs;

use jibrufath::{AirPack, Reception, Shape, packets, receive, write};
use reference::random::Random;

/// The lengths of the cube: 600 of its 1,152 cells hold data, the others are parity.
const LENGTHS: [usize; 3] = [12, 12, 8];

/// What came of a cell.
#[derive(Clone, Copy, PartialEq, Eq)]
enum Cell {
    Received,
    Filled,
    Left,
}

/// One reception: how its packets were lost, what the receiver says, and what came of each cell.
struct Scene {
    title: &'static str,
    outcome: String,
    cells: Vec<Cell>,
}

fn main() -> Result<(), Box<dyn Error>> {
    let file = fs::read(drawing::repository().join("README.md"))?;
    let shape = shape_for(file.len());
    let pack = write(shape, &file)?;
    let [l1, l2, l3] = LENGTHS;
    println!(
        "README.md, {} bytes, is written as {} packets of {} bytes: a cube of {l1} by {l2} by {l3}.\n",
        file.len(),
        shape.cells()?,
        shape.w
    );

    let mut scenes = Vec::new();
    for (title, lost) in losses() {
        let air = heard(shape, &pack, &lost)?;
        let scene = play(air.as_bytes(), &file, title, &lost)?;
        println!("{title}: {}", scene.outcome);
        scenes.push(scene);
    }

    let kept = drawing::keep(&svg::draw(&scenes), "demo.svg")?;
    println!(
        "\nThe planes of the three cubes are drawn in {}.",
        kept.display()
    );
    Ok(())
}

/// The cube with the narrowest packets that have room for a file, with its length.
fn shape_for(file: usize) -> Shape {
    let [l1, l2, l3] = LENGTHS;
    let data_cells = (l1 - 2) * (l2 - 2) * (l3 - 2);
    Shape::new(l1, l2, l3, (file + 4).div_ceil(data_cells))
}

/// Three ways to lose packets: for each cell, whether its packet is lost.
fn losses() -> [(&'static str, Vec<bool>); 3] {
    let [l1, l2, l3] = LENGTHS;
    let cells = 0..l1 * l2 * l3;
    let mut random = Random::new(24);
    let at_random = cells.clone().map(|_| random.chance(30)).collect();
    let first = 2 * l1 * l2 + 61;
    let burst = first..first + 2 * l1 * l2;
    let in_a_burst = cells.clone().map(|cell| burst.contains(&cell)).collect();
    let stuck = cells.map(|cell| in_stopping_set(cell) || random.chance(12));
    [
        ("Lost at random", at_random),
        ("Lost in a burst", in_a_burst),
        ("Lost with a stopping set", stuck.collect()),
    ]
}

/// Whether a cell is one of 4 by 4 by 3 cells, but for those on a diagonal: no line meets these 36 in one or two.
fn in_stopping_set(cell: usize) -> bool {
    let [l1, l2, _] = LENGTHS;
    let place = |among: &[usize], coordinate| among.iter().position(|&at| at == coordinate);
    let i = place(&[1, 4, 6, 9], cell % l1);
    let j = place(&[2, 3, 7, 10], cell / l1 % l2);
    let k = place(&[1, 4, 6], cell / (l1 * l2));
    i.is_some() && j.is_some() && k.is_some() && i != j
}

/// The pack without the packets that are lost.
fn heard(shape: Shape, pack: &[u8], lost: &[bool]) -> Result<AirPack, jibrufath::Error> {
    let mut air = AirPack::new(shape)?;
    for (packet, &lost) in packets(pack)?.zip(lost) {
        if !lost {
            air.push(packet)?;
        }
    }
    Ok(air)
}

/// Receives what is heard of a pack, and compares the file that comes out with the one written.
fn play(
    air: &[u8],
    file: &[u8],
    title: &'static str,
    lost: &[bool],
) -> Result<Scene, Box<dyn Error>> {
    let reception = receive(air)?;
    let end = match &reception {
        Reception::File { file: received, .. } if received != file => {
            return Err("another file came back".into());
        }
        Reception::File { .. } => "the file is back, byte for byte",
        Reception::Left { .. } => "the file stays closed",
    };
    let left: Vec<usize> = reception.left().collect();
    let cell = |(cell, &lost): (usize, &bool)| match lost {
        false => Cell::Received,
        true if left.contains(&cell) => Cell::Left,
        true => Cell::Filled,
    };
    let cells: Vec<Cell> = lost.iter().enumerate().map(cell).collect();
    let number = |kind| cells.iter().filter(|&&cell| cell == kind).count();
    let (filled, left) = (number(Cell::Filled), number(Cell::Left));
    let (lost, all) = (filled + left, cells.len());
    Ok(Scene {
        title,
        outcome: format!("{lost} of {all} packets lost, {filled} filled, {left} left: {end}"),
        cells,
    })
}
