//! The drawing: a row of planes for each reception, one square for each cell.

use crate::drawing::{page, text};
use crate::{Cell, LENGTHS, Scene};

/// The side of a cell with the space beside it, the space between planes, the margin of the page.
const CELL: usize = 9;
const GAP: usize = 16;
const MARGIN: usize = 28;

/// The height of the legend, of a row's title, and of the space below a row.
const LEGEND: usize = 46;
const TITLE: usize = 26;
const BELOW: usize = 44;

const DATA: &str = "#8fa9c4";
const PARITY: &str = "#cfdbe7";
const FILLED: &str = "#1d9a80";
const LEFT: &str = "#d63a1f";

/// The whole drawing.
pub fn draw(scenes: &[Scene]) -> String {
    let [l1, l2, l3] = LENGTHS;
    let row = TITLE + l2 * CELL + BELOW;
    let width = 2 * MARGIN + l3 * (l1 * CELL + GAP) - GAP;
    let height = 2 * MARGIN + LEGEND + scenes.len() * row - BELOW + 18;
    let mut drawn = legend();
    for (number, scene) in scenes.iter().enumerate() {
        drawn += &planes(scene, MARGIN + LEGEND + number * row);
    }
    page(width, height, &drawn)
}

fn legend() -> String {
    let mut drawn = String::new();
    let mut x = MARGIN;
    for (colour, what) in [
        (DATA, "received, data"),
        (PARITY, "received, parity"),
        (FILLED, "lost, and filled"),
        (LEFT, "lost, and left"),
    ] {
        drawn += &format!("<path fill=\"{colour}\" d=\"M{x} {MARGIN}h12v12h-12z\"/>\n");
        drawn += &text(x + 19, MARGIN + 11, "", what);
        x += 44 + what.len() * 7;
    }
    drawn
}

/// The row of one scene: its title, its planes from c = 0 on, and their names.
fn planes(scene: &Scene, top: usize) -> String {
    let [l1, l2, l3] = LENGTHS;
    let title = format!(
        "<tspan font-weight=\"bold\" fill=\"#1c2733\">{}</tspan><tspan dx=\"10\">{}</tspan>",
        scene.title, scene.outcome
    );
    let mut drawn = text(MARGIN, top + 12, "", &title);
    for colour in [DATA, PARITY, FILLED, LEFT] {
        let numbers = (0..scene.cells.len()).filter(|&number| colour_of(scene, number) == colour);
        let squares: String = numbers.map(|number| square(number, top)).collect();
        drawn += &format!("<path fill=\"{colour}\" d=\"{squares}\"/>\n");
    }
    for c in 0..l3 {
        let x = MARGIN + c * (l1 * CELL + GAP) + l1 * CELL / 2;
        let place = "text-anchor=\"middle\" font-size=\"11\" fill=\"#7a8794\"";
        drawn += &text(x, top + TITLE + l2 * CELL + 15, place, &format!("c = {c}"));
    }
    drawn
}

fn coordinates(number: usize) -> [usize; 3] {
    let [l1, l2, _] = LENGTHS;
    [number % l1, number / l1 % l2, number / (l1 * l2)]
}

fn colour_of(scene: &Scene, number: usize) -> &'static str {
    let data = coordinates(number)
        .iter()
        .zip(LENGTHS)
        .all(|(at, length)| *at < length - 2);
    match scene.cells[number] {
        Cell::Received if data => DATA,
        Cell::Received => PARITY,
        Cell::Filled => FILLED,
        Cell::Left => LEFT,
    }
}

/// The outline of a cell, as a part of a path.
fn square(number: usize, top: usize) -> String {
    let [a, b, c] = coordinates(number);
    let x = MARGIN + c * (LENGTHS[0] * CELL + GAP) + a * CELL;
    let y = top + TITLE + b * CELL;
    let side = CELL - 1;
    format!("M{x} {y}h{side}v{side}h-{side}z")
}
