//! The drawing of a plan: a box for each closure, in it its fibres by number, and a curve for each splice. A fibre stands on the right
//! where it is the second of a splice, else on the left.

use jibrufath::plan::{Closure, Fibre, Plan};

use crate::drawing::{page, text};

/// The margin of the page, the height of its title, the width of a box and the space between boxes.
const MARGIN: usize = 26;
const TITLE: usize = 34;
const BOX: usize = 236;
const GAP: usize = 20;

/// The head of a box, the height of a fibre's row, and how far a fibre's dot stands from the side of its box.
const HEAD: usize = 42;
const ROW: usize = 27;
const INSET: usize = 52;

/// The colour of a box.
const GROUND: &str = "#f1f5f9";

/// The colours of fibres in a tube, by number, as cables have them: blue, orange, green, brown, slate, white, red, black, yellow,
/// violet, rose, aqua.
const COLOURS: [&str; 12] = [
    "#2a6fdb", "#ef8420", "#2f9e54", "#8a5a34", "#7d8a98", "#ffffff", "#d8382b", "#20262c",
    "#e8c21b", "#8450b8", "#ee8fae", "#23b3bd",
];

/// A fibre in the drawing.
struct Port {
    number: u16,
    right: bool,
    spliced: bool,
    x: usize,
    y: usize,
}

/// The whole drawing.
pub fn draw(title: &str, plan: &Plan) -> String {
    let ports = ports(plan);
    let lowest = ports
        .iter()
        .map(|port| port.y)
        .max()
        .unwrap_or(MARGIN + TITLE + HEAD);
    let bottom = lowest + ROW - 5;
    let closures = plan.closures.len();
    let width = 2 * MARGIN + closures * (BOX + GAP) - GAP.min(closures * GAP);
    let mut drawn = text(
        MARGIN,
        MARGIN + 9,
        "font-weight=\"bold\" fill=\"#1c2733\"",
        title,
    );
    for (place, closure) in plan.closures.iter().enumerate() {
        drawn += &closure_box(place, closure, bottom);
    }
    for splice in &plan.splices {
        let [one, other] = [splice.first, splice.second].map(|index| &ports[index as usize]);
        drawn += &curve(one, other);
    }
    drawn += &ports.iter().map(dot).collect::<String>();
    page(width, bottom + MARGIN, &drawn)
}

/// Where each fibre stands: a column on each side of its closure's box, from the top down.
fn ports(plan: &Plan) -> Vec<Port> {
    let mut rows = vec![[0; 2]; plan.closures.len()];
    let port = |(index, fibre): (usize, &Fibre)| {
        let is = |end: u32| end as usize == index;
        let right = plan.splices.iter().any(|splice| is(splice.second));
        let left = plan.splices.iter().any(|splice| is(splice.first));
        let place = plan.closures.partition_point(|c| c.number < fibre.closure);
        let row = &mut rows[place][usize::from(right)];
        *row += 1;
        let side = if right { BOX - INSET } else { INSET };
        Port {
            number: fibre.number,
            right,
            spliced: left || right,
            x: box_left(place) + side,
            y: MARGIN + TITLE + HEAD + *row * ROW - ROW / 2,
        }
    };
    plan.fibres.iter().enumerate().map(port).collect()
}

fn box_left(place: usize) -> usize {
    MARGIN + place * (BOX + GAP)
}

fn closure_box(place: usize, closure: &Closure, bottom: usize) -> String {
    let (x, y) = (box_left(place), MARGIN + TITLE);
    let height = bottom - y;
    let words = format!("Closure {}", closure.number);
    let rect = format!(
        "<rect x=\"{x}\" y=\"{y}\" width=\"{BOX}\" height=\"{height}\" rx=\"10\" fill=\"{GROUND}\" stroke=\"#c9d4df\"/>\n"
    );
    rect + &text(
        x + BOX / 2,
        y + 25,
        "text-anchor=\"middle\" fill=\"#1c2733\"",
        &words,
    )
}

/// The colour of a fibre, and that of the line around its dot.
fn colours(number: u16) -> (&'static str, &'static str) {
    match COLOURS[usize::from(number + 11) % 12] {
        "#ffffff" => ("#ffffff", "#9aa7b4"),
        colour => (colour, colour),
    }
}

/// A splice, in the colour of its first fibre, on a broader line that parts it from those that it crosses.
fn curve(one: &Port, other: &Port) -> String {
    let bend = 60;
    let path = format!(
        "M{} {}C{} {} {} {} {} {}",
        one.x,
        one.y,
        one.x + bend,
        one.y,
        other.x - bend,
        other.y,
        other.x,
        other.y
    );
    let (colour, line) = colours(one.number);
    [(GROUND, 8), (line, 5), (colour, 3)]
        .map(|(colour, width)| {
            format!(
                "<path d=\"{path}\" fill=\"none\" stroke=\"{colour}\" stroke-width=\"{width}\"/>\n"
            )
        })
        .concat()
}

/// The dot of a fibre, hollow where it is not spliced, and its number.
fn dot(port: &Port) -> String {
    let Port { x, y, number, .. } = port;
    let (colour, line) = colours(*number);
    let inside = if port.spliced { colour } else { GROUND };
    let (anchor, at) = if port.right {
        ("start", x + 14)
    } else {
        ("end", x - 14)
    };
    let ink = if port.spliced { "#3b4754" } else { "#8a97a4" };
    let place = format!("text-anchor=\"{anchor}\" fill=\"{ink}\"");
    format!(
        "<circle cx=\"{x}\" cy=\"{y}\" r=\"5.5\" fill=\"{inside}\" stroke=\"{line}\" stroke-width=\"2\"/>\n"
    ) + &text(at, y + 5, &place, &number.to_string())
}
