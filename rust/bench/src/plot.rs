//! The tables as a drawing: bars for the ratios to memcpy, and two charts of how time grows.

use crate::growth::{Share, Size, WORK};
use crate::measure::Row;

const WIDTH: f64 = 960.0;
const MARGIN: f64 = 30.0;

/// Bars begin behind their names; each takes this height.
const BARS_LEFT: f64 = 330.0;
const BAR: f64 = 24.0;

/// The plane of a chart, beside its numbers.
const CHART: [f64; 2] = [370.0, 240.0];

const COLOURS: [&str; 4] = ["#9aa7b4", "#1d6fa5", "#1d9a80", "#d6741f"];
const GREY: &str = "#7a8794";

/// The whole drawing.
pub fn draw(rows: &[Row], sizes: &[Size], shares: &[Share]) -> String {
    let charts = 2.0 * MARGIN + 30.0 + BAR * rows.len() as f64 + 50.0;
    let height = charts + CHART[1] + 50.0 + MARGIN;
    [
        format!(
            "<svg xmlns=\"http://www.w3.org/2000/svg\" viewBox=\"0 0 {WIDTH} {height}\" width=\"{WIDTH}\" height=\"{height}\" \
             font-family=\"Helvetica, Arial, sans-serif\" font-size=\"13\" fill=\"#3b4754\">\n\
             <rect width=\"{WIDTH}\" height=\"{height}\" rx=\"8\" fill=\"#ffffff\"/>\n"
        ),
        bars(rows),
        size_chart(sizes, [MARGIN + 45.0, charts]),
        share_chart(shares, [MARGIN + 45.0 + CHART[0] + 95.0, charts]),
        "</svg>\n".into(),
    ]
    .concat()
}

fn bars(rows: &[Row]) -> String {
    let most = rows.iter().map(|row| row.sse2.ratio).fold(1.0, f64::max);
    let scale = (WIDTH - BARS_LEFT - MARGIN - 130.0) / most;
    let mut drawn = title(
        [MARGIN, MARGIN + 10.0],
        "Time over memcpy of the cube: 69 × 69 × 25, W 397",
    );
    for (number, Row { what, sse2, avx2 }) in rows.iter().enumerate() {
        let y = MARGIN + 30.0 + BAR * number as f64;
        let isal = what.contains("ISA-L");
        drawn += &text([BARS_LEFT - 10.0, y + 14.0], "end", what);
        let ratio = sse2.ratio;
        drawn += &bar(y, ratio * scale, BAR - 6.0, COLOURS[usize::from(!isal)]);
        let mut figures = format!("{ratio:.1}");
        if let Some(avx2) = avx2.as_ref().filter(|_| !isal) {
            drawn += &bar(y + BAR - 12.0, avx2.ratio * scale, 6.0, COLOURS[2]);
            figures += &format!(", {:.1} with AVX2", avx2.ratio);
        }
        let behind = [BARS_LEFT + ratio * scale + 8.0, y + 14.0];
        drawn += &text(behind, "start", &figures);
    }
    drawn
}

fn bar(y: f64, width: f64, height: f64, colour: &str) -> String {
    format!(
        "<rect x=\"{BARS_LEFT}\" y=\"{y:.1}\" width=\"{width:.1}\" height=\"{height:.1}\" rx=\"2\" fill=\"{colour}\"/>\n"
    )
}

/// Milliseconds against megabytes, both in powers of ten.
fn size_chart(sizes: &[Size], corner: [f64; 2]) -> String {
    let place = |megabytes: f64, ms: f64| {
        let x = (megabytes.log10() + 0.5) / 3.0;
        let y = (ms.log10() + 2.0) / 5.0;
        at(corner, x, y)
    };
    let mut drawn = title(
        [corner[0] - 45.0, corner[1] - 14.0],
        "Milliseconds by megabytes of the cube",
    );
    for power in -2..=3 {
        let ms = 10f64.powi(power);
        drawn += &rule(corner, (f64::from(power) + 2.0) / 5.0, &format!("{ms}"));
    }
    for megabytes in [1.0, 10.0, 100.0] {
        let [x, y] = place(megabytes, 0.01);
        drawn += &text([x, y + 18.0], "middle", &format!("{megabytes}"));
    }
    for (work, name) in WORK.iter().enumerate() {
        let points = sizes
            .iter()
            .map(|size| place(size.megabytes, size.milliseconds[work]));
        drawn += &curve(&points.collect::<Vec<_>>(), COLOURS[work]);
        let y = corner[1] + 16.0 + 18.0 * work as f64;
        drawn += &format!(
            "<path stroke=\"{}\" stroke-width=\"3\" d=\"M{} {}h16\"/>\n",
            COLOURS[work],
            corner[0] + 14.0,
            y - 4.0
        );
        drawn += &text([corner[0] + 38.0, y], "start", name);
    }
    drawn
}

/// The time of a filling over memcpy against the share lost; an open point where cells are left.
fn share_chart(shares: &[Share], corner: [f64; 2]) -> String {
    let most = shares.iter().map(|share| share.ratio).fold(1.0, f64::max);
    let top = (most / 5.0).ceil() * 5.0;
    let widest = shares.iter().map(|share| share.percent).max().unwrap_or(1) as f64;
    let place = |share: &Share| at(corner, share.percent as f64 / widest, share.ratio / top);
    let mut drawn = title(
        [corner[0] - 45.0, corner[1] - 14.0],
        "Fill over memcpy, by the share of the cells lost at random",
    );
    for part in 0..=5 {
        let share = f64::from(part) / 5.0;
        drawn += &rule(corner, share, &format!("{:.0}", share * top));
    }
    drawn += &curve(&shares.iter().map(place).collect::<Vec<_>>(), COLOURS[2]);
    for share in shares {
        let [x, y] = place(share);
        let inside = if share.left == 0 {
            COLOURS[2]
        } else {
            "#ffffff"
        };
        drawn += &format!(
            "<circle cx=\"{x:.1}\" cy=\"{y:.1}\" r=\"4\" fill=\"{inside}\" stroke=\"{}\" stroke-width=\"2\"/>\n",
            COLOURS[2]
        );
        drawn += &text(
            [x, corner[1] + CHART[1] + 18.0],
            "middle",
            &format!("{} %", share.percent),
        );
    }
    drawn
        + &text(
            [corner[0] + 14.0, corner[1] + CHART[1] - 12.0],
            "start",
            "open points: cells are left",
        )
}

/// The place of shares of a chart's width and height.
fn at(corner: [f64; 2], x: f64, y: f64) -> [f64; 2] {
    [corner[0] + x * CHART[0], corner[1] + (1.0 - y) * CHART[1]]
}

/// A line across a chart at a share of its height, with its number.
fn rule(corner: [f64; 2], share: f64, number: &str) -> String {
    let [x, y] = at(corner, 0.0, share);
    let line = format!(
        "<path stroke=\"#e3e8ee\" d=\"M{x:.1} {y:.1}h{}\"/>\n",
        CHART[0]
    );
    line + &text([x - 8.0, y + 4.0], "end", number)
}

fn curve(points: &[[f64; 2]], colour: &str) -> String {
    let points: Vec<String> = points
        .iter()
        .map(|[x, y]| format!("{x:.1},{y:.1}"))
        .collect();
    format!(
        "<polyline fill=\"none\" stroke=\"{colour}\" stroke-width=\"2.5\" points=\"{}\"/>\n",
        points.join(" ")
    )
}

fn title([x, y]: [f64; 2], words: &str) -> String {
    format!("<text x=\"{x}\" y=\"{y}\" font-weight=\"bold\" fill=\"#1c2733\">{words}</text>\n")
}

fn text([x, y]: [f64; 2], anchor: &str, words: &str) -> String {
    format!(
        "<text x=\"{x:.1}\" y=\"{y:.1}\" text-anchor=\"{anchor}\" font-size=\"12\" fill=\"{GREY}\">{words}</text>\n"
    )
}
