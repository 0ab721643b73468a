//! Every call on large cubes of all widths.

use std::time::Duration;

use compare::patterns::{at_random, in_succession};
use jibrufath::{Error, Shape};
use reference::random::Random;

use crate::REFERENCE_SET;
use crate::bars::Bar;
use crate::calls::{CHECK, Call, Calls, ENCODE, FILL, MEND, RECEIVE, WRITE};
use crate::measure::{milliseconds, over};
use crate::repair::Repair;

/// The reference set, and cubes from 16 to 48 megabytes.
const SHAPES: [Shape; 7] = [
    REFERENCE_SET,
    W_1,
    Shape::new(150, 150, 130, 8),
    Shape::new(150, 150, 130, 16),
    W_63,
    W_64,
    Shape::new(43, 43, 25, 1024),
];

/// The most cells, of the fewest bytes.
const W_1: Shape = Shape::new(255, 255, 255, 1);

/// The same lengths, so that a byte of the one compares with a byte of the other. Cells of a column lie 128 × W bytes apart, for both a
/// multiple of 64: a processor fetches ahead along strides of whole cache lines, and along others it may not, which would tell W 64 from
/// every other width and not 63 from 64.
const W_63: Shape = Shape::new(128, 64, 90, 63);
const W_64: Shape = Shape::new(128, 64, 90, 64);

const CALLS: [Call; 6] = [ENCODE, CHECK, FILL, MEND, RECEIVE, WRITE];

/// Each turn takes every shape, so that a machine that is slow for some seconds is not slow for one of them.
const TURNS: usize = 5;

/// The rounds of a turn. Fewer than for the reference set: one takes up to a second.
const ROUNDS: usize = 4;

/// What is said behind a call that is timed with AVX2.
const WITH_AVX2: &str = ", AVX2";

/// The least times of one shape in one turn.
struct Column {
    shape: Shape,
    memcpy: Duration,
    rows: Vec<(String, Duration)>,
}

/// The columns of one turn. Ratios are taken within a turn, and of all turns the one in the middle counts.
type Turn = Vec<Column>;

/// Prints the table, and gives the bars that it is held to.
pub fn table() -> Result<Vec<Bar>, Error> {
    println!(
        "\
Every call on large cubes, in {TURNS} turns of {ROUNDS} rounds, each turn with all shapes: milliseconds, the least of all; and over memcpy of the
cube, where least times are divided turn by turn, and the median is printed.
Everything that is lost comes back; at random, four cells of a longest line on average: 1.6 to 9.3 % of the cells.
"
    );
    let turns: Vec<Turn> = (0..TURNS).map(|_| one_turn()).collect::<Result<_, _>>()?;
    print_columns(&turns);
    Ok(bars(&turns))
}

fn one_turn() -> Result<Turn, Error> {
    SHAPES.into_iter().map(Column::measure).collect()
}

/// The least that the turns give.
fn least(turns: &[Turn], time: impl Fn(&Turn) -> Duration) -> f64 {
    let least = turns.iter().map(time).min();
    milliseconds(least.expect("there is a turn"))
}

/// The median of what the turns give.
fn median(turns: &[Turn], ratio: impl Fn(&Turn) -> f64) -> f64 {
    let mut ratios: Vec<f64> = turns.iter().map(ratio).collect();
    ratios.sort_by(f64::total_cmp);
    ratios[ratios.len() / 2]
}

/// The column of a shape.
fn column(turn: &Turn, of: Shape) -> &Column {
    let column = turn.iter().find(|column| column.shape == of);
    column.expect("a shape of the table")
}

impl Column {
    fn measure(shape: Shape) -> Result<Column, Error> {
        let calls = Calls::new(shape)?.times(ROUNDS, &CALLS);
        let names = CALLS.iter().map(|call| call.name);
        let mut timed: Vec<_> = names.zip(calls.work).collect();
        let longest = shape.l1.max(shape.l2).max(shape.l3);
        for (what, flags) in [
            ("fill, 2 × L1 × L2 in succession lost", in_succession(shape)),
            (
                "fill, lost at random",
                at_random(&mut Random::new(13), shape, 4, longest),
            ),
        ] {
            let mut repair = Repair::new(shape, flags)?;
            timed.extend([what].into_iter().zip(repair.fill_times(ROUNDS).work));
            assert_eq!(repair.left(), 0, "{shape:?}, {what}");
        }
        let sse2 = timed
            .iter()
            .map(|(what, time)| (what.to_string(), time.sse2));
        let avx2 = timed
            .iter()
            .filter_map(|(what, time)| Some((format!("{what}{WITH_AVX2}"), time.avx2?)));
        Ok(Column {
            shape,
            memcpy: calls.memcpy,
            rows: sse2.chain(avx2).collect(),
        })
    }

    fn time(&self, what: &str) -> Duration {
        let row = self.rows.iter().find(|(name, _)| name == what);
        row.expect("a row of the table").1
    }

    fn over_memcpy(&self, what: &str) -> f64 {
        over(self.time(what), self.memcpy)
    }
}

fn print_columns(turns: &[Turn]) {
    let print_line = |name: &str, entry: &dyn Fn(Shape) -> String| {
        let entries: Vec<String> = SHAPES.into_iter().map(entry).collect();
        println!("| {name} | {} |", entries.join(" | "));
    };
    print_line("call", &|Shape { l1, l2, l3, w }| {
        format!("{l1} × {l2} × {l3}, W {w}")
    });
    print_line("---", &|_| "---".into());
    print_line("memcpy", &|of| {
        format!("{:.2} ms", least(turns, |turn| column(turn, of).memcpy))
    });
    for (what, _) in &turns[0][0].rows {
        print_line(what, &|of| {
            let time = least(turns, |turn| column(turn, of).time(what));
            let ratio = median(turns, |turn| column(turn, of).over_memcpy(what));
            format!("{time:.2} ms, {ratio:.2}")
        });
    }
}

/// The narrowest cells against memcpy, and a byte of a cell of 63 against one of 64.
fn bars(turns: &[Turn]) -> Vec<Bar> {
    let mut bars = Vec::new();
    for (call, most) in [(CHECK, 12.0), (RECEIVE, 45.0)] {
        bars.push(Bar {
            what: format!("255 cubed, W 1: {}, over memcpy", call.name),
            measured: median(turns, |turn| column(turn, W_1).over_memcpy(call.name)),
            most,
        });
    }
    let bytes = W_64.w as f64 / W_63.w as f64;
    let sse2 = |what: &&String| !what.ends_with(WITH_AVX2);
    for what in turns[0][0].rows.iter().map(|(what, _)| what).filter(sse2) {
        bars.push(Bar {
            what: format!("a byte of W 63 over one of W 64: {what}"),
            measured: median(turns, |turn| {
                let [narrow, wide] = [W_63, W_64].map(|of| column(turn, of).time(what));
                over(narrow, wide) * bytes
            }),
            most: 1.1,
        });
    }
    bars
}
