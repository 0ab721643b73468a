//! What is recorded: packs, texts and plans of every kind, cubes, sizes, and all of the field.

use jibrufath::Shape;
use reference::field;
use reference::pack::read_air;
use reference::random::Random;
use reference::text::{Text, print};

use crate::cube_trial::{CubeTrial, HIGH_BITS, numbers, shape_of};
use crate::packs::job_of;
use crate::shapes::EDGE_WIDTHS;
use crate::{
    Calls, FromText, Kind, PLAN_KINDS, PlanFile, PlanLists, PlanPack, SHAPES_AT_THE_LIMITS,
    ScanTrial, Source, TEXT_KINDS, ToText, Trial, narrow_shapes, random_shape, random_used, twin,
};

/// The file of the calls for so many random packs, texts and plans, each kind in its turn, and for half as many cubes, but for those
/// that are too long; with them calls for sizes, for cells of many widths, for a few larger cubes, and for every byte and every two
/// bytes of the field.
pub fn recorded(seed: u64, count: u64) -> Vec<u8> {
    let mut random = Random::new(seed);
    let mut calls = Calls::default();
    record_field(&mut calls);
    record_sizes(&mut random, &mut calls);
    record_widths(&mut random, &mut calls);
    record_long_runs(&mut random, &mut calls);
    for (_, kind) in (0..count).zip(Kind::all().into_iter().cycle()) {
        calls.add(match kind {
            Kind::Pack(kind) => pack_calls(&mut random, kind),
            Kind::Text(kind) => text_calls(&mut random, kind),
            Kind::Plan(kind) => plan_calls(&mut random, kind),
        });
    }
    for _ in 0..count / 2 {
        calls.add(cube_calls(&mut random));
    }
    calls.into_file()
}

fn pack_calls(random: &mut Random, kind: usize) -> Calls {
    let mut calls = Calls::default();
    let trial = Trial::random(random, kind);
    trial.record(random, &mut calls);
    let pack = PlanPack::random(random, trial);
    pack.record(random, &mut calls);
    ToText::random(random, pack.trial.pack).record(random, &mut calls);
    calls
}

fn text_calls(random: &mut Random, kind: usize) -> Calls {
    let mut calls = Calls::default();
    let (_, make) = TEXT_KINDS[kind];
    let text = make(random);
    FromText::random(random, text).record(random, &mut calls);
    calls
}

fn plan_calls(random: &mut Random, kind: usize) -> Calls {
    let mut calls = Calls::default();
    let (_, make) = PLAN_KINDS[kind];
    let file = make(random);
    PlanLists::random(random, &file).record(random, &mut calls);
    PlanPack::of_file(random, &file).record(random, &mut calls);
    PlanFile::random(random, file).record(random, &mut calls);
    calls
}

fn cube_calls(random: &mut Random) -> Calls {
    let mut calls = Calls::default();
    let shape = random_shape(random);
    CubeTrial::random(random, shape).record(random, &mut calls);
    let mut scan = ScanTrial::random(random);
    if random.chance(5) {
        let high = random.pick(&HIGH_BITS);
        match random.chance(50) {
            true => scan.axis += high,
            false => scan.line += high,
        }
    }
    scan.record(&mut calls);
    calls
}

/// Small cubes, and packs of them, with cells of every width up to 65 bytes and of the widths around the steps of a fast program; and
/// longer cubes of the narrowest cells.
fn record_widths(random: &mut Random, calls: &mut Calls) {
    for shape in narrow_shapes().take_while(|shape| shape.w <= 20) {
        CubeTrial::random(random, shape).record(random, calls);
    }
    for w in (1..=65).chain(EDGE_WIDTHS) {
        let [l1, l2, l3] = [3; 3].map(|least| random.among(least..=4));
        let shape = Shape::new(l1, l2, l3, w);
        for _ in 0..3 {
            CubeTrial::random(random, shape).record(random, calls);
        }
        if twin(shape).check_room().is_ok() {
            record_packs_of(random, twin(shape), calls);
        }
    }
}

/// Cubes with so many lines side by side, of so many places, that a fast program takes them in pieces of some thousand bytes: along
/// axis 3, along axes 1 and 3, and along axis 2.
const LONG_RUNS: [Shape; 3] = [
    Shape::new(20, 20, 20, 16),
    Shape::new(69, 69, 25, 3),
    Shape::new(17, 17, 17, 260),
];

fn record_long_runs(random: &mut Random, calls: &mut Calls) {
    for shape in LONG_RUNS {
        CubeTrial::random(random, shape).record(random, calls);
    }
    record_packs_of(random, twin(LONG_RUNS[0]), calls);
}

/// A file to write, and some of the packets of another one, in a shape that has room for them: with all data cells in use, and with
/// some.
fn record_packs_of(random: &mut Random, shape: reference::Shape, calls: &mut Calls) {
    for header in [shape.into(), random_used(random, shape)] {
        let job = job_of(random, header);
        Trial::new(job).record(random, calls);
        let air = Source::with_file(random, header).some_of_it(random);
        let text = print(&Text::of_air(&read_air(&air).expect("a whole pack")));
        FromText::new(text.into()).record(random, calls);
        ToText::new(air.clone()).record(random, calls);
        Trial::new(air).record(random, calls);
    }
}

/// Every byte, and every two.
fn record_field(calls: &mut Calls) {
    for a in 0..=255 {
        calls.call_of_the_field("inverse", &[a], field::inverse(a).unwrap_or(0));
        calls.call_of_the_field("pow", &[a], field::pow(a.into()));
        for b in 0..=255 {
            calls.call_of_the_field("mul", &[a, b], field::mul(a, b));
        }
    }
}

/// A call for a size of a shape, and the size.
type Size = (&'static str, fn(reference::Shape) -> usize);

const SIZES: [Size; 4] = [
    ("cells", reference::Shape::cells),
    ("cube_bytes", reference::Shape::cube_bytes),
    ("capacity", reference::Shape::capacity),
    ("pack_bytes", reference::Shape::pack_bytes),
];

/// Numbers at the limits of the checks, some of them good in their low bytes alone.
const EDGE_NUMBERS: [usize; 14] = [
    0,
    1,
    2,
    3,
    255,
    256,
    259,
    1024,
    1025,
    (1 << 32) + 3,
    (1 << 56) + 5,
    1 << 63,
    usize::MAX - 252,
    usize::MAX,
];

/// The four sizes of shapes at the limits, of good ones, and of shapes with any numbers.
fn record_sizes(random: &mut Random, calls: &mut Calls) {
    let mut shapes = SHAPES_AT_THE_LIMITS.map(|(shape, _)| shape).to_vec();
    for _ in 0..100 {
        let good = random_shape(random);
        let mut any = numbers(good);
        any[random.among(0..=3)] = random.pick(&EDGE_NUMBERS);
        any[random.among(0..=3)] = random.number() as usize >> random.among(0..=63);
        shapes.extend([good, shape_of(any)]);
    }
    for shape in shapes {
        record_sizes_of(shape, calls);
    }
}

fn record_sizes_of(shape: Shape, calls: &mut Calls) {
    let twin = twin(shape);
    for (name, size) in SIZES {
        calls.call(name, [], &numbers(shape), |[]| {
            twin.check(None).map(|()| size(twin))
        });
    }
}
