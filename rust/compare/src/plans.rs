//! Random plans of every kind, whole and damaged, as files.

use std::ops::Range;

use reference::Shape;
use reference::pack::COUNT;
use reference::plan::{ENTRY, Plan, print};
use reference::random::Random;
use reference::write::data_string;

use crate::{KINDS, Source};

/// Makes a random file.
type Make = fn(&mut Random) -> Vec<u8>;

/// The kinds of files that are plans or nearly, each with the function that makes one.
pub const PLAN_KINDS: [(&str, Make); 10] = [
    ("a plan", plan),
    ("a plan with a number changed", number_changed),
    ("a plan with a fibre spliced twice", spliced_twice),
    ("a plan with a splice across closures", spliced_across),
    ("a plan with entries moved", entries_moved),
    ("a plan with another count", other_count),
    ("a plan cut", cut),
    ("a plan with bytes left over", left_over),
    ("a plan with bytes changed", bytes_changed),
    ("no plan", no_plan),
];

/// The most fibres of a closure.
const MOST_FIBRES: usize = 288;

/// A plan that keeps every rule: mostly a few closures with a few fibres each, now and then one with all its fibres.
pub fn random_plan(random: &mut Random) -> Plan {
    let mut plan = Plan {
        closures: random_closures(random),
        ..Plan::default()
    };
    let percent = random.pick(&[0, 50, 100]);
    for &closure in &plan.closures {
        let numbers = random_numbers(random);
        let start = plan.fibres.len();
        let fibres = numbers.iter().map(|&number| (closure, number));
        plan.fibres.extend(fibres);
        let order = random.different(numbers.len(), numbers.len());
        let pairs = order.chunks_exact(2).filter(|_| random.chance(percent));
        let index = |place: &usize| (start + place) as u32;
        plan.splices.extend(pairs.map(|pair| {
            let [one, other] = [&pair[0], &pair[1]].map(index);
            (one.min(other), one.max(other))
        }));
    }
    plan.splices.sort();
    plan
}

/// Ascending numbers of a few closures: neighbours, any, or with those at the ends of 16 bits.
fn random_closures(random: &mut Random) -> Vec<u16> {
    let count = random.among(0..=5);
    let first = random.pick(&[0, 1, 250, 255, 65_530]);
    let mut closures: Vec<u16> = match random.among(0..=2) {
        0 => (first..).take(count).collect(),
        1 => (0..count).map(|_| random.number() as u16).collect(),
        _ => [0, 1, 255, 256, 65_534, 65_535][..count].to_vec(),
    };
    closures.sort();
    closures.dedup();
    closures
}

/// Ascending numbers of some fibres of a closure: the first, the last, any, or all.
fn random_numbers(random: &mut Random) -> Vec<u16> {
    let count = random.among(0..=10);
    let places = match random.among(0..=19) {
        0..8 => (0..count).collect(),
        8..12 => (MOST_FIBRES - count..MOST_FIBRES).collect(),
        12..19 => random.different(count, MOST_FIBRES),
        _ => (0..MOST_FIBRES).collect(),
    };
    let mut numbers: Vec<u16> = places.iter().map(|&place| 1 + place as u16).collect();
    numbers.sort();
    numbers
}

/// A plan that has at least so many splices.
fn spliced_plan(random: &mut Random, least: usize) -> Plan {
    loop {
        let plan = random_plan(random);
        if plan.splices.len() >= least {
            return plan;
        }
    }
}

fn plan(random: &mut Random) -> Vec<u8> {
    print(&random_plan(random))
}

/// A number near another, or one at a limit.
fn near(random: &mut Random, number: u32) -> u32 {
    match random.among(0..=5) {
        0 => number.wrapping_add(1),
        1 => number.wrapping_sub(1),
        2 => random.among(0..=12) as u32,
        3 => random.pick(&[0, 1, 287, 288, 289, 544, 65_535]),
        4 => random.pick(&[1 << 16, 1 << 31, u32::MAX]),
        _ => number ^ 1 << random.among(0..=31),
    }
}

/// Where the numbers of a plan's entries stand in its file, and how long each is.
pub fn numbers(plan: &Plan) -> Vec<Range<usize>> {
    let places = |section: usize| {
        let size = [2, 2, 4][section];
        let [start, end] = [0, plan.counts()[section]].map(|entry| plan.offset(section, entry));
        let starts = (start..end).step_by(size);
        starts.map(move |at| at..at + size)
    };
    (0..3).flat_map(places).collect()
}

/// Writes a number over these bytes, without its high bytes that have no room.
pub fn put(file: &mut [u8], place: Range<usize>, number: u32) {
    let bytes = &number.to_le_bytes()[..place.len()];
    file[place].copy_from_slice(bytes);
}

/// The number in these bytes.
pub fn get(file: &[u8], place: Range<usize>) -> u32 {
    let bytes = file[place].iter().rev();
    bytes.fold(0, |high, &byte| high << 8 | u32::from(byte))
}

fn number_changed(random: &mut Random) -> Vec<u8> {
    let plan = spliced_plan(random, 1);
    let (mut file, places) = (print(&plan), numbers(&plan));
    for _ in 0..random.among(1..=2) {
        let place = places[random.among(0..=places.len() - 1)].clone();
        let number = near(random, get(&file, place.clone()));
        put(&mut file, place, number);
    }
    file
}

/// One end of a splice becomes one of another; half of the time all else is right.
fn spliced_twice(random: &mut Random) -> Vec<u8> {
    let mut plan = spliced_plan(random, 2);
    let pair = random.different(2, plan.splices.len());
    let [(a, b), (c, d)] = [pair[0], pair[1]].map(|splice| plan.splices[splice]);
    plan.splices[pair[1]] = random.pick(&[(a, d), (b, d), (c, a), (c, b)]);
    if random.chance(50) {
        put_in_order(&mut plan);
    }
    print(&plan)
}

/// One end of a splice becomes any fibre, mostly of another closure, or the one behind the last.
fn spliced_across(random: &mut Random) -> Vec<u8> {
    let mut plan = spliced_plan(random, 1);
    let splice = random.among(0..=plan.splices.len() - 1);
    plan.splices[splice].1 = random.among(0..=plan.fibres.len()) as u32;
    put_in_order(&mut plan);
    print(&plan)
}

/// Splices by their first indexes, which are the lower ones.
fn put_in_order(plan: &mut Plan) {
    for (first, second) in &mut plan.splices {
        (*first, *second) = (*first.min(second), *first.max(second));
    }
    plan.splices.sort();
}

/// An entry is taken out, repeated or changed with another of its section.
fn entries_moved(random: &mut Random) -> Vec<u8> {
    let plan = spliced_plan(random, 1);
    let mut lists = plan.lists();
    let section = random.among(0..=2);
    let list = lists[section].chunks(ENTRY[section]);
    let mut entries: Vec<Vec<u8>> = list.map(<[u8]>::to_vec).collect();
    let last = entries.len() - 1;
    let [one, other] = [0; 2].map(|_| random.among(0..=last));
    match random.among(0..=3) {
        0 => drop(entries.remove(one)),
        1 => entries.insert(other, entries[one].clone()),
        2 => entries.swap(one, last.min(one + 1)),
        _ => entries.swap(one, other),
    }
    lists[section] = entries.concat();
    print(&Plan::of_lists(lists.each_ref().map(Vec::as_slice)))
}

/// Other counts for one that the entries have.
pub fn other_counts(count: usize) -> [u32; 9] {
    let count = count as u32;
    [
        0,
        count.wrapping_sub(1),
        count + 1,
        count + 256,
        1 << 16,
        1 << 29,
        1 << 30,
        1 << 31,
        u32::MAX,
    ]
}

/// Where the count of a section stands.
pub fn count_place(plan: &Plan, section: usize) -> Range<usize> {
    let entries = plan.offset(section, 0);
    entries - COUNT..entries
}

fn other_count(random: &mut Random) -> Vec<u8> {
    let plan = random_plan(random);
    let section = random.among(0..=2);
    let count = random.pick(&other_counts(plan.counts()[section]));
    let mut file = print(&plan);
    put(&mut file, count_place(&plan, section), count);
    file
}

fn cut(random: &mut Random) -> Vec<u8> {
    let mut file = plan(random);
    file.truncate(random.among(0..=file.len() - 1));
    file
}

fn left_over(random: &mut Random) -> Vec<u8> {
    let mut file = plan(random);
    let count = random.among(1..=12);
    file.extend(random.bytes(count));
    file
}

fn bytes_changed(random: &mut Random) -> Vec<u8> {
    let mut file = plan(random);
    let last = file.len() - 1;
    for _ in 0..random.among(1..=3) {
        file[random.among(0..=last)] ^= random.nonzero_byte();
    }
    file
}

/// Nothing, zeros, random bytes, low ones, or the beginning of a pack.
fn no_plan(random: &mut Random) -> Vec<u8> {
    let len = random.among(0..=60);
    match random.among(0..=4) {
        0 => vec![],
        1 => vec![0; len],
        2 => random.bytes(len),
        3 => (0..len).map(|_| random.pick(&[0, 0, 0, 1, 2])).collect(),
        _ => {
            let mut pack = KINDS[random.among(0..=KINDS.len() - 1)].1(random);
            pack.truncate(len);
            pack
        }
    }
}

/// Some of the packets of a cube that has room for the file, with the file in it; now and then copies of cells differ, or data cells
/// behind the file are unsent.
pub(crate) fn pack_of(random: &mut Random, file: &[u8]) -> Vec<u8> {
    let shape = loop {
        let [l1, l2, l3] = [0; 3].map(|_| random.among(3..=6));
        let data_cells = (l1 - 2) * (l2 - 2) * (l3 - 2);
        let w = (COUNT + file.len()).div_ceil(data_cells) + random.among(0..=2);
        if w <= 1024 {
            break Shape::new(l1, l2, l3, w);
        }
    };
    let least = (COUNT + file.len()).div_ceil(shape.w);
    let most = shape.number_of_data_cells();
    let header = match random.chance(25) {
        true => shape.used(random.among(least..=most)),
        false => shape.into(),
    };
    let source = Source::new(header, &data_string(shape, file));
    match random.chance(25) {
        true => source.some_differ(random),
        false => source.some_of_it(random),
    }
}

#[cfg(test)]
mod tests {
    use super::*;
    use reference::plan::parse;

    #[test]
    fn plans_of_every_kind() {
        let mut random = Random::new(8101);
        for (kind, make) in PLAN_KINDS {
            let whole = (0..500).filter(|_| parse(&make(&mut random)).is_ok());
            let whole = whole.count();
            match kind {
                "a plan" => assert_eq!(whole, 500),
                "a plan with a fibre spliced twice" | "a plan cut" => {
                    assert_eq!(whole, 0, "{kind}")
                }
                _ => assert!(whole < 250, "{kind}: {whole}"),
            }
        }
    }

    #[test]
    fn numbers_of_a_plan() {
        let plan = Plan {
            closures: vec![7],
            fibres: vec![(7, 2), (7, 288)],
            splices: vec![(0, 1)],
        };
        let mut file = print(&plan);
        let places = numbers(&plan);
        let read: Vec<u32> = places.iter().map(|at| get(&file, at.clone())).collect();
        assert_eq!(read, [7, 7, 2, 7, 288, 0, 1]);
        for place in places {
            put(&mut file, place, 0x0102_0304);
        }
        assert_eq!(file[4..6], [4, 3]);
        assert_eq!(file[10..14], [4, 3, 4, 3]);
        assert_eq!(file[22..], [4, 3, 2, 1, 4, 3, 2, 1]);
    }
}
