//! The calls on plans compared with the independent program: answers and every lent byte, over garbage. What is accepted goes both
//! ways: each plan that is read is written back, and each that is written is read back.

use std::collections::BTreeMap;

use compare::plans::{count_place, get, numbers, other_counts, put, random_plan};
use compare::{KINDS, Lens, PLAN_KINDS, PlanFile, PlanLists, PlanPack, Source, Trial, twin};
use jibrufath::plan::{self, Closure, Fibre, Splice};
use jibrufath::{AirPack, Error, Reception, Shape, packets, write};
use reference::Outcome;
use reference::fill::largest_stopping_set;
use reference::plan::{ENTRY, Plan, print};
use reference::random::Random;
use reference::write::data_string;

/// A number, with the offset that it names; none where the call does its work.
type Refused = Option<(u8, Option<u64>)>;

fn refused<T>(answer: Result<T, reference::Refusal>) -> Refused {
    answer.err().map(|refusal| (refusal.number, refusal.place))
}

/// A refusal of what stands at an offset.
fn at(offset: usize) -> Refused {
    Some((18, Some(offset as u64)))
}

/// The refusal of a slice.
const SLICE: Refused = Some((4, None));

/// The file read by both programs, which must agree.
fn read(trial: &PlanFile) -> Refused {
    let answer = trial.compare(&mut Random::new(8600));
    let told = |difference| panic!("{:?}: {difference}", trial.file);
    refused(answer.unwrap_or_else(told))
}

/// The file, lent lists of the exact lengths.
fn read_exact(file: impl Into<Vec<u8>>) -> Refused {
    read(&PlanFile::new(file.into()))
}

/// The lists written by both programs, which must agree.
fn written(trial: &PlanLists) -> Refused {
    let answer = trial.compare(&mut Random::new(8601));
    let told = |difference| panic!("{:?}: {difference}", trial.lists);
    refused(answer.unwrap_or_else(told))
}

/// The plan read and written: entries that break a rule are named alike by both.
fn judged(plan: &Plan) -> Refused {
    let by_reader = read_exact(print(plan));
    let by_writer = written(&PlanLists::new(plan.lists()));
    assert_eq!(by_reader, by_writer, "{plan:?}");
    by_reader
}

/// The pack received by both programs, which must agree.
fn received(pack: &PlanPack) -> Result<(reference::Received, [usize; 3]), reference::Refusal> {
    let answer = pack.compare(&mut Random::new(8602));
    answer.unwrap_or_else(|difference| panic!("{pack:?}: {difference}"))
}

/// Closures 3, 4 and 700, with fibres 1, 2, 7 and 288 in the first, the same and 9 in the second, and 5 and 6 in the third.
fn small() -> Plan {
    let fibres = |closure: u16, numbers: &[u16]| -> Vec<(u16, u16)> {
        numbers.iter().map(|&number| (closure, number)).collect()
    };
    Plan {
        closures: vec![3, 4, 700],
        fibres: [
            fibres(3, &[1, 2, 7, 288]),
            fibres(4, &[1, 2, 7, 9, 288]),
            fibres(700, &[5, 6]),
        ]
        .concat(),
        splices: vec![(0, 3), (1, 2), (4, 7), (5, 6), (9, 10)],
    }
}

/// Small plans that keep every rule.
fn small_plans() -> [Plan; 6] {
    let one = |splices: &[(u32, u32)]| Plan {
        closures: vec![65_535],
        fibres: vec![(65_535, 1), (65_535, 287), (65_535, 288)],
        splices: splices.to_vec(),
    };
    let closures_alone = Plan {
        closures: vec![0, 1, 255, 256, 65_534, 65_535],
        ..Plan::default()
    };
    [
        Plan::default(),
        closures_alone,
        one(&[]),
        one(&[(0, 2)]),
        one(&[(1, 2)]),
        small(),
    ]
}

/// Changes the small plan.
fn with(change: impl FnOnce(&mut Plan)) -> Plan {
    let mut plan = small();
    change(&mut plan);
    plan
}

#[test]
fn plans_by_hand() {
    for plan in small_plans() {
        assert_eq!(judged(&plan), None, "{plan:?}");
    }
    // Closures stand from 4 on, fibres from 14 on, splices from 62 on; the file has 102 bytes.
    assert_eq!(small().offset(2, 5), 102);
    for (what, plan, offset) in [
        ("closures that descend", with(|p| p.closures.swap(0, 1)), 6),
        ("a closure twice", with(|p| p.closures[1] = 3), 6),
        ("a closure not listed", with(|p| p.closures.truncate(2)), 48),
        ("the first not listed", with(|p| p.closures[0] = 2), 14),
        ("one between not listed", with(|p| p.closures[1] = 5), 30),
        (
            "a closure by its low byte",
            with(|p| p.fibres[9].0 = 188),
            50,
        ),
        ("fibre 0", with(|p| p.fibres[4].1 = 0), 30),
        ("fibre 289", with(|p| p.fibres[8].1 = 289), 46),
        ("fibre 288 + 256", with(|p| p.fibres[8].1 = 544), 46),
        ("a fibre twice", with(|p| p.fibres[6].1 = 2), 38),
        ("fibres that descend", with(|p| p.fibres.swap(9, 10)), 54),
        (
            "closures of fibres that descend",
            with(|p| p.fibres[4].0 = 3),
            30,
        ),
        ("an index too high", with(|p| p.splices[4].1 = 11), 94),
        ("both too high", with(|p| p.splices[4] = (11, 12)), 94),
        ("the highest index", with(|p| p.splices[4].1 = u32::MAX), 94),
        ("a fibre with itself", with(|p| p.splices[1].1 = 1), 70),
        ("the first higher", with(|p| p.splices[3] = (6, 5)), 86),
        ("another closure", with(|p| p.splices[4] = (8, 9)), 94),
        (
            "first indexes that descend",
            with(|p| p.splices.swap(2, 3)),
            86,
        ),
        ("a splice twice", with(|p| p.splices[1] = (0, 3)), 70),
        ("a second used before", with(|p| p.splices[1].1 = 3), 70),
        (
            "a first that was a second",
            with(|p| p.splices[4] = (7, 8)),
            94,
        ),
    ] {
        assert_eq!(judged(&plan), at(offset), "{what}");
    }
}

/// The index that is one too high, in a closure whose number stands in the file where that fibre would: the count of splices.
#[test]
fn an_index_just_behind_the_fibres() {
    for count in 1..=140 {
        let closure = count as u16;
        let splices: Vec<(u32, u32)> = (0..count).map(|i| (i, 2 * count - 1 - i)).collect();
        let mut plan = Plan {
            closures: vec![closure],
            fibres: (1..=2 * closure).map(|number| (closure, number)).collect(),
            splices,
        };
        assert_eq!(judged(&plan), None, "{plan:?}");
        let last = count as usize - 1;
        plan.splices[last].1 = 2 * count;
        assert_eq!(judged(&plan), at(plan.offset(2, last)), "{plan:?}");
    }
}

/// Every number of every entry of small plans becomes each near number, each at a limit and each other one of the plan.
#[test]
fn every_number_changed() {
    let limits = [0, 1, 287, 288, 289, 65_535, 65_536, 1 << 31, u32::MAX];
    for plan in small_plans() {
        let file = print(&plan);
        let places = numbers(&plan);
        let others: Vec<u32> = places.iter().map(|at| get(&file, at.clone())).collect();
        for (place, &number) in places.iter().zip(&others) {
            let near = (1..=3).flat_map(|d| [number.wrapping_add(d), number.wrapping_sub(d)]);
            for changed in near.chain(limits).chain(others.iter().copied()) {
                let mut file = file.clone();
                put(&mut file, place.clone(), changed);
                judged(&reference::plan::whole_entries(&file));
                read_exact(file);
            }
        }
    }
}

/// Each entry of small plans taken out, repeated, and changed with each other one of its section.
#[test]
fn entries_moved() {
    for plan in small_plans() {
        for section in 0..3 {
            let count = plan.counts()[section];
            for (one, other) in (0..count).flat_map(|one| (0..count).map(move |other| (one, other)))
            {
                let lists = plan.lists();
                let entries: Vec<&[u8]> = lists[section].chunks(ENTRY[section]).collect();
                let [mut less, mut more, mut swapped] = [(); 3].map(|()| entries.clone());
                less.remove(one);
                more.insert(other, entries[one]);
                swapped.swap(one, other);
                for entries in [less, more, swapped] {
                    let mut lists = lists.clone();
                    lists[section] = entries.concat();
                    judged(&Plan::of_lists(lists.each_ref().map(Vec::as_slice)));
                }
            }
        }
    }
}

/// Where the counts and the entries of a plan begin.
fn beginnings(plan: &Plan) -> Vec<usize> {
    let section = |section: usize| {
        let entries = (0..plan.counts()[section]).map(move |entry| plan.offset(section, entry));
        [count_place(plan, section).start]
            .into_iter()
            .chain(entries)
    };
    (0..3).flat_map(section).collect()
}

#[test]
fn cut_at_every_byte_and_left_over() {
    for plan in small_plans() {
        let file = print(&plan);
        let begins = beginnings(&plan);
        for len in 0..file.len() {
            let cut = begins.iter().copied().rfind(|&at| at <= len);
            assert_eq!(
                read_exact(&file[..len]),
                cut.and_then(at),
                "{len}: {plan:?}"
            );
        }
        for more in [&[0][..], &[0xFF], &[0; 4], &[0; 12], &file] {
            let longer = [&file, more].concat();
            assert_eq!(read_exact(longer), at(file.len()), "{more:?}: {plan:?}");
        }
    }
    assert_eq!(read_exact([]), at(0));
}

#[test]
fn every_count_changed() {
    for plan in small_plans() {
        for section in 0..3 {
            let count = plan.counts()[section];
            let near = (0..=count + 3).map(|count| count as u32);
            for other in near.chain(other_counts(count)) {
                let mut file = print(&plan);
                put(&mut file, count_place(&plan, section), other);
                let answer = read_exact(file);
                assert_eq!(
                    answer.is_none(),
                    other as usize == count,
                    "{other}: {plan:?}"
                );
            }
        }
    }
    // The last section has no bytes behind it: one less leaves an entry over, and more are cut at the end.
    let file = print(&small());
    for (count, offset) in [(4, 94), (6, 102), (1 << 29, 102), (u32::MAX, 102)] {
        let mut file = file.clone();
        put(&mut file, 58..62, count);
        assert_eq!(read_exact(file), at(offset), "{count}");
    }
    // Entries are judged before the cut: with more closures, those that follow are the bytes of the counts and fibres.
    let mut file = file;
    put(&mut file, 0..4, u32::MAX);
    assert_eq!(read_exact(file), at(10));
}

/// A closure with all its fibres, before and behind others.
fn long_plan() -> Plan {
    let closures = vec![8, 9, 10];
    let numbers = |closure: &u16| {
        (1..=288)
            .map(|number| (*closure, number))
            .collect::<Vec<_>>()
    };
    Plan {
        fibres: closures.iter().flat_map(numbers).collect(),
        closures,
        splices: vec![],
    }
}

/// A fibre is used by two splices that stand far apart, as the first or the second of each. Where it is the first of the earlier
/// one, the later one also breaks another rule.
#[test]
fn a_fibre_spliced_twice() {
    for start in [0, 288, 576] {
        let index = |number: u32| start + number - 1;
        let between: Vec<(u32, u32)> = (20..110).map(|n| (index(n), index(n + 100))).collect();
        // The first splice, the last, and whether they share a fibre.
        for (first, last, shared) in [
            ((1, 288), (230, 287), false),
            ((1, 288), (1, 287), true),
            ((1, 288), (230, 1), true),
            ((1, 288), (230, 288), true),
            ((19, 288), (287, 288), true),
            ((1, 250), (250, 251), true),
            ((1, 110), (110, 288), true),
        ] {
            let [first, last] = [first, last].map(|(one, other)| (index(one), index(other)));
            let plan = Plan {
                splices: [&[first], &between[..], &[last]].concat(),
                ..long_plan()
            };
            let expected = if shared { at(plan.offset(2, 91)) } else { None };
            assert_eq!(judged(&plan), expected, "{first:?}, {last:?}");
        }
    }
}

/// Fibres with the same number in neighbouring closures are others.
#[test]
fn the_same_numbers_in_neighbouring_closures() {
    let splices = |closure: u32, pairs: &[(u32, u32)]| -> Vec<(u32, u32)> {
        let index = |number: u32| 288 * closure + number - 1;
        let pairs = pairs.iter().map(|&(a, b)| (index(a), index(b)));
        pairs.collect()
    };
    let sets: [&[(u32, u32)]; 6] = [
        &[(1, 288)],
        &[(1, 2), (3, 288)],
        &[(2, 288), (3, 4)],
        &[(1, 4), (2, 3)],
        &[(4, 5)],
        &[],
    ];
    for case in 0..sets.len().pow(3) {
        let chosen = [case % 6, case / 6 % 6, case / 36].map(|set| sets[set]);
        let splices = (0..3).flat_map(|c| splices(c, chosen[c as usize]));
        let mut plan = Plan {
            splices: splices.collect(),
            ..long_plan()
        };
        assert_eq!(judged(&plan), None, "{plan:?}");
        // One more in the last closure, whose first is above all others of it: refused where a second is used there.
        let twice = chosen[2].iter().any(|&(_, second)| second == 288);
        plan.splices.push((576 + 200, 576 + 287));
        let last = plan.splices.len() - 1;
        let expected = if twice {
            at(plan.offset(2, last))
        } else {
            None
        };
        assert_eq!(judged(&plan), expected, "{plan:?}");
    }
}

#[test]
fn random_plans_both_ways() {
    let mut random = Random::new(8603);
    for _ in 0..10_000 {
        let plan = random_plan(&mut random);
        assert_eq!(judged(&plan), None, "{plan:?}");
        let file = print(&plan);
        let typed = plan::Plan::from_bytes(&file).expect("a plan");
        assert_eq!(typed, named(&plan));
        assert_eq!(typed.to_bytes(), Ok(file));
    }
}

/// The entries of a plan by their names.
fn named(plan: &Plan) -> plan::Plan {
    let closures = plan.closures.iter();
    let fibres = plan.fibres.iter();
    let splices = plan.splices.iter();
    plan::Plan {
        closures: closures.map(|&number| Closure { number }).collect(),
        fibres: fibres
            .map(|&(closure, number)| Fibre { closure, number })
            .collect(),
        splices: splices
            .map(|&(first, second)| Splice { first, second })
            .collect(),
    }
}

#[test]
fn random_files_and_lists() {
    let mut random = Random::new(8604);
    let [mut reader, mut writer] = [BTreeMap::new(), BTreeMap::new()];
    for case in 0..20_000 {
        let (kind, make) = PLAN_KINDS[case % PLAN_KINDS.len()];
        let file = make(&mut random);
        let lists = PlanLists::random(&mut random, &file);
        let answer = lists.compare(&mut random);
        let answer = answer.unwrap_or_else(|difference| panic!("{kind}: {difference}\n{lists:?}"));
        *writer.entry(number(answer)).or_insert(0) += 1;
        let file = PlanFile::random(&mut random, file);
        let answer = file.compare(&mut random);
        let answer = answer.unwrap_or_else(|difference| panic!("{kind}: {difference}\n{file:?}"));
        *reader.entry(number(answer)).or_insert(0) += 1;
    }
    for seen in [reader, writer] {
        assert!(seen.len() == 3, "{seen:?}");
        assert!(
            [0, 4, 18].iter().all(|number| seen[number] > 100),
            "{seen:?}"
        );
    }
}

/// The number of an answer, 0 where the call does its work.
fn number<T>(answer: Result<T, reference::Refusal>) -> u8 {
    refused(answer).map_or(0, |(number, _)| number)
}

/// 4 of the writer comes before 18: a list with a part of an entry, an output of another length.
#[test]
fn checks_of_the_writer_in_order() {
    for plan in [small(), with(|p| p.closures[1] = 3)] {
        let exact = PlanLists::new(plan.lists());
        let output = exact.output_len;
        for output_len in (0..output + 20).chain([usize::from(u16::MAX)]) {
            let lists = plan.lists();
            let answer = written(&PlanLists { lists, output_len });
            assert_eq!(answer == SLICE, output_len != output, "{output_len}");
        }
        for section in 0..3 {
            for part in 1..ENTRY[section] {
                // With room for the part, and with room for the whole entries alone.
                for output_len in [output + part, output] {
                    let mut lists = plan.lists();
                    lists[section].extend(vec![0; part]);
                    assert_eq!(written(&PlanLists { lists, output_len }), SLICE);
                }
                let mut lists = plan.lists();
                let len = lists[section].len() - part;
                lists[section].truncate(len);
                assert_eq!(written(&PlanLists::new(lists)), SLICE);
            }
        }
    }
}

/// Lengths of lists: exact, one more, many more, one less, nothing, in every combination.
fn lengths(exact: [usize; 3]) -> Vec<[usize; 3]> {
    let others = |len: usize| [len, len + 1, len + 50, len.saturating_sub(1), 0];
    let [c, f, s] = exact.map(others);
    let pairs = |c: usize| f.iter().flat_map(move |&f| s.map(|s| [c, f, s]));
    c.iter().flat_map(|&c| pairs(c)).collect()
}

/// 18 of the reader comes before 4 of a list.
#[test]
fn checks_of_the_reader_in_order() {
    for plan in small_plans() {
        let exact = plan.lists().map(|list| list.len());
        for lens in lengths(exact) {
            let file = print(&plan);
            let short = lens.iter().zip(exact).any(|(&len, exact)| len < exact);
            let expected = if short { SLICE } else { None };
            assert_eq!(read(&PlanFile { file, lens }), expected, "{lens:?}");
            let mut file = print(&plan);
            let len = file.len();
            file.push(0);
            assert_eq!(read(&PlanFile { file, lens }), at(len), "{lens:?}");
        }
    }
}

/// 5 by 4 by 4 cells with room for the small plan.
const ROOMY: Shape = Shape::new(5, 4, 4, 12);

/// The pack of a file in the roomy shape, with the exact slices of the receiver.
fn packed(file: &[u8]) -> Trial {
    let shape = twin(ROOMY);
    let source = Source::new(shape, &data_string(shape, file));
    let cells: Vec<usize> = (0..shape.cells()).collect();
    Trial::new(source.air_in_order(&cells))
}

/// As the reader, behind the receiver: 18 before 4 of a list, and a list that is too short whatever is lent otherwise.
#[test]
fn checks_of_the_receiver_in_order() {
    let plan = small();
    let exact = plan.lists().map(|list| list.len());
    for lens in lengths(exact) {
        let trial = packed(&print(&plan));
        let short = lens.iter().zip(exact).any(|(&len, exact)| len < exact);
        let expected = if short { SLICE } else { None };
        let answer = received(&PlanPack { trial, lens });
        assert_eq!(refused(answer), expected, "{lens:?}");
        let trial = packed(&[&print(&plan)[..], &[0]].concat());
        let answer = received(&PlanPack { trial, lens });
        assert_eq!(refused(answer), at(102), "{lens:?}");
        // A slice of the receiver's own comes before both.
        let mut trial = packed(&[]);
        trial.lens.file += 1;
        let answer = received(&PlanPack { trial, lens });
        assert_eq!(refused(answer), SLICE, "{lens:?}");
    }
}

/// Bytes of the file buffer behind the file are no part of the plan.
#[test]
fn only_the_file_is_read() {
    let plan = print(&small());
    let lens = small().lists().map(|list| list.len());
    for len in [0, 4, 62, 101, 102] {
        let trial = packed(&plan[..len]);
        let shape = twin(ROOMY);
        let Lens {
            cube, flags, file, ..
        } = trial.lens;
        let [mut cube, mut flags] = [cube, flags].map(|len| vec![0; len]);
        // What the buffer held would make the plan whole.
        let mut file = [&plan[..], &vec![0; file - plan.len()]].concat();
        let [mut c, mut f, mut s] = lens.map(|len| vec![0xAA; len]);
        let answer = plan::receive_plan(
            &trial.pack,
            &mut cube,
            &mut flags,
            &mut file,
            &mut c,
            &mut f,
            &mut s,
        );
        assert_eq!(answer.is_ok(), len == 102, "{shape:?}, {len}");
        assert_eq!([c, f, s] == small().lists(), len == 102);
    }
}

/// Every pack of every kind: Left and all refusals of the receiver come through, and the lists are kept.
#[test]
fn random_packs() {
    let mut random = Random::new(8605);
    let mut seen = BTreeMap::new();
    for case in 0..8_800 {
        let kind = case % KINDS.len();
        let trial = Trial::random(&mut random, kind);
        let pack = PlanPack::random(&mut random, trial);
        let answer = pack.compare(&mut random);
        let answer = answer.unwrap_or_else(|difference| panic!("{}: {difference}", KINDS[kind].0));
        *seen.entry(number(answer)).or_insert(0) += 1;
    }
    for number in [0, 1, 2, 3, 4, 6, 7, 8, 9, 10, 11, 13, 14, 18, 19] {
        assert!(seen[&number] > 5, "{seen:?}");
    }
    assert_eq!(seen.len(), 15, "{seen:?}");
}

#[test]
fn random_plans_in_packs() {
    let mut random = Random::new(8606);
    let mut seen = BTreeMap::new();
    for case in 0..8_000 {
        let (kind, make) = PLAN_KINDS[case % PLAN_KINDS.len()];
        let file = make(&mut random);
        let pack = PlanPack::of_file(&mut random, &file);
        let answer = pack.compare(&mut random);
        let answer = answer.unwrap_or_else(|difference| panic!("{kind}: {difference}\n{pack:?}"));
        let answer = answer.map(|(received, _)| matches!(received.outcome, Outcome::File { .. }));
        *seen
            .entry(answer.map_err(|refusal| refusal.number))
            .or_insert(0) += 1;
    }
    for answer in [Ok(true), Ok(false), Err(4), Err(18)] {
        assert!(seen[&answer] > 50, "{seen:?}");
    }
    assert_eq!(seen.len(), 4, "{seen:?}");
}

/// A plan written, packed and heard with losses is shown exactly where no stopping set is lost.
#[test]
fn plans_heard_with_losses() {
    let mut random = Random::new(8607);
    let mut ends = [0; 2];
    for _ in 0..3_000 {
        let plan = named(&random_plan(&mut random));
        let file = plan.to_bytes().expect("a plan");
        let lengths = [0; 3].map(|_| random.among(4..=7));
        let data_cells: usize = lengths.iter().map(|length| length - 2).product();
        let [l1, l2, l3] = lengths;
        let shape = Shape::new(l1, l2, l3, (4 + file.len()).div_ceil(data_cells));
        if shape.w > 1024 {
            continue;
        }
        let pack = write(shape, &file).expect("the plan fits");
        let percent = random.among(0..=99);
        let lost: Vec<bool> = (0..twin(shape).cells())
            .map(|_| random.chance(percent))
            .collect();
        let mut air = AirPack::new(shape).expect("a good shape");
        for (packet, _) in packets(&pack)
            .expect("a pack")
            .zip(&lost)
            .filter(|(_, lost)| !**lost)
        {
            air.push(packet).expect("a packet of the shape");
        }
        let stuck = largest_stopping_set(twin(shape), &lost);
        let stuck: Vec<usize> = (0..stuck.len()).filter(|&cell| stuck[cell]).collect();
        let reception = plan::receive_within(air.as_bytes(), 10_000_000).expect("not refused");
        assert!(reception.left().eq(stuck.iter().copied()));
        ends[usize::from(stuck.is_empty())] += 1;
        let expected = stuck.is_empty().then_some(plan);
        assert_eq!(reception.into_file(), expected, "{shape:?}");
    }
    assert!(ends.iter().all(|&end| end > 500), "{ends:?}");
}

/// The calls with memory of their own give what the independent program gives.
#[test]
fn memory_of_its_own() {
    let mut random = Random::new(8608);
    let as_refused = |error: Error| match error {
        Error::Refused(refusal) => compare::placed(refusal),
        other => panic!("{other}"),
    };
    for case in 0..3_000 {
        let (kind, make) = PLAN_KINDS[case % PLAN_KINDS.len()];
        let file = make(&mut random);
        let expected = reference::plan::parse(&file).map(|plan| named(&plan));
        let given = plan::Plan::from_bytes(&file).map_err(as_refused);
        assert_eq!(given, expected, "{kind}");
        let lists = PlanLists::new(reference::plan::whole_entries(&file).lists());
        let [c, f, s] = &lists.lists;
        let mut output = vec![0; lists.output_len];
        let expected = reference::write_plan(c, f, s, &mut output).map(|()| output);
        let plan = named(&reference::plan::whole_entries(&file));
        assert_eq!(plan.to_bytes().map_err(as_refused), expected, "{kind}");

        let pack = PlanPack::of_file(&mut random, &file);
        let given = plan::receive(&pack.trial.pack).map_err(as_refused);
        let given = given.map(Reception::into_file);
        let exact = PlanFile::new(file.clone()).lens;
        let shown = received(&PlanPack {
            lens: exact,
            ..pack
        });
        let expected = shown.map(|(received, _)| match received.outcome {
            Outcome::File { .. } => Some(plan),
            Outcome::Left { .. } => None,
        });
        assert_eq!(given, expected, "{kind}");
    }
}

/// Every closure that there is, with so many fibres each, spliced crosswise: 1 with the last, 2 with the one before it.
fn every_closure(fibres: u16) -> Plan {
    let closures: Vec<u16> = (0..=u16::MAX).collect();
    let numbers = |&closure: &u16| (1..=fibres).map(move |number| (closure, number));
    let each = u32::from(fibres);
    let crosswise = |start: u32| (0..each / 2).map(move |i| (start + i, start + each - 1 - i));
    Plan {
        fibres: closures.iter().flat_map(numbers).collect(),
        splices: (0..65_536).flat_map(|c| crosswise(each * c)).collect(),
        closures,
    }
}

#[test]
fn large_plans() {
    for plan in [many_fibres(), every_closure(2)] {
        assert_eq!(judged(&plan), None);
        // The last splice takes the fibres of the one before it; then the last byte is missing.
        let file = print(&plan);
        let last = plan.offset(2, plan.splices.len() - 1);
        let mut broken = file.clone();
        broken.copy_within(last - 8..last, last);
        assert_eq!(read_exact(broken), at(last));
        assert_eq!(read_exact(&file[..file.len() - 1]), at(last));
    }
}

/// 100,000 fibres in closures that are full but for the last, spliced crosswise where they are full.
fn many_fibres() -> Plan {
    let full = 100_000 / 288;
    let crosswise = |start: u32| (0..144).map(move |i| (start + i, start + 287 - i));
    Plan {
        closures: (0..=full as u16).map(|place| 3 * place).collect(),
        fibres: (0..100_000)
            .map(|index| ((index / 288 * 3) as u16, (index % 288 + 1) as u16))
            .collect(),
        splices: (0..full).flat_map(|c| crosswise(288 * c)).collect(),
    }
}
