//! Splice plans: a file is taken apart into lists of entries, which are then judged by sets and maps of what stands before them.
//!
//! Lists may hold any numbers. What breaks a rule, what is cut and what is left over are found apart from each other, and the
//! least of their offsets is the answer.

use std::collections::{BTreeSet, HashMap, HashSet};

use crate::pack::{COUNT, count, number};
use crate::{Outcome, Received, Refusal, receive_pack};

/// The bytes of a closure, a fibre and a splice.
pub const ENTRY: [usize; 3] = [2, 4, 8];

/// The most fibres of a closure, which is the largest number of one.
const MOST_FIBRES: u16 = 288;

/// The entries of a plan as they stand there, not yet judged.
#[derive(Clone, Debug, Default, PartialEq, Eq)]
pub struct Plan {
    pub closures: Vec<u16>,
    /// The number of the closure, and the fibre's own.
    pub fibres: Vec<(u16, u16)>,
    /// The indexes of two fibres.
    pub splices: Vec<(u32, u32)>,
}

/// Writes the file of a plan whose entries stand in these lists.
pub fn write_plan(
    closures: &[u8],
    fibres: &[u8],
    splices: &[u8],
    output: &mut [u8],
) -> Result<(), Refusal> {
    let lists = [closures, fibres, splices];
    let whole = lists
        .iter()
        .zip(ENTRY)
        .all(|(list, size)| list.len() % size == 0);
    let bytes: usize = lists.iter().map(|list| COUNT + list.len()).sum();
    if !whole || output.len() != bytes {
        return Err(4.into());
    }
    let plan = Plan::of_lists(lists);
    if let Some(offset) = plan.broken() {
        return Err(Refusal::at(18, offset));
    }
    output.copy_from_slice(&print(&plan));
    Ok(())
}

/// The counts of the three sections.
pub fn measure_plan(file: &[u8]) -> Result<[usize; 3], Refusal> {
    Ok(parse(file)?.counts())
}

/// Reads the file of a plan to lists that have room for its entries.
pub fn read_plan(
    file: &[u8],
    closures: &mut [u8],
    fibres: &mut [u8],
    splices: &mut [u8],
) -> Result<[usize; 3], Refusal> {
    let plan = parse(file)?;
    let mut lent = [closures, fibres, splices];
    let lists = plan.lists();
    if lists
        .iter()
        .zip(&lent)
        .any(|(list, lent)| list.len() > lent.len())
    {
        return Err(4.into());
    }
    for (list, lent) in lists.iter().zip(&mut lent) {
        lent[..list.len()].copy_from_slice(list);
    }
    Ok(plan.counts())
}

/// Receives an air pack, and reads its file as a plan where nothing is left. The counts are 0 where cells are.
pub fn receive_plan(
    air: &[u8],
    cube: &mut [u8],
    flags: &mut [u8],
    file: &mut [u8],
    closures: &mut [u8],
    fibres: &mut [u8],
    splices: &mut [u8],
) -> Result<(Received, [usize; 3]), Refusal> {
    let received = receive_pack(air, cube, flags, file)?;
    let counts = match received.outcome {
        Outcome::File { len } => read_plan(&file[..len], closures, fibres, splices)?,
        Outcome::Left { .. } => [0; 3],
    };
    Ok((received, counts))
}

/// The file of a plan, whatever its numbers are.
pub fn print(plan: &Plan) -> Vec<u8> {
    let sections = plan.counts().into_iter().zip(plan.lists());
    sections
        .flat_map(|(entries, list)| [count(entries).to_vec(), list].concat())
        .collect()
}

/// Takes a file apart; 18 where it is no plan.
pub fn parse(file: &[u8]) -> Result<Plan, Refusal> {
    let (plan, stop) = take_apart(file);
    match plan.broken().into_iter().chain(stop).min() {
        Some(offset) => Err(Refusal::at(18, offset)),
        None => Ok(plan),
    }
}

/// The entries of a file that are whole, whatever rules they break.
pub fn whole_entries(file: &[u8]) -> Plan {
    take_apart(file).0
}

/// The whole entries of a file, and where the rest begins: what is cut, or what is left over.
fn take_apart(file: &[u8]) -> (Plan, Option<usize>) {
    let mut lists: [&[u8]; 3] = [&[]; 3];
    let mut end = 0;
    for (list, size) in lists.iter_mut().zip(ENTRY) {
        let section = Section::new(file, end, size);
        (*list, end) = (section.list, section.end);
        if section.cut {
            return (Plan::of_lists(lists), Some(end));
        }
    }
    let left_over = (end < file.len()).then_some(end);
    (Plan::of_lists(lists), left_over)
}

/// A section: its whole entries, where they end, and whether its count or the next entry is cut there.
struct Section<'a> {
    list: &'a [u8],
    end: usize,
    cut: bool,
}

impl Section<'_> {
    fn new(file: &[u8], at: usize, size: usize) -> Section<'_> {
        let start = at + COUNT;
        let Some(head) = file.get(at..start) else {
            let (list, end, cut) = (&[][..], at, true);
            return Section { list, end, cut };
        };
        let entries = number(head) as usize;
        let whole = entries.min((file.len() - start) / size);
        let end = start + whole * size;
        Section {
            list: &file[start..end],
            end,
            cut: whole < entries,
        }
    }
}

/// Whether an entry is above all before it, of which it then is one.
fn follows<E: Ord + Copy>(before: &mut BTreeSet<E>, entry: E) -> bool {
    before.range(entry..).next().is_none() && before.insert(entry)
}

/// The index of the first entry that does not keep the rules.
fn first_not<E: Copy>(entries: &[E], mut kept: impl FnMut(E) -> bool) -> Option<usize> {
    entries.iter().position(|&entry| !kept(entry))
}

impl Plan {
    /// The plan of these lists, without a part of an entry at their end.
    pub fn of_lists(lists: [&[u8]; 3]) -> Plan {
        let [closures, fibres, splices] =
            [0, 1, 2].map(|section| lists[section].chunks_exact(ENTRY[section]));
        let pair = |bytes: &[u8]| {
            let (first, second) = bytes.split_at(bytes.len() / 2);
            (number(first), number(second))
        };
        Plan {
            closures: closures.map(|bytes| number(bytes) as u16).collect(),
            fibres: fibres
                .map(pair)
                .map(|(closure, fibre)| (closure as u16, fibre as u16))
                .collect(),
            splices: splices
                .map(pair)
                .map(|(first, second)| (first as u32, second as u32))
                .collect(),
        }
    }

    /// The entries of each section, as bytes.
    pub fn lists(&self) -> [Vec<u8>; 3] {
        let closures = self.closures.iter().flat_map(|number| number.to_le_bytes());
        let fibres = self.fibres.iter().flat_map(|&(a, b)| [a, b]);
        let splices = self.splices.iter().flat_map(|&(a, b)| [a, b]);
        [
            closures.collect(),
            fibres.flat_map(u16::to_le_bytes).collect(),
            splices.flat_map(u32::to_le_bytes).collect(),
        ]
    }

    pub fn counts(&self) -> [usize; 3] {
        [self.closures.len(), self.fibres.len(), self.splices.len()]
    }

    /// Where an entry stands in the file: the index is from 0, in its section.
    pub fn offset(&self, section: usize, index: usize) -> usize {
        let before = (0..section).map(|section| COUNT + ENTRY[section] * self.counts()[section]);
        before.sum::<usize>() + COUNT + ENTRY[section] * index
    }

    /// The offset of the first entry that breaks a rule.
    fn broken(&self) -> Option<usize> {
        let first = [
            self.broken_closure(),
            self.broken_fibre(),
            self.broken_splice(),
        ];
        let offsets = (0..3).filter_map(|section| Some(self.offset(section, first[section]?)));
        offsets.min()
    }

    fn broken_closure(&self) -> Option<usize> {
        let mut before = BTreeSet::new();
        first_not(&self.closures, |closure| follows(&mut before, closure))
    }

    fn broken_fibre(&self) -> Option<usize> {
        let listed = BTreeSet::from_iter(&self.closures);
        let mut before = BTreeSet::new();
        let kept = |fibre: (u16, u16)| {
            let (closure, number) = fibre;
            let numbered = (1..=MOST_FIBRES).contains(&number);
            numbered && listed.contains(&closure) && follows(&mut before, fibre)
        };
        first_not(&self.fibres, kept)
    }

    fn broken_splice(&self) -> Option<usize> {
        let closures: HashMap<u32, u16> =
            (0..).zip(self.fibres.iter().map(|fibre| fibre.0)).collect();
        let (mut firsts, mut spliced) = (BTreeSet::new(), HashSet::new());
        let kept = |(first, second): (u32, u32)| {
            let [one, other] = [first, second].map(|index| closures.get(&index));
            let together = one.is_some() && one == other;
            let unused = spliced.insert(first) && spliced.insert(second);
            together && unused && first < second && follows(&mut firsts, first)
        };
        first_not(&self.splices, kept)
    }
}

#[cfg(test)]
mod tests {
    use super::*;

    /// Closures 5 and 300; three fibres in the first and two in the second; a splice in each.
    const PLAN: [u8; 52] = [
        2, 0, 0, 0, 5, 0, 44, 1, // closures, from 4 on
        5, 0, 0, 0, 5, 0, 1, 0, 5, 0, 2, 0, 5, 0, 32, 1, 44, 1, 1, 0, 44, 1, 2,
        0, // fibres, from 12 on
        2, 0, 0, 0, 0, 0, 0, 0, 2, 0, 0, 0, 3, 0, 0, 0, 4, 0, 0, 0, // splices, from 36 on
    ];

    fn plan() -> Plan {
        Plan {
            closures: vec![5, 300],
            fibres: vec![(5, 1), (5, 2), (5, 288), (300, 1), (300, 2)],
            splices: vec![(0, 2), (3, 4)],
        }
    }

    /// The offset at which a plan is broken.
    fn broken(change: impl FnOnce(&mut Plan)) -> Option<u64> {
        let mut plan = plan();
        change(&mut plan);
        parse(&print(&plan)).err()?.place
    }

    #[test]
    fn a_plan_and_its_file() {
        assert_eq!(print(&plan()), PLAN);
        assert_eq!(parse(&PLAN), Ok(plan()));
        assert_eq!(measure_plan(&PLAN), Ok([2, 5, 2]));
        let [closures, fibres, splices] = plan().lists();
        let mut file = [0xAA; PLAN.len()];
        assert_eq!(write_plan(&closures, &fibres, &splices, &mut file), Ok(()));
        assert_eq!(file, PLAN);
    }

    #[test]
    fn entries_that_break_a_rule() {
        assert_eq!(broken(|_| ()), None);
        assert_eq!(broken(|plan| *plan = Plan::default()), None);
        assert_eq!(broken(|plan| plan.closures = vec![300, 5]), Some(6));
        assert_eq!(broken(|plan| plan.closures[1] = 5), Some(6));
        assert_eq!(broken(|plan| plan.closures[0] = 4), Some(12));
        assert_eq!(broken(|plan| plan.fibres[0].1 = 0), Some(12));
        assert_eq!(broken(|plan| plan.fibres[2].1 = 289), Some(20));
        assert_eq!(broken(|plan| plan.fibres[1].1 = 1), Some(16));
        assert_eq!(broken(|plan| plan.fibres[3].0 = 5), Some(24));
        assert_eq!(broken(|plan| plan.fibres[4].0 = 301), Some(28));
        assert_eq!(broken(|plan| plan.splices[0] = (2, 0)), Some(36));
        assert_eq!(broken(|plan| plan.splices[0] = (1, 1)), Some(36));
        assert_eq!(broken(|plan| plan.splices[0].1 = 3), Some(36));
        assert_eq!(broken(|plan| plan.splices[1].1 = 5), Some(44));
        assert_eq!(broken(|plan| plan.splices[1] = (1, 2)), Some(44));
        assert_eq!(broken(|plan| plan.splices.swap(0, 1)), Some(44));
    }

    #[test]
    fn cut_and_left_over() {
        for len in 0..PLAN.len() {
            let begins = [0, 4, 6, 8, 12, 16, 20, 24, 28, 32, 36, 44];
            let cut = begins.iter().filter(|&&at| at <= len).max().copied();
            assert_eq!(parse(&PLAN[..len]), Err(Refusal::at(18, cut.unwrap())));
        }
        for more in [&[0][..], &PLAN] {
            let refused = parse(&[&PLAN, more].concat());
            assert_eq!(refused, Err(Refusal::at(18, 52)));
        }
        // What is there is judged before a count that promises more.
        let mut file = PLAN;
        file[..4].fill(0xFF);
        assert_eq!(parse(&file), Err(Refusal::at(18, 8)));
    }

    #[test]
    fn checks_in_order() {
        let [closures, fibres, splices] = plan().lists();
        let mut output = [0xAA; 53];
        for (closures, lent, number, place) in [
            (&closures[..], 51, 4, None),
            (&closures[..], 53, 4, None),
            (&closures[..3], 51, 4, None),
            (&[7, 0, 6, 0], 51, 4, None),
            (&[7, 0, 6, 0], 52, 18, Some(6)),
        ] {
            let refusal = Refusal { number, place };
            let answer = write_plan(closures, &fibres, &splices, &mut output[..lent]);
            assert_eq!(answer, Err(refusal));
        }
        assert_eq!(output, [0xAA; 53]);

        let mut lists = [4, 20, 16].map(|len| vec![0xAA; len]);
        let mut read = |file: &[u8], lens: [usize; 3]| {
            let [closures, fibres, splices] = &mut lists;
            let [c, f, s] = lens;
            read_plan(
                file,
                &mut closures[..c],
                &mut fibres[..f],
                &mut splices[..s],
            )
        };
        for lens in [[3, 20, 16], [4, 19, 16], [4, 20, 15]] {
            assert_eq!(read(&PLAN[..51], lens), Err(Refusal::at(18, 44)));
            assert_eq!(read(&PLAN, lens), Err(4.into()));
        }
        assert_eq!(read(&PLAN, [4, 20, 16]), Ok([2, 5, 2]));
        assert_eq!(lists, plan().lists());
    }
}
