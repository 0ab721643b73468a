//! One file for the plan reader of both programs, lists for the plan writer of both, or a pack for the plan receiver of both; what
//! is accepted goes both ways.

use jibrufath::plan::{PlanCounts, measure_plan, read_plan, receive_plan, write_plan};
use reference::pack::COUNT;
use reference::plan::{ENTRY, whole_entries};
use reference::random::Random;
use reference::{Received, Refusal};

use crate::plans::pack_of;
use crate::trial::told;
use crate::{Calls, Trial, compare, placed};

/// A file, and the lengths of the lists that are lent for its entries.
#[derive(Debug)]
pub struct PlanFile {
    pub file: Vec<u8>,
    pub lens: [usize; 3],
}

/// Lists of entries, and the length of the slice that is lent for their file.
#[derive(Debug)]
pub struct PlanLists {
    pub lists: [Vec<u8>; 3],
    pub output_len: usize,
}

/// A pack, with what the receiver is lent, and the lengths of the lists that are lent for the entries of its file.
#[derive(Debug)]
pub struct PlanPack {
    pub trial: Trial,
    pub lens: [usize; 3],
}

/// The counts of the library in the order of their sections.
fn counted(entries: PlanCounts) -> [usize; 3] {
    [entries.closures, entries.fibres, entries.splices]
}

/// The lengths of lists for the whole entries of a file.
fn exact(file: &[u8]) -> [usize; 3] {
    whole_entries(file).lists().map(|list| list.len())
}

/// Lengths that are enough, exact or longer; now and then one that is too short.
fn enough(random: &mut Random, exact: [usize; 3]) -> [usize; 3] {
    let mut lens = exact.map(|len| len + random.pick(&[0, 0, 1, 7, 100]));
    if random.chance(10) {
        let list = random.among(0..=2);
        lens[list] = random.pick(&[0, exact[list].saturating_sub(1), exact[list] / 2]);
    }
    lens
}

impl PlanFile {
    /// The file, with lists of the exact lengths for its entries.
    pub fn new(file: Vec<u8>) -> PlanFile {
        let lens = exact(&file);
        PlanFile { file, lens }
    }

    /// The file, with lists that may be longer; now and then one is too short.
    pub fn random(random: &mut Random, file: Vec<u8>) -> PlanFile {
        let lens = enough(random, exact(&file));
        PlanFile { file, lens }
    }

    /// Asks both programs for the counts, gives both the file, over garbage, and compares the answers and every lent byte. A plan
    /// that was read must be written back to the same bytes.
    pub fn compare(&self, random: &mut Random) -> Result<Result<[usize; 3], Refusal>, String> {
        compare(
            random,
            [&self.file],
            |[file]| measure_plan(file).map(counted).map_err(placed),
            |[file]| reference::measure_plan(file),
        )
        .map_err(|difference| format!("measure_plan: {difference}"))?;
        let [closures, fibres, splices] = self.lens.map(|len| random.bytes(len));
        let agreed = compare(
            random,
            [&self.file, &closures, &fibres, &splices],
            |[file, c, f, s]| read_plan(file, c, f, s).map(counted).map_err(placed),
            |[file, c, f, s]| reference::read_plan(file, c, f, s),
        )
        .map_err(|difference| format!("read_plan: {difference}"))?;
        if let Ok(counts) = agreed.answer {
            let [c, f, s] = [0, 1, 2].map(|i| &agreed.after[1 + i][..ENTRY[i] * counts[i]]);
            let mut back = random.bytes(self.file.len());
            let answer = write_plan(c, f, s, &mut back);
            if answer.is_err() || back != self.file {
                return Err(format!("the plan is written back: {answer:?}, {back:02X?}"));
            }
        }
        Ok(agreed.answer)
    }

    /// Records the calls that [`PlanFile::compare`] makes with the file.
    pub fn record(&self, random: &mut Random, calls: &mut Calls) {
        let file = &self.file;
        let [closures, fibres, splices] = self.lens.map(|len| random.bytes(len));
        calls.call("measure_plan", [file], &[], |[file]| {
            reference::measure_plan(file)
        });
        let slices = [file, &closures, &fibres, &splices].map(Vec::as_slice);
        calls.call("read_plan", slices, &[], |[file, c, f, s]| {
            reference::read_plan(file, c, f, s)
        });
    }
}

impl PlanLists {
    /// The lists, with a slice of the exact length for their file.
    pub fn new(lists: [Vec<u8>; 3]) -> PlanLists {
        let output_len = lists.iter().map(|list| COUNT + list.len()).sum();
        PlanLists { lists, output_len }
    }

    /// The whole entries of a file. Now and then a list ends inside an entry, or the slice has a wrong length.
    pub fn random(random: &mut Random, file: &[u8]) -> PlanLists {
        let mut lists = whole_entries(file).lists();
        if random.chance(5) {
            let list = random.among(0..=2);
            let part = random.among(1..=ENTRY[list] - 1);
            lists[list].extend(random.bytes(part));
        }
        let exact = PlanLists::new(lists);
        let output_len = match random.chance(5) {
            true => random.pick(&[0, exact.output_len - 1, exact.output_len + 1]),
            false => exact.output_len,
        };
        PlanLists {
            output_len,
            ..exact
        }
    }

    /// Gives both programs the lists, over garbage, and compares the answers and every lent byte. A file that was written must be
    /// read back to the same lists.
    pub fn compare(&self, random: &mut Random) -> Result<Result<(), Refusal>, String> {
        let [closures, fibres, splices] = &self.lists;
        let output = random.bytes(self.output_len);
        let agreed = compare(
            random,
            [closures, fibres, splices, &output],
            |[c, f, s, output]| write_plan(c, f, s, output).map_err(placed),
            |[c, f, s, output]| reference::write_plan(c, f, s, output),
        )
        .map_err(|difference| format!("write_plan: {difference}"))?;
        if agreed.answer.is_ok() {
            let mut back = self.lists.each_ref().map(|list| random.bytes(list.len()));
            let [c, f, s] = &mut back;
            let answer = read_plan(&agreed.after[3], c, f, s);
            if answer.is_err() || back != self.lists {
                return Err(format!("the file is read back: {answer:?}, {back:02X?}"));
            }
        }
        Ok(agreed.answer)
    }

    /// Records the call that [`PlanLists::compare`] makes with the lists.
    pub fn record(&self, random: &mut Random, calls: &mut Calls) {
        let [closures, fibres, splices] = &self.lists;
        let output = random.bytes(self.output_len);
        let slices = [closures, fibres, splices, &output].map(Vec::as_slice);
        calls.call("write_plan", slices, &[], |[c, f, s, output]| {
            reference::write_plan(c, f, s, output)
        });
    }
}

impl PlanPack {
    /// Some of the packets of a file, with lists that may be longer than its entries; now and then one is too short.
    pub fn of_file(random: &mut Random, file: &[u8]) -> PlanPack {
        let trial = Trial::new(pack_of(random, file));
        let lens = enough(random, exact(file));
        PlanPack { trial, lens }
    }

    /// Any pack, with lists of any lengths.
    pub fn random(random: &mut Random, trial: Trial) -> PlanPack {
        let lens = [0; 3].map(|_| random.among(0..=40));
        PlanPack { trial, lens }
    }

    /// Gives both programs the pack, over garbage, and compares the answers and every lent byte.
    pub fn compare(
        &self,
        random: &mut Random,
    ) -> Result<Result<(Received, [usize; 3]), Refusal>, String> {
        let slices = self.slices(random);
        let agreed = compare(
            random,
            slices.each_ref().map(Vec::as_slice),
            |[air, cube, flags, file, c, f, s]| {
                let shown = receive_plan(air, cube, flags, file, c, f, s).map_err(placed)?;
                Ok((told(shown.received), counted(shown.entries)))
            },
            |[air, cube, flags, file, c, f, s]| {
                reference::receive_plan(air, cube, flags, file, c, f, s)
            },
        );
        let agreed = agreed.map_err(|difference| format!("receive_plan: {difference}"))?;
        Ok(agreed.answer)
    }

    /// Records the call that [`PlanPack::compare`] makes.
    pub fn record(&self, random: &mut Random, calls: &mut Calls) {
        let slices = self.slices(random);
        let slices = slices.each_ref().map(Vec::as_slice);
        calls.call("receive_plan", slices, &[], |slices| {
            let [air, cube, flags, file, c, f, s] = slices;
            reference::receive_plan(air, cube, flags, file, c, f, s)
        });
    }

    /// What the call is lent: the pack, then garbage.
    fn slices(&self, random: &mut Random) -> [Vec<u8>; 7] {
        let lens = self.trial.lens;
        let [cube, flags, file] = [lens.cube, lens.flags, lens.file].map(|len| random.bytes(len));
        let [closures, fibres, splices] = self.lens.map(|len| random.bytes(len));
        let pack = self.trial.pack.clone();
        [pack, cube, flags, file, closures, fibres, splices]
    }
}
