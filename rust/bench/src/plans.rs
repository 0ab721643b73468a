//! Measuring, reading and writing plans, beside memcpy of their files: one of 100,000 fibres, the largest that there is, and files that
//! are refused as late or with as much work as they can be.

use std::hint::black_box;
use std::time::Duration;

use jibrufath::plan::{
    Closure, Fibre, Plan, PlanCounts, Splice, measure_plan, read_plan, write_plan,
};
use jibrufath::{Error, Refusal};

use crate::bars::Bar;
use crate::measure::{Time, entry, least_times, milliseconds, over};

/// The closures that there are, and the fibres of one.
const CLOSURES: usize = 65_536;
const FIBRES: usize = 288;

/// The most nanoseconds for a byte: 500 MB/s.
const MOST_A_BYTE: f64 = 2.0;

/// Rounds for so many bytes: a second or so of each call.
fn rounds(bytes: usize) -> usize {
    (1_000_000_000 / bytes).clamp(8, 400)
}

/// What a file is, its bytes, and what is lent for it.
struct Lent {
    what: &'static str,
    file: Vec<u8>,
    lists: [Vec<u8>; 3],
    back: Vec<u8>,
    copy: Vec<u8>,
}

/// Prints all files, and gives what the benchmark is held to.
pub fn table() -> Result<[Bar; 2], Error> {
    println!(
        "\
Plans: minimum of 8 or more rounds, a second or so. Ratios are to memcpy of the file in the same rounds.

| file | megabytes | call | milliseconds | MB/s | over memcpy | AVX2: milliseconds |
|---|---|---|---|---|---|---|"
    );
    let hundred_thousand = plan(100_000 / FIBRES, FIBRES, 100_000 % FIBRES).to_bytes()?;
    Lent::new("100,000 fibres, all but a few spliced", hundred_thousand)?.measure_plan();
    let largest = plan(CLOSURES, FIBRES, 0).to_bytes()?;
    let hostile = hostile(&largest)?;
    let a_byte = Lent::new("the largest plan", largest)?.measure_plan();
    let mut slowest: f64 = 0.0;
    for (what, file) in hostile {
        slowest = slowest.max(Lent::refused(what, file).measure_refused());
    }
    let bar = |what: &str, measured| Bar {
        what: what.into(),
        measured,
        most: MOST_A_BYTE,
    };
    Ok([
        bar("reading the largest plan, ns a byte", a_byte),
        bar("the slowest file that is refused, ns a byte", slowest),
    ])
}

/// So many closures with so many fibres each, and one more with a few that are not spliced. In each the first fibre is spliced with the
/// last, the second with the one before it, and so on.
fn plan(full: usize, fibres: usize, more: usize) -> Plan {
    let lens = vec![fibres; full]
        .into_iter()
        .chain((more > 0).then_some(more));
    let mut plan = Plan::default();
    for (number, len) in (0..=u16::MAX).zip(lens) {
        let start = plan.fibres.len() as u32;
        plan.closures.push(Closure { number });
        let numbers = 1..=len as u16;
        plan.fibres.extend(numbers.map(|fibre| Fibre {
            closure: number,
            number: fibre,
        }));
        if len == fibres {
            let last = start + len as u32 - 1;
            plan.splices.extend((0..len as u32 / 2).map(|i| Splice {
                first: start + i,
                second: last - i,
            }));
        }
    }
    plan
}

/// Files that are refused: for their last entry, behind counts that promise more than there is, or where every fibre is in another
/// closure than the one before it.
fn hostile(largest: &[u8]) -> Result<Vec<(&'static str, Vec<u8>)>, Error> {
    let splices = PlanCounts {
        closures: CLOSURES,
        fibres: CLOSURES * FIBRES,
        splices: 0,
    };
    let splices = splices.file_bytes();
    let mut promised = largest.to_vec();
    promised[splices - 4..splices].fill(0xFF);
    let mut twice = largest.to_vec();
    let last = twice.len() - Splice::BYTES;
    twice.copy_within(last - Splice::BYTES..last, last);
    let mut far = plan(CLOSURES, 2, 0).to_bytes()?;
    far.pop();
    let mut last_alone = plan(CLOSURES, 0, 0);
    let closure = u16::MAX;
    let numbers = 1..=FIBRES as u16;
    last_alone.fibres = numbers.map(|number| Fibre { closure, number }).collect();
    let mut last_alone = last_alone.to_bytes()?;
    last_alone.pop();
    let mut no_closure = vec![0xFF; 4];
    no_closure.extend((0..=u16::MAX).flat_map(u16::to_le_bytes));
    Ok(vec![
        ("FFFFFFFFh splices, cut at the end", promised),
        ("a fibre spliced twice at the end", twice),
        ("2 fibres in each closure, cut at the end", far),
        (
            "fibres in the last closure alone, cut at the end",
            last_alone,
        ),
        ("FFFFFFFFh closures, cut at the end", no_closure),
    ])
}

impl Lent {
    /// A plan, with lists for its entries.
    fn new(what: &'static str, file: Vec<u8>) -> Result<Lent, Refusal> {
        let entries = measure_plan(&file)?;
        let lens = [
            entries.closures * Closure::BYTES,
            entries.fibres * Fibre::BYTES,
            entries.splices * Splice::BYTES,
        ];
        Ok(Lent {
            lists: lens.map(|len| vec![1; len]),
            ..Lent::refused(what, file)
        })
    }

    /// A file that is no plan.
    fn refused(what: &'static str, file: Vec<u8>) -> Lent {
        Lent {
            what,
            lists: [vec![], vec![], vec![]],
            back: vec![1; file.len()],
            copy: vec![1; file.len()],
            file,
        }
    }

    /// Times the calls on a plan, looks that they undo each other, and gives the nanoseconds for each byte that is read.
    fn measure_plan(mut self) -> f64 {
        let times = least_times(
            rounds(self.file.len()),
            &mut self,
            &[
                &|s: &mut Lent| assert!(measure_plan(&s.file).is_ok()),
                &|s: &mut Lent| assert!(s.read().is_ok()),
                &|s: &mut Lent| s.write().expect("the entries of a plan"),
                &Lent::copy,
            ],
        );
        assert!(self.back == self.file, "the plan is written back");
        let a_byte = self.a_byte(times[1].sse2);
        self.print(["measure_plan", "read_plan", "write_plan"], times);
        a_byte
    }

    /// Times the reader on a file that it refuses, and gives the nanoseconds for each byte.
    fn measure_refused(mut self) -> f64 {
        let times = least_times(
            rounds(self.file.len()),
            &mut self,
            &[
                &|s: &mut Lent| assert!(matches!(s.read(), Err(Refusal::Entry { .. }))),
                &Lent::copy,
            ],
        );
        let a_byte = self.a_byte(times[0].sse2);
        self.print(["read_plan"], times);
        a_byte
    }

    fn read(&mut self) -> Result<PlanCounts, Refusal> {
        let [closures, fibres, splices] = &mut self.lists;
        read_plan(&self.file, closures, fibres, splices)
    }

    fn write(&mut self) -> Result<(), Refusal> {
        let [closures, fibres, splices] = &self.lists;
        write_plan(closures, fibres, splices, &mut self.back)
    }

    fn copy(&mut self) {
        black_box(&mut self.copy).copy_from_slice(&self.file);
    }

    fn a_byte(&self, time: Duration) -> f64 {
        time.as_secs_f64() * 1e9 / self.file.len() as f64
    }

    /// A row for each call; the last of the times is that of memcpy.
    fn print<const N: usize>(&self, calls: [&str; N], times: Vec<Time>) {
        let megabytes = self.file.len() as f64 / 1e6;
        for (call, &Time { sse2, avx2 }) in calls.iter().zip(&times) {
            println!(
                "| {} | {megabytes:.2} | {call} | {:.2} | {:.0} | {:.2} | {} |",
                self.what,
                milliseconds(sse2),
                megabytes / sse2.as_secs_f64(),
                over(sse2, times[N].sse2),
                entry(avx2.map(milliseconds))
            );
        }
    }
}
