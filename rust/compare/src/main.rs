//! `compare SEED COUNT`: makes COUNT random packs, texts and plans of every kind. The library and the independent program are asked
//! what each pack needs, and are given it for the writer, the receiver, the text writer and the plan receiver; a text goes to the
//! text reader of both; a plan goes to the plan reader, its entries to the plan writer, and a pack of it to the plan receiver.
//! Prints how many there were of each kind, what the answers were, and where the programs differ.
//!
//! `compare --record FILE SEED COUNT`: writes to FILE the calls for COUNT random packs, texts and plans, for cubes, sizes and all of the
//! field, with what the independent program answers and leaves. targets/test plays them on the library of every processor.

use std::collections::BTreeMap;
use std::env;
use std::fs;
use std::process::ExitCode;
use std::time::Instant;

use compare::{
    Answers, FromText, Kind, PLAN_KINDS, PlanFile, PlanLists, PlanPack, TEXT_KINDS, ToText, Trial,
    recorded,
};
use reference::random::Random;
use reference::{Outcome, Received, Refusal};

/// How many disagreements are told in full.
const TOLD: usize = 10;

/// The calls that answers are counted for.
const CALLS: [&str; 7] = [
    "writer",
    "receiver",
    "text writer",
    "text reader",
    "plan receiver",
    "plan reader",
    "plan writer",
];

fn main() -> ExitCode {
    let words: Vec<String> = env::args().skip(1).collect();
    let words: Vec<&str> = words.iter().map(String::as_str).collect();
    let numbers = |seed: &str, count: &str| Some((seed.parse().ok()?, count.parse().ok()?));
    let ran = match words[..] {
        ["--record", file, seed, count] => {
            numbers(seed, count).map(|(seed, count)| record(file, seed, count))
        }
        [seed, count] => numbers(seed, count).map(|(seed, count)| compare(seed, count)),
        _ => None,
    };
    ran.unwrap_or_else(|| {
        eprintln!("usage: compare SEED COUNT\n       compare --record FILE SEED COUNT");
        ExitCode::from(2)
    })
}

fn record(file: &str, seed: u64, count: u64) -> ExitCode {
    match fs::write(file, recorded(seed, count)) {
        Ok(()) => ExitCode::SUCCESS,
        Err(error) => {
            eprintln!("{file}: {error}");
            ExitCode::FAILURE
        }
    }
}

fn compare(seed: u64, count: u64) -> ExitCode {
    let start = Instant::now();
    let tally = Tally::of(seed, count);
    tally.print();
    let seconds = start.elapsed().as_secs_f64();
    println!(
        "seed {seed}: {count} packs, texts and plans, each for every call that takes it, in {seconds:.1} s"
    );
    println!("disagreements: {}", tally.disagreements);
    ExitCode::from(u8::from(tally.disagreements > 0))
}

/// What was tried, and what came of it.
#[derive(Default)]
struct Tally {
    kinds: BTreeMap<Kind, u64>,
    /// How often each of the calls gave each answer.
    answers: BTreeMap<String, [u64; CALLS.len()]>,
    disagreements: usize,
}

impl Tally {
    fn of(seed: u64, count: u64) -> Tally {
        let mut random = Random::new(seed);
        let mut tally = Tally::default();
        let kinds = Kind::all();
        for number in 0..count {
            let kind = random.pick(&kinds);
            *tally.kinds.entry(kind).or_default() += 1;
            let tried = match kind {
                Kind::Pack(kind) => tally.try_pack(&mut random, kind),
                Kind::Text(kind) => tally.try_text(&mut random, kind),
                Kind::Plan(kind) => tally.try_plan(&mut random, kind),
            };
            if let Err(difference) = tried {
                tally.disagreements += 1;
                if tally.disagreements <= TOLD {
                    println!("number {number}, {}: {difference}", kind.name());
                }
            }
        }
        tally
    }

    fn try_pack(&mut self, random: &mut Random, kind: usize) -> Result<(), String> {
        let trial = Trial::random(random, kind);
        let answers = trial.compare(random);
        let Answers { write, receive } = answers.map_err(|told| format!("{told}\n{trial:?}"))?;
        let plan_pack = PlanPack::random(random, trial);
        self.try_plan_pack(random, &plan_pack)?;
        let to_text = ToText::random(random, plan_pack.trial.pack);
        let answer = to_text.compare(random);
        let text = answer.map_err(|told| format!("{told}\n{to_text:?}"))?;
        self.count(0, write.map(|()| "done").map_err(Refusal::from));
        self.count(1, receive.map(end));
        self.count(2, text.map(|()| "done"));
        Ok(())
    }

    fn try_text(&mut self, random: &mut Random, kind: usize) -> Result<(), String> {
        let (_, make) = TEXT_KINDS[kind];
        let text = make(random);
        let from_text = FromText::random(random, text);
        let answer = from_text.compare(random);
        let answer = answer.map_err(|told| format!("{told}\n{from_text:?}"))?;
        self.count(3, answer.map(|()| "done"));
        Ok(())
    }

    fn try_plan(&mut self, random: &mut Random, kind: usize) -> Result<(), String> {
        let (_, make) = PLAN_KINDS[kind];
        let file = make(random);
        let lists = PlanLists::random(random, &file);
        let written = lists.compare(random);
        let written = written.map_err(|told| format!("{told}\n{lists:?}"))?;
        let pack = PlanPack::of_file(random, &file);
        self.try_plan_pack(random, &pack)?;
        let file = PlanFile::random(random, file);
        let read = file.compare(random);
        let read = read.map_err(|told| format!("{told}\n{file:?}"))?;
        self.count(5, read.map(|_| "done"));
        self.count(6, written.map(|()| "done"));
        Ok(())
    }

    fn try_plan_pack(&mut self, random: &mut Random, pack: &PlanPack) -> Result<(), String> {
        let shown = pack.compare(random);
        let shown = shown.map_err(|told| format!("{told}\n{pack:?}"))?;
        self.count(4, shown.map(|(received, _)| end(received)));
        Ok(())
    }

    fn count(&mut self, call: usize, answer: Result<&str, Refusal>) {
        let answer = match answer {
            Ok(done) => done.into(),
            Err(Refusal { number, .. }) => format!("refused {number:2}"),
        };
        self.answers.entry(answer).or_default()[call] += 1;
    }

    fn print(&self) {
        println!("| packs, texts and plans | number |\n|---|---|");
        for (kind, number) in &self.kinds {
            println!("| {} | {number} |", kind.name());
        }
        println!("\n| answer | {} |", CALLS.join(" | "));
        println!("|---|{}", "---|".repeat(CALLS.len()));
        for (answer, numbers) in &self.answers {
            let numbers = numbers.map(|number| number.to_string());
            println!("| {answer} | {} |", numbers.join(" | "));
        }
        println!();
    }
}

/// How a reception ended.
fn end(received: Received) -> &'static str {
    match (received.outcome, received.conflicts) {
        (Outcome::File { .. }, 0) => "file",
        (Outcome::File { .. }, _) => "file, with conflicts",
        (Outcome::Left { .. }, 0) => "left",
        (Outcome::Left { .. }, _) => "left, with conflicts",
    }
}
