//! Writing and reading the text of a pack, beside xxd, which is run as a program on the same bytes.

use std::error::Error;
use std::fs::{self, File};
use std::process::{Command, Stdio};
use std::time::Duration;

use jibrufath::text::{read_text, to_text, write_text};
use jibrufath::{Shape, write};
use reference::random::Random;

use crate::folder::Folder;
use crate::measure::{self, Time, entry, least_times, milliseconds, over};
use crate::{REFERENCE_SET, programs};

/// xxd is measured so often each way, and its least time taken.
const ROUNDS: usize = 3;

/// The lengths along axes 1 and 2; axis 3 and W are those of the reference set, which is the last.
const LENGTHS: [usize; 4] = [9, 18, 35, REFERENCE_SET.l1];

/// A pack with every packet, its text, and the memory that each is written to from the other.
struct Twins {
    pack: Vec<u8>,
    text: Vec<u8>,
    pack_back: Vec<u8>,
    text_back: Vec<u8>,
}

/// The least times of both ways.
struct Times {
    write: Time,
    read: Time,
}

/// Prints how the time grows with the pack, and both ways beside xxd for the largest.
pub fn table() -> Result<(), Box<dyn Error>> {
    println!(
        "\
Text of packs with every packet, L × L × 25, W 397: milliseconds, and nanoseconds for each byte of the pack.

| L | megabytes of the pack | write_text | read_text | write_text, ns a byte | read_text, ns a byte | write_text, AVX2 | read_text, AVX2 |
|---|---|---|---|---|---|---|---|"
    );
    for length in LENGTHS {
        let Shape { l3, w, .. } = REFERENCE_SET;
        let mut twins = Twins::new(Shape::new(length, length, l3, w))?;
        let times = twins.measure();
        let bytes = twins.pack.len() as f64;
        let a_byte = |time: Duration| time.as_secs_f64() * 1e9 / bytes;
        println!(
            "| {length} | {:.1} | {:.2} | {:.2} | {:.2} | {:.2} | {} | {} |",
            bytes / 1e6,
            milliseconds(times.write.sse2),
            milliseconds(times.read.sse2),
            a_byte(times.write.sse2),
            a_byte(times.read.sse2),
            entry(times.write.avx2.map(milliseconds)),
            entry(times.read.avx2.map(milliseconds))
        );
        if length == REFERENCE_SET.l1 {
            print_beside_xxd(&twins.pack, &times)?;
        }
    }
    Ok(())
}

/// The last pack, by xxd: its hexadecimal digits, 60 a line, and the bytes out of them.
fn print_beside_xxd(pack: &[u8], times: &Times) -> Result<(), Box<dyn Error>> {
    println!(
        "\
\nThe last of these packs beside xxd, on the same bytes: processor time, user and system, of the whole program, which reads a file
and writes to /dev/null; minimum of {ROUNDS}. Ours reads and writes memory.

| program | what it does | milliseconds | over ours |
|---|---|---|---|"
    );
    let folder = Folder::new()?;
    let [bytes, digits] = ["bytes", "digits"].map(|name| folder.0.join(name));
    fs::write(&bytes, pack)?;
    let mut to_digits = Command::new("xxd");
    to_digits.arg("-p").arg(&bytes).stdout(Stdio::null());
    let mut to_bytes = Command::new("xxd");
    to_bytes.args(["-r", "-p"]).arg(&digits);
    to_bytes.stdout(Stdio::null());
    let [write, read] = [times.write.sse2, times.read.sse2];
    print_row("write_text", "a pack to its text", write, write);
    if let Some(time) = least(&mut to_digits)? {
        print_row("xxd -p", "bytes to digits", time, write);
        to_digits.stdout(File::create(&digits)?).status()?;
    } else {
        println!("| xxd -p | not installed (Debian: xxd) | - | - |");
    }
    print_row("read_text", "a text to its pack", read, read);
    match least(&mut to_bytes)? {
        Some(time) => print_row("xxd -r -p", "digits to bytes", time, read),
        None => println!("| xxd -r -p | not installed (Debian: xxd) | - | - |"),
    }
    Ok(())
}

/// The least time of a program, if it is installed.
fn least(command: &mut Command) -> Result<Option<Duration>, Box<dyn Error>> {
    let mut least = Duration::MAX;
    for _ in 0..ROUNDS {
        let Some(time) = programs::run(command)? else {
            return Ok(None);
        };
        least = least.min(time);
    }
    Ok(Some(least))
}

fn print_row(program: &str, what: &str, time: Duration, ours: Duration) {
    println!(
        "| {program} | {what} | {:.1} | {:.2} |",
        milliseconds(time),
        over(time, ours)
    );
}

impl Twins {
    /// The pack of a random file, and its text.
    fn new(shape: Shape) -> Result<Twins, jibrufath::Error> {
        let file = Random::new(12).bytes(shape.file_bytes()?);
        let pack = write(shape, &file)?;
        let text = to_text(&pack)?.into_bytes();
        Ok(Twins {
            pack_back: vec![1; pack.len()],
            text_back: vec![1; text.len()],
            pack,
            text,
        })
    }

    /// Measures both ways, and looks that they undo each other.
    fn measure(&mut self) -> Times {
        let least = least_times(
            measure::ROUNDS,
            self,
            &[
                &|s: &mut Twins| write_text(&s.pack, &mut s.text_back).expect("a whole pack"),
                &|s: &mut Twins| read_text(&s.text, &mut s.pack_back).expect("a whole text"),
            ],
        );
        assert!(self.text_back == self.text && self.pack_back == self.pack);
        Times {
            write: least[0],
            read: least[1],
        }
    }
}
