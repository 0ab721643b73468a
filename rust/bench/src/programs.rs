//! Encoding beside zfec and par2, which are run as programs on as much data and with the same share of redundancy.
//!
//! Their times are far above all others, so that they have no bars in the drawing.

use std::error::Error;
use std::fs;
use std::io::ErrorKind;
use std::process::{Command, Stdio};
use std::time::Duration;

use jibrufath::Refusal;
use reference::random::Random;

use crate::calls::{Calls, ENCODE};
use crate::folder::Folder;
use crate::measure::{self, Time, milliseconds, over};
use crate::{REFERENCE_SET, clock};

/// Each program is measured so often, and its least time taken.
const ROUNDS: usize = 3;

/// Source blocks of zfec, which takes 256 blocks at most with the parity; here the share of redundancy comes out nearly exact.
const ZFEC_BLOCKS: usize = 216;

/// Source blocks of par2; by default it takes as many.
const PAR2_BLOCKS: usize = 2000;

/// The Python that Debian's modules belong to, also where another one comes first in the search path.
const PYTHON: &str = "/usr/bin/python3";

/// Prints the least processor seconds of an encode by zfec, or nothing where there is no zfec.
const ZFEC: &str = "
import os, sys, time
try:
    import zfec
except ImportError:
    sys.exit()
rounds, k, m, size = map(int, sys.argv[1:])
data = [os.urandom(size) for _ in range(k)]
encoder = zfec.Encoder(k, m)
times = []
for _ in range(rounds):
    start = time.process_time()
    coded = encoder.encode(data)
    times.append(time.process_time() - start)
assert zfec.Decoder(k, m).decode(coded[m - k:], range(m - k, m)) == data
print(min(times))
";

/// The least times of memcpy and of our encode, which every row is compared with.
struct Table {
    memcpy: Duration,
    ours: Time,
}

/// Prints the table.
pub fn table() -> Result<(), Box<dyn Error>> {
    let data_len = REFERENCE_SET.capacity()?;
    println!(
        "\
Encode of {data_len} random bytes by programs, in one thread, with as much parity as 69 × 69 × 25 has: {:.1} % of the data.
zfec: processor time of Encoder.encode alone, in Python, from blocks in memory. par2: processor time, user and system, of the
whole program, which also reads its file, hashes it and writes the parity to a file. Both: minimum of {ROUNDS}.
They restore the data from any blocks that are as many as the data's: more than a cube promises, for more work.

| program | what it does | milliseconds | over memcpy | over ours |
|---|---|---|---|---|",
        parity(1000)? as f64 / 10.0
    );
    let table = Table::new()?;
    table.print("memcpy", "copies the cube", table.memcpy);
    table.print("ours", "encodes the cube from the data", table.ours.sse2);
    if let Some(time) = table.ours.avx2 {
        table.print("ours, AVX2", "the same", time);
    }
    let blocks = |count: usize| -> Result<String, Refusal> {
        Ok(format!("{} parity blocks from {count}", parity(count)?))
    };
    match zfec()? {
        Some(time) => table.print("zfec", &blocks(ZFEC_BLOCKS)?, time),
        None => print_missing("zfec", "python3-zfec"),
    }
    match par2()? {
        Some(time) => table.print("par2", &blocks(PAR2_BLOCKS)?, time),
        None => print_missing("par2", "par2"),
    }
    Ok(())
}

fn print_missing(program: &str, package: &str) {
    println!("| {program} | not installed (Debian: {package}) | - | - | - |");
}

/// The parity blocks that so many source blocks need for the reference set's share of redundancy.
fn parity(blocks: usize) -> Result<usize, Refusal> {
    let data_cells = REFERENCE_SET.capacity()? / REFERENCE_SET.w;
    let parity_cells = REFERENCE_SET.cells()? - data_cells;
    Ok((blocks * parity_cells + data_cells / 2) / data_cells)
}

/// The least time of an encode by zfec, if it is installed.
fn zfec() -> Result<Option<Duration>, Box<dyn Error>> {
    let k = ZFEC_BLOCKS;
    let size = REFERENCE_SET.capacity()?.div_ceil(k);
    let numbers = [ROUNDS, k, k + parity(k)?, size].map(|number| number.to_string());
    let output = match Command::new(PYTHON)
        .args(["-c", ZFEC])
        .args(numbers)
        .output()
    {
        Err(error) if error.kind() == ErrorKind::NotFound => return Ok(None),
        output => output?,
    };
    if !output.status.success() {
        return Err(format!("zfec: {}", String::from_utf8_lossy(&output.stderr)).into());
    }
    match String::from_utf8(output.stdout)?.trim() {
        "" => Ok(None),
        seconds => Ok(Some(Duration::from_secs_f64(seconds.parse()?))),
    }
}

/// The least time of a run of par2, if it is installed.
fn par2() -> Result<Option<Duration>, Box<dyn Error>> {
    let data = Random::new(11).bytes(REFERENCE_SET.capacity()?);
    let mut least = Duration::MAX;
    for _ in 0..ROUNDS {
        let Some(time) = par2_once(&data)? else {
            return Ok(None);
        };
        least = least.min(time);
    }
    Ok(Some(least))
}

fn par2_once(data: &[u8]) -> Result<Option<Duration>, Box<dyn Error>> {
    let folder = Folder::new()?;
    fs::write(folder.0.join("data"), data)?;
    // par2 takes blocks in multiples of 4 bytes.
    let size = data.len().div_ceil(PAR2_BLOCKS).next_multiple_of(4);
    let mut command = Command::new("par2");
    command
        .args(["create", "-q", "-q", "-t1", "-T1", "-n1"])
        .args([format!("-s{size}"), format!("-c{}", parity(PAR2_BLOCKS)?)])
        .args(["parity.par2", "data"])
        .current_dir(&folder.0)
        // Even told to be silent, par2 prints an empty line.
        .stdout(Stdio::null());
    run(&mut command)
}

/// The processor time of a program that is run to its end, if it is installed.
pub fn run(command: &mut Command) -> Result<Option<Duration>, Box<dyn Error>> {
    let (status, time) = clock::time_of_children(|| command.status());
    match status {
        Err(error) if error.kind() == ErrorKind::NotFound => Ok(None),
        Err(error) => Err(error.into()),
        Ok(status) if status.success() => Ok(Some(time)),
        Ok(status) => Err(format!("{command:?}: {status}").into()),
    }
}

impl Table {
    /// Measures memcpy and our encode.
    fn new() -> Result<Table, jibrufath::Error> {
        let times = Calls::new(REFERENCE_SET)?.times(measure::ROUNDS, &[ENCODE]);
        Ok(Table {
            memcpy: times.memcpy,
            ours: times.work[0],
        })
    }

    fn print(&self, program: &str, what: &str, time: Duration) {
        println!(
            "| {program} | {what} | {:.1} | {:.2} | {:.2} |",
            milliseconds(time),
            over(time, self.memcpy),
            over(time, self.ours.sse2)
        );
    }
}
