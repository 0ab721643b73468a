//! Keeps a text beside a pack, and makes the pack from the text again.
//!
//! ```text
//! text_twin PACK              writes PACK.txt, the text of the air pack PACK
//! text_twin --back PACK.txt   writes PACK, the air pack of the text PACK.txt
//! ```
//!
//! The text has a line for the shape and one for each packet, with the bytes in hexadecimal, so that two packs can be compared with
//! `diff`, a packet found with `grep`, and a line put right by hand. A PACK.txt that is there already is written again; a PACK is
//! not, so that a text never takes a pack's place unasked.
//!
//! Whatever the file holds, the program ends in the new file or in one line that says what is wrong with it: for a text the first
//! line that breaks the form, for a pack or a text the first packet that names a cell outside the cube.
//!
//! ```sh
//! cargo run --release --manifest-path rust/Cargo.toml -p jibrufath --example text_twin -- job.pack
//! cargo run --release --manifest-path rust/Cargo.toml -p jibrufath --example text_twin -- --back job.pack.txt
//! ```

use std::env;
use std::error::Error;
use std::ffi::OsString;
use std::fs::{self, File};
use std::io::Write;
use std::path::{Path, PathBuf};
use std::process::ExitCode;

use jibrufath::text::{from_text, to_text};

/// The ending that a text's name has behind the pack's.
const ENDING: &str = ".txt";

fn main() -> ExitCode {
    let words: Vec<OsString> = env::args_os().skip(1).collect();
    let (path, written) = match &words[..] {
        [option, text] if option == "--back" => (text, write_pack(Path::new(text))),
        [pack] if pack != "--back" => (pack, write_text(Path::new(pack))),
        _ => {
            eprintln!("usage: text_twin PACK | text_twin --back PACK{ENDING}");
            return ExitCode::from(2);
        }
    };
    match written {
        Ok(written) => {
            println!("{}", written.display());
            ExitCode::SUCCESS
        }
        Err(error) => {
            eprintln!("{}: {error}", Path::new(path).display());
            ExitCode::FAILURE
        }
    }
}

/// Writes the text of a pack beside it, over an older one, and gives its path.
fn write_text(pack: &Path) -> Result<PathBuf, Box<dyn Error>> {
    let text = to_text(&fs::read(pack)?)?;
    let mut path = pack.as_os_str().to_owned();
    path.push(ENDING);
    fs::write(&path, text)?;
    Ok(path.into())
}

/// Writes the pack of a text beside it, if there is none, and gives its path.
fn write_pack(text: &Path) -> Result<PathBuf, Box<dyn Error>> {
    let name = text.to_str().and_then(|name| name.strip_suffix(ENDING));
    let path = PathBuf::from(name.ok_or("the name of a text ends in .txt")?);
    let pack = from_text(&fs::read(text)?)?;
    let file = File::create_new(&path);
    file.map_err(|error| format!("{}: {error}", path.display()))?
        .write_all(&pack)?;
    Ok(path)
}
