//! crates/plan relies on the receiver's contract alone: of the crate `receiver` it cites nothing but its specs, and calls nothing
//! but `receive_pack`.

use std::fs;
use std::path::{Path, PathBuf};

/// The names of the crate `receiver` that sources may use: the call, and the types of its answer.
const NAMES: [&str; 4] = ["receive_pack", "Received", "Ending", "Counts"];

/// The sources of crates/plan, in Rattle and in the logic.
fn sources() -> Vec<PathBuf> {
    let package = Path::new(env!("CARGO_MANIFEST_DIR"));
    let mut folders = vec![package.join("../../crates/plan")];
    let mut sources = Vec::new();
    while let Some(folder) = folders.pop() {
        let entries = fs::read_dir(&folder);
        for entry in entries.unwrap_or_else(|error| panic!("{}: {error}", folder.display())) {
            let path = entry.expect("an entry").path();
            match path.extension() {
                // What rt makes of the crate, and of those it stands on.
                _ if path.ends_with("out") => {}
                _ if path.is_dir() => folders.push(path),
                Some(ending) if ending == "rt" || ending == "antt" => sources.push(path),
                _ => {}
            }
        }
    }
    sources
}

/// What stands behind each place where the words stand.
fn behind<'a>(source: &'a str, words: &str) -> Vec<&'a str> {
    let places = source.match_indices(words);
    places.map(|(at, _)| &source[at + words.len()..]).collect()
}

#[test]
fn of_the_receiver_only_its_contract() {
    let mut cited = 0;
    for path in sources() {
        let source = fs::read_to_string(&path).expect("a source file");
        for cites in behind(&source, "Rattle.receiver.") {
            let specs = cites.starts_with("specs.") && !cites.starts_with("specs.Inner");
            assert!(specs, "{}: Rattle.receiver.{cites:.40}", path.display());
            cited += 1;
        }
        for uses in behind(&source, "receiver::") {
            // One name, or several in braces.
            let list = uses.strip_prefix('{').and_then(|l| l.split_once('}'));
            let names = list.map_or(uses, |(names, _)| names).split(", ");
            for name in names.take(if list.is_some() { usize::MAX } else { 1 }) {
                let end = name.find(|c: char| c != '_' && !c.is_alphanumeric());
                let name = &name[..end.unwrap_or(name.len())];
                assert!(
                    NAMES.contains(&name),
                    "{}: receiver::{name}",
                    path.display()
                );
            }
        }
    }
    assert!(cited > 0, "the receiver's specs are cited");
}
