//! The C side: the header and the wrapper declare what the library exports, and the programs in C compile, link and run.

mod c;

use std::fs;
use std::process::Command;

use crate::c::repository;

/// What examples/c/receive.c prints.
const RECEIVED: &str = include_str!("../../../examples/c/receive.out");

/// What examples/c/plan.c prints.
const PLANNED: &str = include_str!("../../../examples/c/plan.out");

/// The stack that each call may take, as the header says.
const STACK: &str = include_str!("../../../examples/c/stack.most");

/// What a program in examples/c prints.
fn printed(name: &str) -> String {
    let program = c::compile(name, &format!("examples/c/{name}.c"), &[]);
    let output = Command::new(&program).output().expect("the program runs");
    assert!(output.status.success(), "{name}: {}", output.status);
    String::from_utf8(output.stdout).expect("text")
}

#[test]
fn the_examples_run() {
    assert_eq!(printed("receive"), RECEIVED);
    assert_eq!(printed("plan"), PLANNED);
}

/// Lines that have a call and its bytes.
fn figures(text: &str) -> Vec<(&str, usize)> {
    let lines = text.lines().filter(|line| !line.starts_with('#'));
    lines
        .filter_map(|line| line.rsplit_once(' '))
        .map(|(call, bytes)| (call, bytes.parse().expect("a number")))
        .collect()
}

#[test]
fn the_stack_is_as_the_header_says() {
    let printed = printed("stack");
    let [taken, most] = [&printed, STACK].map(figures);
    assert_eq!(taken.len(), most.len(), "{printed}");
    for ((call, bytes), (name, most)) in taken.into_iter().zip(most) {
        assert!(call == name && bytes <= most, "{call}: {bytes} bytes");
    }
}

/// The sources of crates/jibrufath.
fn sources() -> Vec<String> {
    fs::read_dir(repository().join("crates/jibrufath/src"))
        .expect("the crate has sources")
        .map(|entry| fs::read_to_string(entry.expect("an entry").path()).expect("a source file"))
        .collect()
}

fn header() -> String {
    fs::read_to_string(repository().join("include/jibrufath.h")).expect("the header")
}

/// The calls that crates/jibrufath exports, as C declares them.
fn exported() -> Vec<String> {
    let mut exported: Vec<String> = sources()
        .iter()
        .flat_map(|source| after_each(source, "pub extern \"C\" fn "))
        .map(|signature| prototype(&signature))
        .collect();
    exported.sort();
    exported
}

#[test]
fn the_header_declares_what_is_exported() {
    let header = header().replace('\n', " ");
    let mut declared: Vec<String> = header.split(';').filter_map(declaration).collect();
    declared.sort();
    assert_eq!(declared, exported());
    assert_eq!(declared.len(), 25);
}

#[test]
fn the_wrapper_declares_what_is_exported() {
    let (_, wrapper) = include_str!("../src/ffi.rs")
        .split_once("\ncalls! {\n")
        .expect("the list of calls");
    let behind = wrapper.split(" fn ").skip(1);
    let mut declared: Vec<String> = behind
        .map(|text| text.split(";\n").next().unwrap_or(text))
        .map(declaration_in_c)
        .collect();
    declared.sort();
    assert_eq!(declared, exported());
}

/// The lines that stand before those with which something begins.
fn lines_before(text: &str, begins: impl Fn(&str) -> bool) -> Vec<String> {
    let lines: Vec<&str> = text.lines().collect();
    let pairs = lines.windows(2).filter(|pair| begins(pair[1]));
    pairs.map(|pair| pair[0].to_string()).collect()
}

#[test]
fn every_call_has_its_comment() {
    let declares = |line: &str| line.starts_with("uint64_t ") || line.starts_with("uint8_t ");
    let in_the_header = lines_before(&header(), declares);
    assert_eq!(in_the_header.len(), exported().len());
    assert!(in_the_header.iter().all(|line| line.ends_with("*/")));
    let exports = |line: &str| line == "#[unsafe(no_mangle)]";
    let sources = sources();
    let in_the_sources = sources.iter().flat_map(|s| lines_before(s, exports));
    let in_the_sources: Vec<String> = in_the_sources.collect();
    assert_eq!(in_the_sources.len(), exported().len());
    assert!(in_the_sources.iter().all(|line| line.starts_with("//")));
}

#[test]
fn the_header_has_the_version_of_the_wrapper() {
    for (name, number) in [
        ("MAJOR", env!("CARGO_PKG_VERSION_MAJOR")),
        ("MINOR", env!("CARGO_PKG_VERSION_MINOR")),
        ("PATCH", env!("CARGO_PKG_VERSION_PATCH")),
    ] {
        let define = format!("#define JIBRUFATH_VERSION_{name} {number}");
        assert!(header().lines().any(|line| line == define), "{define}");
    }
}

/// The text behind each place where the words stand, up to the line of the contract.
fn after_each(source: &str, words: &str) -> Vec<String> {
    let behind = source.split(words).skip(1);
    behind
        .map(|text| text.split("ensures").next().unwrap_or(text).to_string())
        .collect()
}

/// An exported signature as C declares it: a slice is a pointer and a length.
fn prototype(signature: &str) -> String {
    declared(signature, |name, kind| match kind {
        "&[u8]" => format!("const uint8_t *{name}, uint64_t {name}_len"),
        "&mut [u8]" => format!("uint8_t *{name}, uint64_t {name}_len"),
        "&mut [u64; 2]" => format!("uint64_t {name}[2]"),
        "&mut [u64; 3]" => format!("uint64_t {name}[3]"),
        "&mut [u64; 16]" => format!("uint64_t {name}[16]"),
        "usize" => format!("uint64_t {name}"),
        _ => format!("{} {name}", number(kind)),
    })
}

/// A signature of the wrapper as C declares it.
fn declaration_in_c(signature: &str) -> String {
    declared(signature, |name, kind| match kind {
        "*const u8" => format!("const uint8_t *{name}"),
        "*mut u8" => format!("uint8_t *{name}"),
        "*mut [u64; 2]" => format!("uint64_t {name}[2]"),
        "*mut [u64; 3]" => format!("uint64_t {name}[3]"),
        "*mut [u64; 16]" => format!("uint64_t {name}[16]"),
        _ => format!("{} {name}", number(kind)),
    })
}

/// A signature with its parameters as C declares them.
fn declared(signature: &str, parameter: impl Fn(&str, &str) -> String) -> String {
    let (name, rest) = signature.split_once('(').expect("a list of parameters");
    let (parameters, result) = rest.split_once(')').expect("the list's end");
    let parameters: Vec<String> = parameters
        .split(',')
        .filter_map(|text| text.trim().split_once(": "))
        .map(|(name, kind)| parameter(name, kind))
        .collect();
    let result = number(result.trim_start_matches([' ', '-', '>']).trim());
    format!("{result} {name}({})", parameters.join(", "))
}

/// A type of numbers in C.
fn number(kind: &str) -> &str {
    match kind {
        "u64" => "uint64_t",
        "u8" => "uint8_t",
        other => panic!("{other} has no place in the header"),
    }
}

/// A declaration of the header on one line; none if the text before a semicolon is something else.
fn declaration(text: &str) -> Option<String> {
    let start = text
        .rfind("uint64_t jibrufath_")
        .or_else(|| text.rfind("uint8_t jibrufath_"))?;
    let words: Vec<&str> = text[start..].split_whitespace().collect();
    let line = words.join(" ").replace("( ", "(");
    line.ends_with(')').then_some(line)
}
