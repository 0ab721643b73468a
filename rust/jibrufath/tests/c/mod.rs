//! Programs in C over the header and the archive, for tests that run them.

use std::path::{Path, PathBuf};
use std::process::Command;

pub fn repository() -> PathBuf {
    Path::new(env!("CARGO_MANIFEST_DIR"))
        .ancestors()
        .nth(2)
        .expect("the package is two folders below the repository")
        .to_path_buf()
}

/// Compiles a source of the repository to a program of this name, with these words for the compiler besides.
pub fn compile(name: &str, source: &str, besides: &[&str]) -> PathBuf {
    let repository = repository();
    let program = Path::new(env!("CARGO_TARGET_TMPDIR")).join(name);
    let compiled = Command::new("cc")
        .args(["-std=c99", "-Wall", "-Wextra", "-Werror", "-pedantic", "-I"])
        .arg(repository.join("include"))
        .args(besides)
        .arg(repository.join(source))
        .arg(repository.join("target/archives/x86-64/libjibrufath.a"))
        .arg("-o")
        .arg(&program)
        .status()
        .expect("a C compiler is installed");
    assert!(compiled.success(), "{name} compiles");
    program
}
