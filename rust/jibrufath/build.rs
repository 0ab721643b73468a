//! Links the static library, proved and built by targets/build where its sources are newer, or prebuilt.
//!
//! The variable JIBRUFATH_ARCHIVES names a folder of prebuilt archives, laid out as targets/build lays out target/archives; then nothing of
//! the Rattle toolchain is needed.

use std::env;
use std::fs;
use std::path::{Path, PathBuf};
use std::process::Command;
use std::time::SystemTime;

/// The variable that names a folder of prebuilt archives.
const PREBUILT: &str = "JIBRUFATH_ARCHIVES";

/// An archive: the folder of its target, and its name for the linker.
type Archive = (&'static str, &'static str);

fn main() {
    println!("cargo:rustc-check-cfg=cfg(avx2)");
    println!("cargo:rerun-if-env-changed={PREBUILT}");
    let archives = archives();
    let folder = match env::var_os(PREBUILT) {
        Some(folder) => prebuilt(folder.into()),
        None => built(&archives),
    };
    for (target, name) in archives {
        let folder = folder.join(target);
        let archive = folder.join(format!("lib{name}.a"));
        assert!(archive.exists(), "there is no {}", archive.display());
        println!("cargo:rerun-if-changed={}", archive.display());
        println!("cargo:rustc-link-search=native={}", folder.display());
        println!("cargo:rustc-link-lib=static={name}");
    }
}

/// The folder of prebuilt archives. Cargo runs this script in another folder than the one in which a relative path was meant.
fn prebuilt(folder: PathBuf) -> PathBuf {
    assert!(
        folder.is_absolute(),
        "{PREBUILT} is {}, which is no absolute path",
        folder.display()
    );
    folder
}

/// The archives for the processor that the crate is compiled for.
fn archives() -> Vec<Archive> {
    let arch = env::var("CARGO_CFG_TARGET_ARCH").expect("cargo names the processor");
    let system = env::var("CARGO_CFG_TARGET_OS").expect("cargo names the system");
    match (arch.as_str(), system.as_str()) {
        ("x86_64", "linux") if env::var_os("CARGO_FEATURE_BASELINE").is_some() => {
            vec![("x86-64", "jibrufath")]
        }
        ("x86_64", "linux") => {
            println!("cargo:rustc-cfg=avx2");
            vec![("x86-64", "jibrufath"), ("x86-64-v3", "jibrufath_v3")]
        }
        ("aarch64", "linux") => vec![("aarch64", "jibrufath")],
        ("riscv64", "linux") => vec![("riscv64", "jibrufath")],
        _ => panic!("there is no archive for {arch} {system}"),
    }
}

/// The folder of archives that are no older than their sources: builds those that are.
fn built(archives: &[Archive]) -> PathBuf {
    let package = env::var("CARGO_MANIFEST_DIR").expect("cargo names the package's folder");
    let repository = Path::new(&package)
        .ancestors()
        .nth(2)
        .expect("the package is two folders below the repository");
    let folder = repository.join("target/archives");
    let sources = ["crates", "crates.txt", "targets/build"].map(|name| repository.join(name));
    for source in &sources {
        println!("cargo:rerun-if-changed={}", source.display());
    }
    let newest_source = sources.iter().map(|path| newest(path)).max().flatten();
    let old = archives.iter().any(|(target, name)| {
        let made = changed(&folder.join(target).join(format!("lib{name}.a")));
        made.is_none() || made < newest_source
    });
    if old {
        build(repository, archives);
    }
    folder
}

/// Proves the library, and builds these archives.
fn build(repository: &Path, archives: &[Archive]) {
    let script = repository.join("targets/build");
    let status = Command::new(&script)
        .args(archives.iter().map(|(target, _)| target))
        .status();
    let status = status.unwrap_or_else(|fault| panic!("{}: {fault}", script.display()));
    assert!(
        status.success(),
        "targets/build failed. With prebuilt archives it is not needed: {PREBUILT} names their folder"
    );
}

/// When a file was last changed; none if there is no such file.
fn changed(path: &Path) -> Option<SystemTime> {
    fs::metadata(path).and_then(|data| data.modified()).ok()
}

/// The last change of a file, or of any file in a folder and below, but for what rt makes of a crate: its folder `out`, with which the
/// crate's own folder changes.
fn newest(path: &Path) -> Option<SystemTime> {
    if path.ends_with("out") {
        return None;
    }
    let own = if path.join("src").is_dir() {
        None
    } else {
        changed(path)
    };
    let inside = fs::read_dir(path).into_iter().flatten().flatten();
    inside
        .map(|entry| newest(&entry.path()))
        .chain([own])
        .max()
        .flatten()
}
