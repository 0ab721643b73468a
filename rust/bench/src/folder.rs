//! A folder for the files that programs are given and write.

use std::path::PathBuf;
use std::{env, fs, process};

/// A folder for the files of one run, removed with all that is in it when the value goes.
pub struct Folder(pub PathBuf);

impl Folder {
    pub fn new() -> std::io::Result<Folder> {
        let path = env::temp_dir().join(format!("bench-{}", process::id()));
        fs::create_dir(&path)?;
        Ok(Folder(path))
    }
}

impl Drop for Folder {
    fn drop(&mut self) {
        if let Err(error) = fs::remove_dir_all(&self.0) {
            eprintln!("{}: {error}", self.0.display());
        }
    }
}
