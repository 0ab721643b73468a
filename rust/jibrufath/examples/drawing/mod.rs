//! A drawing as SVG, for the examples that make one: the page, words on it, and where it is kept.

use std::env;
use std::error::Error;
use std::fs;
use std::path::{Path, PathBuf};

/// The folder of the repository.
pub fn repository() -> &'static Path {
    let package = Path::new(env!("CARGO_MANIFEST_DIR"));
    package.ancestors().nth(2).unwrap_or(package)
}

/// Keeps a drawing where the command's first word says, else under this name in target, and gives where that is.
pub fn keep(drawing: &str, name: &str) -> Result<PathBuf, Box<dyn Error>> {
    let path = match env::args_os().nth(1) {
        Some(path) => PathBuf::from(path),
        None => repository().join("target").join(name),
    };
    fs::write(&path, drawing)?;
    let inside = path.strip_prefix(repository()).unwrap_or(&path);
    Ok(inside.to_path_buf())
}

/// A page of this size, with what is drawn on it.
pub fn page(width: usize, height: usize, drawn: &str) -> String {
    format!(
        "<svg xmlns=\"http://www.w3.org/2000/svg\" viewBox=\"0 0 {width} {height}\" width=\"{width}\" height=\"{height}\" \
         font-family=\"Helvetica, Arial, sans-serif\" font-size=\"13\" fill=\"#3b4754\">\n\
         <rect width=\"{width}\" height=\"{height}\" rx=\"8\" fill=\"#ffffff\"/>\n\
         {drawn}</svg>\n"
    )
}

pub fn text(x: usize, y: usize, attributes: &str, words: &str) -> String {
    format!("<text x=\"{x}\" y=\"{y}\" {attributes}>{words}</text>\n")
}
