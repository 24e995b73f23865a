//! The chart language: the text that `show` prints, written by hand (samples/README.md describes it).

mod define;
mod exprs;
mod lines;
mod scan;

use crate::encode::encode;
use crate::package::Package;
use std::fmt;

/// What is wrong with a chart, and where.
#[derive(Debug, Clone, PartialEq)]
pub struct Error {
    pub line: usize,
    pub says: String,
}

impl Error {
    fn expected(line: usize, expected: &str, found: &str) -> Error {
        Error { line, says: format!("expected {expected}, found {found}") }
    }
}

impl fmt::Display for Error {
    fn fmt(&self, f: &mut fmt::Formatter) -> fmt::Result {
        write!(f, "line {}: {}", self.line, self.says)
    }
}

/// The package that a chart describes.
pub fn package(text: &str) -> Result<Package, Error> {
    let mut package = define::package(lines::lines(text)?)?;
    // Names are numbered by first use when the package is written.
    package.old = 0;
    Ok(package)
}

/// The pack of a chart.
pub fn pack(text: &str) -> Result<Vec<u8>, Error> {
    let last = text.lines().count();
    let says = "the pack would be longer than 65,536 bytes, or a name than 255".to_string();
    encode(&package(text)?).map_err(|_| Error { line: last, says })
}
