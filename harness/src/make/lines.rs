//! A chart's lines: what stands deeper belongs to the line above it.

use super::scan::{tokens, Token};
use super::Error;

pub struct Line {
    pub number: usize,
    pub indent: usize,
    pub tokens: Vec<Token>,
}

/// All lines that say something.
pub fn lines(text: &str) -> Result<Vec<Line>, Error> {
    let mut lines = Vec::new();
    for (i, line) in text.lines().enumerate() {
        let number = i + 1;
        let indent = line.bytes().take_while(|b| *b == b' ').count();
        if line[indent..].starts_with('\t') {
            return Err(Error::expected(number, "spaces before the first word", "a tab"));
        }
        let tokens = tokens(line, number)?;
        if !tokens.is_empty() {
            lines.push(Line { number, indent, tokens });
        }
    }
    Ok(lines)
}
