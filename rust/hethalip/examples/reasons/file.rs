//! The first two lines of a file as the command line program reads it.

use std::fs;

/// A table and a configuration.
pub struct Game {
    pub table: Vec<i64>,
    pub configuration: Vec<i64>,
}

/// Reads a file.
pub fn read(name: &str) -> Result<Game, String> {
    let bytes = fs::read(name).map_err(|error| {
        format!("{name}: {error}; give a file whose first line is a table and whose second is a configuration")
    })?;
    read_text(name, &String::from_utf8_lossy(&bytes))
}

/// Reads a file's text.
pub fn read_text(name: &str, text: &str) -> Result<Game, String> {
    let mut lines = text.split('\n');
    let mut next = |number: usize, what: &str| match lines.next() {
        Some(line) if !line.is_empty() => words(line, &format!("{name}, line {number}")),
        _ => Err(format!(
            "{name}, line {number}: empty; write the {what} there, as numbers with commas between them"
        )),
    };
    Ok(Game {
        table: next(1, "table")?,
        configuration: next(2, "configuration")?,
    })
}

/// The numbers of a line.
fn words(line: &str, place: &str) -> Result<Vec<i64>, String> {
    let numbers = line.split(',').enumerate();
    numbers
        .map(|(at, text)| word(text).ok_or_else(|| no_word(text, place, at + 1)))
        .collect()
}

/// A number that prints as it is written: no blanks, no plus, no leading zeros.
fn word(text: &str) -> Option<i64> {
    let word: i64 = text.parse().ok()?;
    (word.to_string() == text).then_some(word)
}

fn no_word(text: &str, place: &str, at: usize) -> String {
    format!(
        "{place}, number {at}: {text:?} is no word; write a decimal number that fits 64 bits, without blanks, plus and leading zeros"
    )
}
