//! The worked rows of the repository: inputs, and what is wanted of them. Each test takes some of what is here.
#![allow(dead_code)]

use std::fs;
use std::path::PathBuf;

/// What a row shows, what it gives, and what is wanted of that.
pub struct Row {
    pub shows: String,
    pub given: String,
    pub wanted: String,
}

/// A file of the repository.
pub fn of_repository(name: &str) -> PathBuf {
    PathBuf::from(concat!(env!("CARGO_MANIFEST_DIR"), "/../..")).join(name)
}

/// The rows of a text in one of the files of crates/moveledger_tests, or of moveledger_command_tests: `# what it shows`, and a line each
/// for what is given and what is wanted.
pub fn rows(file: &str, text: &str) -> Vec<Row> {
    let tests = if file == "rows.rt" { "moveledger_tests" } else { "moveledger_command_tests" };
    let file = of_repository(&format!("crates/{tests}/src/tests")).join(file);
    let source = fs::read_to_string(file).expect("the rows are there");
    let (_, behind) = source.split_once(&format!("const {text}: &str = r")).expect("the text is there");
    let (text, _) = behind.split_once("\";").or_else(|| behind.split_once("\"#;")).expect("the text ends");
    let rows: Vec<Row> = text.split("\n# ").skip(1).map(row).collect();
    assert!(!rows.is_empty());
    rows
}

fn row(text: &str) -> Row {
    let mut lines = text.lines().map(str::to_owned);
    let mut line = || lines.next().unwrap_or_default();
    Row { shows: line(), given: line(), wanted: line() }
}

/// Bytes of hexadecimal.
pub fn decoded(hexadecimal: &str) -> Vec<u8> {
    let digits: Vec<u8> =
        hexadecimal.chars().map(|digit| digit.to_digit(16).expect("a digit") as u8).collect();
    digits.chunks_exact(2).map(|pair| pair[0] << 4 | pair[1]).collect()
}

/// The records that bytes are, each with its kind and length; a cut one at the end is the last.
pub fn split(bytes: &[u8]) -> Vec<Vec<u8>> {
    let mut records = Vec::new();
    let mut rest = bytes;
    while !rest.is_empty() {
        let digits = rest[1..].iter().position(|byte| *byte < 128).map_or(rest.len() - 1, |at| at + 1);
        let low_first = rest[1..=digits].iter().enumerate();
        let length: usize = low_first.map(|(at, byte)| usize::from(byte & 127) << (7 * at)).sum();
        let (record, behind) = rest.split_at(rest.len().min(1 + digits + length));
        records.push(record.to_vec());
        rest = behind;
    }
    records
}

impl Row {
    /// Its records, one by one.
    pub fn records(&self) -> Vec<Vec<u8>> {
        self.given.split_whitespace().map(decoded).collect()
    }

    /// The report that is wanted, a line for each of its parts.
    pub fn report(&self) -> String {
        match self.wanted.as_str() {
            "" => String::new(),
            wanted => wanted.replace("; ", "\n") + "\n",
        }
    }
}
