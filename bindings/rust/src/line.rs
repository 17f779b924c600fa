//! What a line of a report says.

use crate::address::Address;
use std::fmt;
use std::str::FromStr;

/// What a line of a report says, with the number of its record.
#[derive(Clone, Copy, Debug, PartialEq, Eq)]
#[non_exhaustive]
pub enum Line<'a> {
    /// So many modules were published.
    Published { record: u64, modules: u64 },
    /// The record or its bundle fails this phase; nothing changed.
    Refused { record: u64, phase: u8 },
    /// The run was not begun, for this reason; nothing changed.
    Rejected { record: u64, reason: u8 },
    /// The run returned after so many steps.
    Returned { record: u64, steps: u64 },
    /// The run was given up after so many steps; nothing changed but the number of runs.
    Aborted { record: u64, abort: Abort, steps: u64 },
    /// The run used up its budget or its frames after so many steps; nothing changed but the number of runs.
    Exhausted { record: u64, what: Exhausted, steps: u64 },
    /// A line of a show or an audit.
    Entry { record: u64, entry: Entry<'a> },
}

/// Why a run was given up.
#[derive(Clone, Copy, Debug, PartialEq, Eq)]
#[non_exhaustive]
pub enum Abort {
    /// `Abort` with this code.
    Code(u64),
    /// A number that doesn't fit, or a divisor that is zero.
    Arithmetic,
    /// Something is stored already where a value was to go.
    Exists,
    /// Nothing is stored where a value was to be found.
    Missing,
}

/// What a run used up.
#[derive(Clone, Copy, Debug, PartialEq, Eq)]
pub enum Exhausted {
    Steps,
    Frames,
}

/// A line of a show or an audit.
#[derive(Clone, Copy, Debug, PartialEq, Eq)]
#[non_exhaustive]
pub enum Entry<'a> {
    /// A stored value: its fields with `,` between them in `{` and `}`, structs in structs likewise.
    At { address: Address, structure: Struct<'a>, value: &'a str },
    /// How many values of a struct are stored, at any depth, and how many were packed and unpacked in runs that returned.
    Count { structure: Struct<'a>, stored: u64, packed: u64, unpacked: u64 },
    /// The last line: how many there were before it.
    End { count: u64 },
    /// A whole show or audit as an object.
    Json(&'a str),
}

/// The name of a struct.
#[derive(Clone, Copy, Debug, PartialEq, Eq, PartialOrd, Ord, Hash)]
pub struct Struct<'a> {
    pub address: Address,
    pub module: &'a str,
    pub name: &'a str,
}

/// A line that isn't one of a report: the end of a report that was cut off, or a line that a later library writes.
#[derive(Clone, Copy, Debug, PartialEq, Eq)]
pub struct UnknownLine<'a>(pub &'a str);

impl<'a> Line<'a> {
    /// Reads a line, without its end.
    ///
    /// # Errors
    /// [`UnknownLine`] where it has no such form.
    pub fn parse(line: &'a str) -> Result<Line<'a>, UnknownLine<'a>> {
        read_line(line).ok_or(UnknownLine(line))
    }

    /// The number of its record.
    pub fn record(&self) -> u64 {
        match *self {
            Line::Published { record, .. }
            | Line::Refused { record, .. }
            | Line::Rejected { record, .. }
            | Line::Returned { record, .. }
            | Line::Aborted { record, .. }
            | Line::Exhausted { record, .. }
            | Line::Entry { record, .. } => record,
        }
    }
}

impl<'a> Entry<'a> {
    /// Reads a line of a show or an audit, without its end and its record's number.
    ///
    /// # Errors
    /// [`UnknownLine`] where it has no such form.
    pub fn parse(line: &'a str) -> Result<Entry<'a>, UnknownLine<'a>> {
        read_entry(line).ok_or(UnknownLine(line))
    }
}

/// A number as lines have it: digits alone.
fn number<N: FromStr>(word: &str) -> Option<N> {
    if word.bytes().all(|byte| byte.is_ascii_digit()) {
        word.parse().ok()
    } else {
        None
    }
}

/// Exactly so many words, with a blank between them.
fn words<const N: usize>(text: &str) -> Option<[&str; N]> {
    let mut parts = text.split(' ');
    let mut found = [""; N];
    for word in &mut found {
        *word = parts.next()?;
    }
    parts.next().is_none().then_some(found)
}

fn read_line(line: &str) -> Option<Line<'_>> {
    let (first, rest) = line.split_once(' ')?;
    let (word, behind) = rest.split_once(' ')?;
    let record = number(first)?;
    Some(match word {
        "published" => Line::Published { record, modules: number(behind)? },
        "refused" => Line::Refused { record, phase: number(behind)? },
        "rejected" => Line::Rejected { record, reason: number(behind)? },
        "returned" => Line::Returned { record, steps: number(behind)? },
        "aborted" => {
            let [kind, code, steps] = words(behind)?;
            Line::Aborted { record, abort: read_abort(kind, code)?, steps: number(steps)? }
        }
        "exhausted" => {
            let [what, steps] = words(behind)?;
            Line::Exhausted { record, what: read_exhausted(what)?, steps: number(steps)? }
        }
        _ => Line::Entry { record, entry: read_entry(rest)? },
    })
}

fn read_exhausted(what: &str) -> Option<Exhausted> {
    match what {
        "steps" => Some(Exhausted::Steps),
        "frames" => Some(Exhausted::Frames),
        _ => None,
    }
}

fn read_abort(kind: &str, code: &str) -> Option<Abort> {
    match (kind, number(code)?) {
        ("code", code) => Some(Abort::Code(code)),
        ("arith", 0) => Some(Abort::Arithmetic),
        ("exists", 0) => Some(Abort::Exists),
        ("missing", 0) => Some(Abort::Missing),
        _ => None,
    }
}

fn read_entry(line: &str) -> Option<Entry<'_>> {
    let (word, behind) = line.split_once(' ')?;
    Some(match word {
        "at" => {
            let [address, structure, value] = words(behind)?;
            Entry::At { address: address.parse().ok()?, structure: read_struct(structure)?, value }
        }
        "count" => read_count(behind)?,
        "end" => Entry::End { count: number(behind)? },
        "json" => Entry::Json(behind),
        _ => return None,
    })
}

fn read_count(behind: &str) -> Option<Entry<'_>> {
    let [structure, "stored", stored, "packed", packed, "unpacked", unpacked] = words(behind)? else {
        return None;
    };
    Some(Entry::Count {
        structure: read_struct(structure)?,
        stored: number(stored)?,
        packed: number(packed)?,
        unpacked: number(unpacked)?,
    })
}

fn read_struct(text: &str) -> Option<Struct<'_>> {
    let mut parts = text.split("::");
    let (address, module, name) = (parts.next()?.parse().ok()?, parts.next()?, parts.next()?);
    match parts.next() {
        None => Some(Struct { address, module, name }),
        Some(_) => None,
    }
}

impl fmt::Display for Struct<'_> {
    fn fmt(&self, f: &mut fmt::Formatter<'_>) -> fmt::Result {
        write!(f, "{}::{}::{}", self.address, self.module, self.name)
    }
}

impl fmt::Display for UnknownLine<'_> {
    fn fmt(&self, f: &mut fmt::Formatter<'_>) -> fmt::Result {
        write!(f, "not a line of a report: {:?}", self.0)
    }
}

impl std::error::Error for UnknownLine<'_> {}
