//! Reports, and the lines of a show or an audit.

use crate::line::{Entry, Line, UnknownLine};
use crate::sys::moveledger_bytes_free;
use crate::text::Owned;
use std::fmt;

/// The lines of answered records, each ended by a line feed, as `moveledger apply` prints them.
pub struct Report(pub(crate) Owned);

impl Report {
    /// A report without lines.
    pub fn new() -> Report {
        Report(Owned::new())
    }

    /// All its text.
    pub fn as_str(&self) -> &str {
        self.0.as_str()
    }

    /// Its text as bytes.
    pub fn as_bytes(&self) -> &[u8] {
        self.0.as_bytes()
    }

    /// Its lines as text, without their ends.
    pub fn lines(&self) -> std::str::Lines<'_> {
        self.as_str().lines()
    }

    /// Its lines, read. Where memory ran out within a show or an audit the last line may be unknown.
    pub fn parsed(&self) -> impl Iterator<Item = Result<Line<'_>, UnknownLine<'_>>> {
        self.lines().map(Line::parse)
    }

    /// Takes all lines out.
    pub fn clear(&mut self) {
        // SAFETY: these are bytes that the library gave, or none.
        unsafe { moveledger_bytes_free(self.0.raw()) }
    }
}

impl Default for Report {
    fn default() -> Report {
        Report::new()
    }
}

impl fmt::Display for Report {
    fn fmt(&self, f: &mut fmt::Formatter<'_>) -> fmt::Result {
        f.write_str(self.as_str())
    }
}

impl fmt::Debug for Report {
    fn fmt(&self, f: &mut fmt::Formatter<'_>) -> fmt::Result {
        f.debug_list().entries(self.lines()).finish()
    }
}

/// The lines of a show or an audit, each ended by a line feed, without numbers.
pub struct Entries(pub(crate) Owned);

impl Entries {
    /// All its text.
    pub fn as_str(&self) -> &str {
        self.0.as_str()
    }

    /// Its lines, read.
    pub fn parsed(&self) -> impl Iterator<Item = Result<Entry<'_>, UnknownLine<'_>>> {
        self.as_str().lines().map(Entry::parse)
    }
}

impl fmt::Display for Entries {
    fn fmt(&self, f: &mut fmt::Formatter<'_>) -> fmt::Result {
        f.write_str(self.as_str())
    }
}

impl fmt::Debug for Entries {
    fn fmt(&self, f: &mut fmt::Formatter<'_>) -> fmt::Result {
        f.debug_list().entries(self.as_str().lines()).finish()
    }
}
