//! What a ledger answers to questions by names and addresses.

use crate::address::Address;
use crate::error::Error;
use crate::ledger::{Form, Ledger};
use crate::line::{Entry, Struct};
use crate::report::Entries;
use crate::text::Owned;
use std::fmt;

/// At how many keys each page of [`Ledger::values`] looks.
const KEYS: usize = 1024;

/// A value of a struct that is stored at an address.
#[derive(Clone, Debug, PartialEq, Eq)]
pub struct Value {
    pub address: Address,
    /// Its fields with `,` between them in `{` and `}`, structs in structs likewise.
    pub text: String,
}

/// A page of the values of a struct.
pub struct Page {
    /// The lines of a show of these values alone.
    pub entries: Entries,
    /// From which address the next page goes on; None where no value is left.
    pub next: Option<Address>,
}

impl Page {
    /// Its values, if it was asked for as text.
    pub fn values(&self) -> impl Iterator<Item = Value> + '_ {
        self.entries.parsed().filter_map(|entry| match entry {
            Ok(Entry::At { address, value, .. }) => Some(Value { address, text: value.to_owned() }),
            _ => None,
        })
    }
}

impl fmt::Debug for Page {
    fn fmt(&self, f: &mut fmt::Formatter<'_>) -> fmt::Result {
        f.debug_struct("Page").field("entries", &self.entries).field("next", &self.next).finish()
    }
}

/// The values of a struct by ascending address. They are asked for page by page, so that few of them stand in memory. After an error
/// none follows.
pub struct Values<'a> {
    ledger: &'a Ledger,
    name: Struct<'a>,
    from: Option<Address>,
    page: std::vec::IntoIter<Value>,
}

impl<'a> Values<'a> {
    pub(crate) fn new(ledger: &'a Ledger, name: Struct<'a>, from: Address) -> Values<'a> {
        Values { ledger, name, from: Some(from), page: Vec::new().into_iter() }
    }
}

impl Iterator for Values<'_> {
    type Item = Result<Value, Error>;

    fn next(&mut self) -> Option<Result<Value, Error>> {
        loop {
            if let Some(value) = self.page.next() {
                return Some(Ok(value));
            }
            let from = self.from.take()?;
            match self.ledger.page(&self.name, from, KEYS, Form::Text) {
                Ok(None) => return None,
                Ok(Some(page)) => {
                    self.from = page.next;
                    self.page = page.values().collect::<Vec<_>>().into_iter();
                }
                Err(error) => return Some(Err(error)),
            }
        }
    }
}

impl fmt::Debug for Values<'_> {
    fn fmt(&self, f: &mut fmt::Formatter<'_>) -> fmt::Result {
        write!(f, "Values({})", self.name)
    }
}

/// The name of a module.
#[derive(Clone, Copy, Debug, PartialEq, Eq, PartialOrd, Ord, Hash)]
pub struct ModuleName<'a> {
    pub address: Address,
    pub name: &'a str,
}

/// The names of the published modules.
pub struct Modules(pub(crate) Owned);

impl Modules {
    /// The names in order of publication.
    pub fn iter(&self) -> impl Iterator<Item = ModuleName<'_>> {
        self.0.as_str().lines().filter_map(|line| {
            let (address, name) = line.split_once("::")?;
            Some(ModuleName { address: address.parse().ok()?, name })
        })
    }
}

impl fmt::Debug for Modules {
    fn fmt(&self, f: &mut fmt::Formatter<'_>) -> fmt::Result {
        f.debug_list().entries(self.iter()).finish()
    }
}

impl fmt::Display for ModuleName<'_> {
    fn fmt(&self, f: &mut fmt::Formatter<'_>) -> fmt::Result {
        write!(f, "{}::{}", self.address, self.name)
    }
}

/// The bytes of a published module.
pub struct Module {
    pub(crate) bytes: Owned,
    pub(crate) certificate: Owned,
}

impl Module {
    /// The module's bytes.
    pub fn as_bytes(&self) -> &[u8] {
        self.bytes.as_bytes()
    }

    /// The bytes of the certificate that it was checked with.
    pub fn certificate(&self) -> &[u8] {
        self.certificate.as_bytes()
    }
}

impl fmt::Debug for Module {
    fn fmt(&self, f: &mut fmt::Formatter<'_>) -> fmt::Result {
        write!(f, "Module({} bytes)", self.as_bytes().len())
    }
}

/// How many values of a struct were packed, and how many unpacked, in the runs that returned.
#[derive(Clone, Copy, Debug, PartialEq, Eq)]
pub struct Tally {
    pub packed: u64,
    pub unpacked: u64,
}

impl Tally {
    /// How many are stored, at any depth.
    pub fn stored(&self) -> u64 {
        self.packed - self.unpacked
    }
}
