//! What a block has changed so far.

use crate::block::Block;
use crate::error::Error;
use crate::ledger::done;
use crate::report::Entries;
use crate::sys;
use crate::text::Owned;
use std::collections::HashMap;

/// The values that differ from those where the block was opened: two shows, each as one line of JSON.
#[derive(Debug)]
pub struct Changes {
    /// The values that the changed keys had.
    pub before: Entries,
    /// The values that they have now.
    pub now: Entries,
}

/// A value that differs. Both its forms are as a show writes a value: its fields in braces.
#[derive(Clone, Debug, PartialEq, Eq)]
pub struct Change<'a> {
    /// Where it is stored, as 32 hexadecimal digits.
    pub address: &'a str,
    /// Its struct, as `ADDRESS::MODULE::NAME`.
    pub name: &'a str,
    /// The value where the block was opened; None where there was none.
    pub before: Option<&'a str>,
    /// The value now; None where there is none.
    pub now: Option<&'a str>,
}

impl Changes {
    /// The values that differ, by ascending address.
    pub fn values(&self) -> Vec<Change<'_>> {
        let mut places = HashMap::new();
        let mut all: Vec<Change<'_>> = Vec::new();
        for [address, name, value] in told(self.before.as_str()) {
            places.insert((address, name), all.len());
            all.push(Change { address, name, before: Some(value), now: None });
        }
        for [address, name, value] in told(self.now.as_str()) {
            match places.get(&(address, name)) {
                Some(&place) => all[place].now = Some(value),
                None => all.push(Change { address, name, before: None, now: Some(value) }),
            }
        }
        all.sort_by_key(|change| change.address);
        all
    }
}

/// A module that was published in a block, or replaced.
#[derive(Clone, Copy, Debug, PartialEq, Eq)]
pub struct ChangedModule<'a> {
    /// Its name, as `ADDRESS::MODULE`.
    pub name: &'a str,
    /// Whether it is new: otherwise it replaces one with other bytes or another certificate.
    pub is_new: bool,
}

/// The modules that were published in a block or replaced, in order of publication.
pub struct ChangedModules(Owned);

impl ChangedModules {
    pub fn iter(&self) -> impl Iterator<Item = ChangedModule<'_>> {
        self.0.as_str().lines().filter_map(|line| {
            let (word, name) = line.split_once(' ')?;
            Some(ChangedModule { name, is_new: word == "published" })
        })
    }
}

impl std::fmt::Debug for ChangedModules {
    fn fmt(&self, f: &mut std::fmt::Formatter<'_>) -> std::fmt::Result {
        f.debug_list().entries(self.iter()).finish()
    }
}

impl Block<'_> {
    /// What is stored otherwise than where this block was opened. It takes as long as what runs changed in it.
    ///
    /// # Errors
    /// [`Error::Memory`].
    pub fn changes(&self) -> Result<Changes, Error> {
        let (mut before, mut now) = (Owned::new(), Owned::new());
        // SAFETY: the ledger is there, and no call changes it meanwhile.
        done(unsafe { sys::moveledger_changes(&mut self.holder(), before.raw(), now.raw()) })?;
        Ok(Changes { before: Entries(before), now: Entries(now) })
    }

    /// The modules that were published in this block, and those that were replaced by others.
    ///
    /// # Errors
    /// [`Error::Memory`].
    pub fn changed_modules(&self) -> Result<ChangedModules, Error> {
        let mut names = Owned::new();
        // SAFETY: the ledger is there, and no call changes it meanwhile.
        done(unsafe { sys::moveledger_changed_modules(&mut self.holder(), names.raw()) })?;
        Ok(ChangedModules(names))
    }
}

/// The address, the struct and the value of each entry in the JSON of a show. No name and no value has a quote.
fn told(json: &str) -> impl Iterator<Item = [&str; 3]> {
    json.split("{\"address\":\"").skip(1).filter_map(|entry| {
        let mut texts = entry.split('"');
        let address = texts.next()?;
        let name = texts.nth(3)?;
        let value = texts.nth(3)?;
        Some([address, name, value])
    })
}
