//! The questions that a ledger is asked by names and addresses.

use crate::address::Address;
use crate::asked::{Module, Modules, Page, Tally, Values};
use crate::error::Error;
use crate::ledger::{done, Form, Ledger};
use crate::line::{Entry, Struct};
use crate::report::Entries;
use crate::sys;
use crate::text::Owned;

/// Each takes a search or two and what it tells, whatever else the ledger has.
impl Ledger {
    /// The value of a struct that is stored at an address: its fields in braces. None where there is none.
    ///
    /// # Errors
    /// [`Error::Memory`].
    pub fn value(&self, address: Address, name: &Struct<'_>) -> Result<Option<String>, Error> {
        let entries = self.show_value(address, name, Form::Text)?;
        Ok(entries.and_then(|entries| match entries.parsed().next() {
            Some(Ok(Entry::At { value, .. })) => Some(value.to_owned()),
            _ => None,
        }))
    }

    /// The same as a show of that value alone.
    ///
    /// # Errors
    /// [`Error::Memory`].
    pub fn show_value(
        &self,
        address: Address,
        name: &Struct<'_>,
        form: Form,
    ) -> Result<Option<Entries>, Error> {
        let (mut lines, module, own) = (Owned::new(), name.module, name.name);
        // SAFETY: the ledger is there, and no call changes it meanwhile. Addresses are 16 bytes, and the names so long.
        let status = unsafe {
            sys::moveledger_show_value(
                &mut self.holder(),
                &address.0,
                &name.address.0,
                module.as_ptr(),
                module.len(),
                own.as_ptr(),
                own.len(),
                form as u32,
                lines.raw(),
            )
        };
        found(status, || Entries(lines))
    }

    /// What is stored at an address, as a show of that alone.
    ///
    /// # Errors
    /// [`Error::Memory`].
    pub fn show_at(&self, address: Address, form: Form) -> Result<Entries, Error> {
        let mut lines = Owned::new();
        // SAFETY: the ledger is there, and no call changes it meanwhile. An address is 16 bytes.
        let status =
            unsafe { sys::moveledger_show_at(&mut self.holder(), &address.0, form as u32, lines.raw()) };
        done(status)?;
        Ok(Entries(lines))
    }

    /// The values of a struct by ascending address. They have no index of their own: all that is stored is passed. A struct that isn't
    /// published has none.
    pub fn values<'a>(&'a self, name: Struct<'a>) -> Values<'a> {
        self.values_from(name, Address::default())
    }

    /// The same from an address on.
    pub fn values_from<'a>(&'a self, name: Struct<'a>, from: Address) -> Values<'a> {
        Values::new(self, name, from)
    }

    /// The values of a struct from an address on, for which at most so many keys are looked at, of whichever structs they are. With
    /// `most` 0 none is told, and the next page is the same one. None where no such struct is published.
    ///
    /// # Errors
    /// [`Error::Memory`].
    pub fn page(
        &self,
        name: &Struct<'_>,
        from: Address,
        most: usize,
        form: Form,
    ) -> Result<Option<Page>, Error> {
        let (mut lines, mut from, mut is_more) = (Owned::new(), from, 0);
        let (module, own) = (name.module, name.name);
        // SAFETY: the ledger is there, and no call changes it meanwhile. Addresses are 16 bytes, and the names so long.
        let status = unsafe {
            sys::moveledger_show_page(
                &mut self.holder(),
                &name.address.0,
                module.as_ptr(),
                module.len(),
                own.as_ptr(),
                own.len(),
                &mut from.0,
                most,
                form as u32,
                lines.raw(),
                &mut is_more,
            )
        };
        found(status, || Page { entries: Entries(lines), next: (is_more != 0).then_some(from) })
    }

    /// The names of the published modules.
    ///
    /// # Errors
    /// [`Error::Memory`].
    pub fn modules(&self) -> Result<Modules, Error> {
        let mut names = Owned::new();
        // SAFETY: the ledger is there, and no call changes it meanwhile.
        done(unsafe { sys::moveledger_modules(&mut self.holder(), names.raw()) })?;
        Ok(Modules(names))
    }

    /// The module of a name at an address, with its certificate. None where there is none.
    ///
    /// # Errors
    /// [`Error::Memory`].
    pub fn module(&self, address: Address, name: &str) -> Result<Option<Module>, Error> {
        let (mut bytes, mut certificate) = (Owned::new(), Owned::new());
        // SAFETY: the ledger is there, and no call changes it meanwhile. An address is 16 bytes, and the name so long.
        let status = unsafe {
            let (text, length) = (name.as_ptr(), name.len());
            let places = (bytes.raw(), certificate.raw());
            sys::moveledger_module(&mut self.holder(), &address.0, text, length, places.0, places.1)
        };
        found(status, || Module { bytes, certificate })
    }

    /// How many runs were begun, whatever became of them.
    pub fn runs(&self) -> u64 {
        let mut runs = 0;
        // SAFETY: the ledger is there, and no call changes it meanwhile.
        let status = unsafe { sys::moveledger_runs(&mut self.holder(), &mut runs) };
        debug_assert_eq!(status, sys::DONE);
        runs
    }

    /// The tally of a struct. None where no such struct is published, or where it has copy or drop.
    pub fn tally(&self, name: &Struct<'_>) -> Option<Tally> {
        let (module, own, mut tally) = (name.module, name.name, Tally { packed: 0, unpacked: 0 });
        // SAFETY: the ledger is there, and no call changes it meanwhile. The address is 16 bytes, and the names are so long.
        let status = unsafe {
            sys::moveledger_tally(
                &mut self.holder(),
                &name.address.0,
                module.as_ptr(),
                module.len(),
                own.as_ptr(),
                own.len(),
                &mut tally.packed,
                &mut tally.unpacked,
            )
        };
        (status == sys::DONE).then_some(tally)
    }
}

/// What a status says of a question by a name.
fn found<T>(status: i32, answer: impl FnOnce() -> T) -> Result<Option<T>, Error> {
    match status {
        sys::ABSENT => Ok(None),
        other => done(other).map(|()| Some(answer())),
    }
}
