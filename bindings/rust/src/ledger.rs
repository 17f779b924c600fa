//! A ledger, and what is asked of it.

use crate::error::Error;
use crate::report::{Entries, Report};
use crate::sys;
use crate::text::{Owned, Saved};
use std::ptr::null_mut;

/// A ledger in memory. It may be moved to another thread, and threads may read one at once: all that
/// only asks takes `&self`.
/// Ledgers in different threads know nothing of each other.
pub struct Ledger {
    raw: sys::RawLedger,
    answered: u64,
}

// SAFETY: a ledger owns all that it holds, and no call leaves anything with the thread that made it.
unsafe impl Send for Ledger {}
// SAFETY: a call that takes `&self` gets a holder of its own, and reads the ledger that this leads to; it writes nothing of it.
unsafe impl Sync for Ledger {}

/// How a show or an audit is written.
#[derive(Clone, Copy, Debug, PartialEq, Eq)]
pub enum Form {
    /// A line for each entry, and a last line with their number.
    Text = 0,
    /// One line, `json` and an object.
    Json = 1,
}

/// A call that asks something of a ledger.
type Question = unsafe extern "C" fn(*mut sys::RawLedger, u32, *mut sys::RawBytes) -> i32;

impl Ledger {
    /// An empty ledger.
    ///
    /// # Errors
    /// [`Error::Memory`].
    pub fn new() -> Result<Ledger, Error> {
        let mut raw = sys::RawLedger { own: null_mut() };
        // SAFETY: the pointer is to a place for the ledger.
        let status = unsafe { sys::moveledger_new(&mut raw) };
        Ledger::made(status, raw, 0)
    }

    /// The ledger that was saved as these bytes, of either form.
    ///
    /// # Errors
    /// [`Error::LoadRefused`] where they aren't the text of a ledger whose modules pass and whose counts agree; [`Error::Memory`].
    pub fn load(saved: &[u8]) -> Result<Ledger, Error> {
        let (mut raw, mut why) = (sys::RawLedger { own: null_mut() }, 0);
        // SAFETY: the slice is so long, and the pointers are to places for the ledger and the reason.
        let status = unsafe { sys::moveledger_load(saved.as_ptr(), saved.len(), &mut raw, &mut why) };
        Ledger::made(status, raw, why)
    }

    fn made(status: i32, raw: sys::RawLedger, why: u8) -> Result<Ledger, Error> {
        match status {
            sys::DONE => Ok(Ledger { raw, answered: 0 }),
            _ => Err(Error::of(status, why)),
        }
    }

    /// Answers records, in order, and gives their report. A record that is cut off at the end of the bytes is answered `refused 1`.
    /// Lines have the number of their record, which goes on from call to call.
    ///
    /// # Errors
    /// [`Error::Unfinished`] with the report's beginning where memory runs out.
    pub fn apply(&mut self, records: &[u8]) -> Result<Report, Error> {
        let mut report = Report::new();
        match self.apply_into(records, &mut report) {
            Ok(()) => Ok(report),
            Err(Error::Memory) => Err(Error::Unfinished(report)),
            Err(error) => Err(error),
        }
    }

    /// The same, with the lines appended to a report.
    ///
    /// # Errors
    /// [`Error::Memory`], where memory runs out. The report then has a beginning of the new lines behind what it had, and the ledger
    /// is as after [`Error::Unfinished`].
    pub fn apply_into(&mut self, records: &[u8], report: &mut Report) -> Result<(), Error> {
        // SAFETY: the ledger is this one's alone, the slice is so long, and the report's bytes are the library's.
        let status = unsafe {
            let answered = &mut self.answered;
            let (bytes, length) = (records.as_ptr(), records.len());
            sys::moveledger_apply(&mut self.raw, bytes, length, answered, report.0.raw())
        };
        done(status)
    }

    /// How many records were answered, by the numbers of their lines: the next record's lines have the number that follows.
    pub fn answered(&self) -> u64 {
        self.answered
    }

    /// Numbers the next record as the one after so many. Numbers are no part of what is saved: a node that loads a ledger gives
    /// the number of records that it had answered when it was saved.
    pub fn go_on_after(&mut self, answered: u64) {
        self.answered = answered;
    }

    /// The ledger's text: what `moveledger apply --save` writes. Equal ledgers have equal texts.
    ///
    /// # Errors
    /// [`Error::Memory`].
    pub fn save(&self) -> Result<Saved, Error> {
        let mut saved = Owned::new();
        // SAFETY: the ledger is there, and no call changes it meanwhile. The holder is this call's own.
        done(unsafe { sys::moveledger_save(&mut self.holder(), saved.raw()) })?;
        Ok(Saved(saved))
    }

    /// What is stored, as a show answers it.
    ///
    /// # Errors
    /// [`Error::Memory`].
    pub fn show(&self, form: Form) -> Result<Entries, Error> {
        self.ask(sys::moveledger_show, form)
    }

    /// For each struct with neither copy nor drop how many of its values are stored, were packed and were unpacked.
    ///
    /// # Errors
    /// [`Error::Memory`].
    pub fn audit(&self, form: Form) -> Result<Entries, Error> {
        self.ask(sys::moveledger_audit, form)
    }

    fn ask(&self, question: Question, form: Form) -> Result<Entries, Error> {
        let mut lines = Owned::new();
        // SAFETY: the ledger is there, and no call changes it meanwhile. The holder is this call's own.
        done(unsafe { question(&mut self.holder(), form as u32, lines.raw()) })?;
        Ok(Entries(lines))
    }

    /// The ledger for a call that changes it.
    pub(crate) fn raw(&mut self) -> &mut sys::RawLedger {
        &mut self.raw
    }

    /// A holder for a call that reads the ledger, and gives it back as it was.
    pub(crate) fn holder(&self) -> sys::RawLedger {
        sys::RawLedger { own: self.raw.own }
    }
}

impl Drop for Ledger {
    fn drop(&mut self) {
        // SAFETY: the library gave it, and nothing has it from now on.
        unsafe { sys::moveledger_free(&mut self.raw) }
    }
}

impl std::fmt::Debug for Ledger {
    fn fmt(&self, f: &mut std::fmt::Formatter<'_>) -> std::fmt::Result {
        write!(f, "Ledger({} records answered)", self.answered)
    }
}

/// What a status of a call without a reason says.
pub(crate) fn done(status: i32) -> Result<(), Error> {
    match status {
        sys::DONE => Ok(()),
        other => Err(Error::of(other, 0)),
    }
}
