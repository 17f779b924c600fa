//! Blocks: what is answered in one can be taken back.

use crate::error::Error;
use crate::ledger::{done, Ledger};
use crate::report::Report;
use crate::sys;
use std::ops::Deref;

/// A block of a ledger. [`Block::commit`] keeps what was answered in it; a block that is dropped takes it back, and the ledger is
/// as it was when the block was opened.
///
/// Questions are asked of the block as of the ledger. Records are answered through the block, and a block within it is opened
/// through it, so that none is closed behind another's back. A block that is forgotten (`std::mem::forget`) stays open as long as
/// the ledger is there, and no call closes it any more: what is answered afterwards is answered in it.
#[must_use = "a block that is dropped takes back what was answered in it"]
#[derive(Debug)]
pub struct Block<'a> {
    ledger: &'a mut Ledger,
    answered: u64,
    is_kept: bool,
}

impl Ledger {
    /// Opens a block, in which records are answered as ever and can be taken back. It costs what is changed in it, but for the first
    /// bundle that is published in it, which copies the published modules.
    ///
    /// # Errors
    /// [`Error::Memory`]. No block is open then.
    pub fn block(&mut self) -> Result<Block<'_>, Error> {
        // SAFETY: the ledger is this one's alone.
        done(unsafe { sys::moveledger_begin(self.raw()) })?;
        let answered = self.answered();
        Ok(Block { ledger: self, answered, is_kept: false })
    }
}

impl Block<'_> {
    /// Answers records, as [`Ledger::apply`] does.
    ///
    /// # Errors
    /// As there. The block stays open.
    pub fn apply(&mut self, records: &[u8]) -> Result<Report, Error> {
        self.ledger.apply(records)
    }

    /// The same, with the lines appended to a report, as [`Ledger::apply_into`] does.
    ///
    /// # Errors
    /// As there. The block stays open.
    pub fn apply_into(&mut self, records: &[u8], report: &mut Report) -> Result<(), Error> {
        self.ledger.apply_into(records, report)
    }

    /// Opens a block within this one.
    ///
    /// # Errors
    /// [`Error::Memory`]. No block is opened then.
    pub fn block(&mut self) -> Result<Block<'_>, Error> {
        self.ledger.block()
    }

    /// Keeps what was answered, as a part of the block around this one, if there is one. It takes no memory.
    pub fn commit(mut self) {
        self.is_kept = true;
        // SAFETY: the ledger is this one's alone. The block is open, so that there is one to close.
        unsafe { sys::moveledger_commit(self.ledger.raw()) };
    }

    /// Takes back what was answered, as dropping the block does. It takes no memory.
    pub fn rollback(self) {}
}

impl Deref for Block<'_> {
    type Target = Ledger;

    fn deref(&self) -> &Ledger {
        self.ledger
    }
}

impl Drop for Block<'_> {
    fn drop(&mut self) {
        if !self.is_kept {
            // SAFETY: the ledger is this one's alone. The block is open, so that there is one to take back.
            unsafe { sys::moveledger_rollback(self.ledger.raw()) };
            self.ledger.go_on_after(self.answered);
        }
    }
}
