//! A save in pieces, for which the memory that is needed doesn't grow with what is stored.

use crate::error::Error;
use crate::ledger::{done, Ledger};
use crate::sys;
use crate::text::{Owned, Saved};
use std::io::{self, Write};
use std::ptr::null_mut;

/// The text of a saved ledger, in pieces of at most 65,536 bytes. The ledger can't change meanwhile. After an error the same piece may be
/// asked for again.
pub struct Pieces<'a> {
    ledger: &'a Ledger,
    saving: sys::RawSaving,
}

impl Ledger {
    /// What [`Ledger::save`] gives, in pieces.
    ///
    /// # Errors
    /// [`Error::Memory`].
    pub fn pieces(&self) -> Result<Pieces<'_>, Error> {
        let mut saving = sys::RawSaving { own: null_mut() };
        // SAFETY: the pointer is to a place for it.
        done(unsafe { sys::moveledger_save_begin(&mut saving) })?;
        Ok(Pieces { ledger: self, saving })
    }

    /// Writes what [`Ledger::save`] gives, in pieces. A ledger that ran out of memory can be saved so.
    ///
    /// # Errors
    /// As the writer; and of the kind `OutOfMemory` where there is no memory for a piece.
    pub fn save_to<W: Write>(&self, writer: &mut W) -> io::Result<()> {
        let no_memory = |_| io::Error::from(io::ErrorKind::OutOfMemory);
        for piece in self.pieces().map_err(no_memory)? {
            writer.write_all(&piece.map_err(no_memory)?)?;
        }
        Ok(())
    }
}

impl Iterator for Pieces<'_> {
    type Item = Result<Saved, Error>;

    fn next(&mut self) -> Option<Result<Saved, Error>> {
        let mut piece = Owned::new();
        // SAFETY: the ledger is there, and no call changes it meanwhile. The holder is this call's own, and the save is this one's.
        let status =
            unsafe { sys::moveledger_save_next(&mut self.ledger.holder(), &mut self.saving, piece.raw()) };
        match status {
            sys::ABSENT => None,
            other => Some(done(other).map(|()| Saved(piece))),
        }
    }
}

impl Drop for Pieces<'_> {
    fn drop(&mut self) {
        // SAFETY: the library gave it, and nothing has it from now on.
        unsafe { sys::moveledger_save_end(&mut self.saving) }
    }
}
