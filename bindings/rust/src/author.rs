//! What needs no ledger: certificates, and saved ledgers of the old form.

use crate::error::Error;
use crate::sys;
use crate::text::{Certificate, Owned, Saved};

/// What a status with its reason says.
fn done(status: i32, why: u8) -> Result<(), Error> {
    match status {
        sys::DONE => Ok(()),
        other => Err(Error::of(other, why)),
    }
}

/// Makes a certificate of a module.
///
/// # Errors
/// [`Error::Refused`] with the first phase that fails, where no certificate passes; [`Error::TooComplex`]; [`Error::Memory`].
pub fn prove(module: &[u8]) -> Result<Certificate, Error> {
    let (mut certificate, mut why) = (Owned::new(), 0);
    // SAFETY: the slice is so long, and the pointers are to places for the certificate and the reason.
    let status = unsafe { sys::moveledger_prove(module.as_ptr(), module.len(), certificate.raw(), &mut why) };
    done(status, why)?;
    Ok(Certificate(certificate))
}

/// Makes a certificate of a module, in so many steps at most: a step is one instruction of one visit of its block by the search.
///
/// # Errors
/// As [`prove`]; and [`Error::TooLong`] where the steps don't suffice.
pub fn prove_within(module: &[u8], steps: u64) -> Result<Certificate, Error> {
    let (mut certificate, mut why) = (Owned::new(), 0);
    // SAFETY: the slice is so long, and the pointers are to places for the certificate and the reason.
    let status = unsafe {
        let (bytes, length) = (module.as_ptr(), module.len());
        sys::moveledger_prove_within(bytes, length, steps, certificate.raw(), &mut why)
    };
    done(status, why)?;
    Ok(Certificate(certificate))
}

/// Asks whether a module passes with the certificate of this hexadecimal.
///
/// # Errors
/// [`Error::Refused`] with the first phase that fails; [`Error::Memory`].
pub fn check(module: &[u8], certificate: &str) -> Result<(), Error> {
    let mut why = 0;
    // SAFETY: the slices are so long, and the last pointer is to a place for the reason.
    let status = unsafe {
        let (text, length) = (certificate.as_ptr(), certificate.len());
        sys::moveledger_check(module.as_ptr(), module.len(), text, length, &mut why)
    };
    done(status, why)
}

/// The text in the current form of a saved ledger of either form.
///
/// # Errors
/// [`Error::LoadRefused`]; [`Error::Memory`].
pub fn migrate(saved: &[u8]) -> Result<Saved, Error> {
    let (mut migrated, mut why) = (Owned::new(), 0);
    // SAFETY: the slice is so long, and the pointers are to places for the text and the reason.
    let status = unsafe { sys::moveledger_migrate(saved.as_ptr(), saved.len(), migrated.raw(), &mut why) };
    done(status, why)?;
    Ok(Saved(migrated))
}
