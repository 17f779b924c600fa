//! Bytes that the library made.

use crate::sys::{moveledger_bytes_free, RawBytes};
use std::fmt;
use std::ops::Deref;

/// Bytes of the library's, which are freed by it.
pub(crate) struct Owned(RawBytes);

// SAFETY: nothing else has these bytes, and the library's `free` may be called by any thread.
unsafe impl Send for Owned {}
// SAFETY: a shared `Owned` only gives its bytes to read.
unsafe impl Sync for Owned {}

impl Owned {
    pub(crate) fn new() -> Owned {
        Owned(RawBytes { bytes: std::ptr::null_mut(), length: 0, own: std::ptr::null_mut() })
    }

    /// What a call is given, to put bytes there.
    pub(crate) fn raw(&mut self) -> &mut RawBytes {
        &mut self.0
    }

    pub(crate) fn as_bytes(&self) -> &[u8] {
        if self.0.bytes.is_null() {
            return &[];
        }
        // SAFETY: the library wrote so many bytes there, and frees them only when this is dropped.
        unsafe { std::slice::from_raw_parts(self.0.bytes, self.0.length) }
    }

    /// The bytes as text. What the library writes but for saved ledgers is ASCII.
    pub(crate) fn as_str(&self) -> &str {
        std::str::from_utf8(self.as_bytes()).expect("the library's lines are ASCII")
    }
}

impl Drop for Owned {
    fn drop(&mut self) {
        // SAFETY: these are bytes that the library gave, or none.
        unsafe { moveledger_bytes_free(&mut self.0) }
    }
}

/// The text of a saved ledger: what [`Ledger::load`](crate::Ledger::load) reads, and `moveledger apply --load`.
pub struct Saved(pub(crate) Owned);

impl Deref for Saved {
    type Target = [u8];

    fn deref(&self) -> &[u8] {
        self.0.as_bytes()
    }
}

impl AsRef<[u8]> for Saved {
    fn as_ref(&self) -> &[u8] {
        self
    }
}

impl fmt::Debug for Saved {
    fn fmt(&self, f: &mut fmt::Formatter<'_>) -> fmt::Result {
        write!(f, "Saved({} bytes)", self.len())
    }
}

/// A certificate, as [`prove`](crate::prove) makes it.
pub struct Certificate(pub(crate) Owned);

impl Certificate {
    /// Its hexadecimal: what [`check`](crate::check) takes, and what `moveledger prove` prints.
    pub fn as_str(&self) -> &str {
        self.0.as_str()
    }

    /// Its bytes, as they stand in a record that publishes the module.
    pub fn to_bytes(&self) -> Vec<u8> {
        let digit = |byte: u8| (byte as char).to_digit(16).unwrap_or(0) as u8;
        let pairs = self.0.as_bytes().chunks_exact(2);
        pairs.map(|pair| digit(pair[0]) << 4 | digit(pair[1])).collect()
    }
}

impl fmt::Debug for Certificate {
    fn fmt(&self, f: &mut fmt::Formatter<'_>) -> fmt::Result {
        write!(f, "Certificate({})", self.as_str())
    }
}
