//! Addresses.

use std::fmt;
use std::str::FromStr;

/// An address: 16 bytes, the most significant first. It is written as 32 hexadecimal digits.
#[derive(Clone, Copy, Debug, Default, PartialEq, Eq, PartialOrd, Ord, Hash)]
pub struct Address(pub [u8; 16]);

/// A text isn't an address.
#[derive(Clone, Copy, Debug, PartialEq, Eq)]
pub struct NoAddress;

impl From<u128> for Address {
    fn from(number: u128) -> Address {
        Address(number.to_be_bytes())
    }
}

impl fmt::Display for Address {
    fn fmt(&self, f: &mut fmt::Formatter<'_>) -> fmt::Result {
        write!(f, "{:032x}", u128::from_be_bytes(self.0))
    }
}

impl FromStr for Address {
    type Err = NoAddress;

    /// Reads 32 hexadecimal digits.
    fn from_str(text: &str) -> Result<Address, NoAddress> {
        if text.len() != 32 || !text.bytes().all(|byte| byte.is_ascii_hexdigit()) {
            return Err(NoAddress);
        }
        let number = u128::from_str_radix(text, 16).map_err(|_| NoAddress)?;
        Ok(Address::from(number))
    }
}

impl fmt::Display for NoAddress {
    fn fmt(&self, f: &mut fmt::Formatter<'_>) -> fmt::Result {
        write!(f, "an address is 32 hexadecimal digits")
    }
}

impl std::error::Error for NoAddress {}
