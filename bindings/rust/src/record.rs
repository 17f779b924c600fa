//! The bytes of records (docs/FORMATS.md, "Records"). Nothing here says whether a record will be taken: the ledger does.

use crate::address::Address;
use crate::error::Error;
use crate::ledger::done;
use crate::sys;

/// Asks what is stored.
pub const SHOW: [u8; 2] = [3, 0];
/// Asks for the counts.
pub const AUDIT: [u8; 2] = [4, 0];

/// A call of an entry function.
#[derive(Clone, Debug)]
pub struct Run<'a> {
    /// Who calls: what a function gets that asks for a signer.
    pub sender: Address,
    /// The address of the function's module.
    pub address: Address,
    pub module: &'a str,
    pub function: &'a str,
    /// The most steps that the run may take, 10,000,000 at most.
    pub budget: u64,
    /// What the function is given behind a signer.
    pub arguments: &'a [Argument],
}

/// A value that is handed to a function.
#[derive(Clone, Copy, Debug, PartialEq, Eq)]
pub enum Argument {
    Bool(bool),
    U8(u8),
    U16(u16),
    U32(u32),
    U64(u64),
    U128(u128),
    Address(Address),
}

/// A record that isn't answered yet.
#[derive(Clone, Copy, Debug, PartialEq, Eq)]
pub struct Front {
    /// 1 publish, 2 run, 3 show, 4 audit; others are answered `refused 1`.
    pub kind: u8,
    /// How many bytes it takes: the next record begins behind them.
    pub length: usize,
    /// Who publishes or runs, and the most steps of a run, which are 0 for a bundle. None where the payload isn't that of a publish or a
    /// run record.
    pub asked: Option<(Address, u64)>,
}

impl Front {
    /// The most bytes that the record adds to a ledger, on average of runs, if it is a run.
    pub fn most_bytes(&self) -> Option<u64> {
        match (self.kind, self.asked) {
            (2, Some((_, budget))) if budget <= 10_000_000 => Some(budget / 3 * 4_300),
            (2, _) => Some(0),
            _ => None,
        }
    }
}

/// The record that bytes begin with, without answering it. None where no whole one stands there.
///
/// # Errors
/// [`Error::Memory`].
pub fn first(records: &[u8]) -> Result<Option<Front>, Error> {
    let (mut length, mut kind, mut is_shaped, mut budget) = (0, 0, 0, 0);
    let mut sender = Address::default();
    // SAFETY: the slice is so long, and the pointers are to places for what is told.
    let status = unsafe {
        let (at, size) = (records.as_ptr(), records.len());
        sys::moveledger_read_record(
            at,
            size,
            &mut length,
            &mut kind,
            &mut is_shaped,
            &mut sender.0,
            &mut budget,
        )
    };
    if status == sys::ABSENT {
        return Ok(None);
    }
    done(status)?;
    Ok(Some(Front { kind, length, asked: (is_shaped != 0).then_some((sender, budget)) }))
}

/// A record that publishes modules together, each with its certificate's bytes.
pub fn publish(sender: Address, modules: &[(&[u8], &[u8])]) -> Vec<u8> {
    let mut payload = sender.0.to_vec();
    put_number(&mut payload, modules.len() as u64);
    for (module, certificate) in modules {
        put_bytes(&mut payload, module);
        put_bytes(&mut payload, certificate);
    }
    record(1, &payload)
}

/// A record that runs a function.
pub fn run(run: &Run<'_>) -> Vec<u8> {
    let mut payload = run.sender.0.to_vec();
    payload.extend(run.address.0);
    put_bytes(&mut payload, run.module.as_bytes());
    put_bytes(&mut payload, run.function.as_bytes());
    put_number(&mut payload, run.budget);
    put_number(&mut payload, run.arguments.len() as u64);
    for argument in run.arguments {
        put_argument(&mut payload, argument);
    }
    record(2, &payload)
}

fn record(kind: u8, payload: &[u8]) -> Vec<u8> {
    let mut bytes = vec![kind];
    put_bytes(&mut bytes, payload);
    bytes
}

/// A number in seven bits a byte, the lowest first (ULEB128).
fn put_number(bytes: &mut Vec<u8>, mut number: u64) {
    while number > 127 {
        bytes.push(number as u8 | 128);
        number >>= 7;
    }
    bytes.push(number as u8);
}

/// A length, and so many bytes.
fn put_bytes(bytes: &mut Vec<u8>, part: &[u8]) {
    put_number(bytes, part.len() as u64);
    bytes.extend(part);
}

/// The token of the value's type, and the value.
fn put_argument(bytes: &mut Vec<u8>, argument: &Argument) {
    let mut put = |token: u8, value: &[u8]| {
        bytes.push(token);
        bytes.extend(value);
    };
    match argument {
        Argument::Bool(value) => put(0x01, &[u8::from(*value)]),
        Argument::U8(value) => put(0x02, &[*value]),
        Argument::U16(value) => put(0x0d, &value.to_le_bytes()),
        Argument::U32(value) => put(0x0e, &value.to_le_bytes()),
        Argument::U64(value) => put(0x03, &value.to_le_bytes()),
        Argument::U128(value) => put(0x04, &value.to_le_bytes()),
        Argument::Address(value) => put(0x05, &value.0),
    }
}
