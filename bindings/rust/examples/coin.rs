//! A node in small: publishes a module with a coin, mints one, asks what is stored, saves the ledger, and goes on from what was
//! saved.
//!
//!     cargo run --example coin [-- MODULE]
//!
//! MODULE is the file of a module that the repository's tools/moveasm made; if none is given, the coin's is taken, whose bytes stand
//! below.

use moveledger::{prove, record, Address, Error, Form, Ledger, Struct};
use std::error::Error as Cause;
use std::{env, fs};

/// The bytes of the module 0x1::M, which tools/moveasm makes of the repository's examples/coin.text.
const COIN: [u8; 99] = [
    0xa1, 0x1c, 0xeb, 0x0b, 0x05, 0x00, 0x00, 0x00, 0x08, 0x01, 0x00, 0x02, 0x02, 0x02, 0x04, 0x03, 0x06,
    0x05, 0x05, 0x0b, 0x04, 0x07, 0x0f, 0x0e, 0x08, 0x1d, 0x10, 0x0a, 0x2d, 0x05, 0x0c, 0x32, 0x0f, 0x00,
    0x00, 0x00, 0x01, 0x0c, 0x00, 0x00, 0x03, 0x01, 0x00, 0x00, 0x00, 0x02, 0x0c, 0x03, 0x01, 0x4d, 0x04,
    0x43, 0x6f, 0x69, 0x6e, 0x01, 0x76, 0x04, 0x6d, 0x69, 0x6e, 0x74, 0x00, 0x00, 0x00, 0x00, 0x00, 0x00,
    0x00, 0x00, 0x00, 0x00, 0x00, 0x00, 0x00, 0x00, 0x00, 0x01, 0x00, 0x02, 0x01, 0x02, 0x03, 0x00, 0x01,
    0x04, 0x00, 0x00, 0x05, 0x0e, 0x00, 0x0b, 0x01, 0x12, 0x00, 0x2d, 0x00, 0x02, 0x00,
];

/// The record by which an address mints a coin.
fn mint(sender: u128, value: u64) -> Vec<u8> {
    record::run(&record::Run {
        sender: Address::from(sender),
        address: Address::from(1),
        module: "M",
        function: "mint",
        budget: 100,
        arguments: &[record::Argument::U64(value)],
    })
}

fn main() -> Result<(), Box<dyn Cause>> {
    let module = match env::args().nth(1) {
        Some(file) => fs::read(file)?,
        None => COIN.to_vec(),
    };
    let certificate = prove(&module)?;
    let mut block = record::publish(Address::from(1), &[(&module, &certificate.to_bytes())]);
    block.extend(mint(1, 7));

    let mut ledger = Ledger::new()?;
    let report = ledger.apply(&block)?;
    for line in report.parsed() {
        println!("{:?}", line.map_err(|unknown| unknown.to_string())?);
    }
    print!("{}", ledger.show(Form::Text)?);

    let saved = ledger.save()?;
    println!("saved {} bytes", saved.len());
    let mut next = Ledger::load(&saved)?;
    next.go_on_after(ledger.answered());
    print!("{}", next.apply(&mint(2, 9))?);
    // One value, which is found by its address and its struct: the others cost nothing.
    let coin = Struct { address: Address::from(1), module: "M", name: "Coin" };
    if let Some(entries) = next.show_value(Address::from(2), &coin, Form::Text)? {
        print!("{entries}");
    }
    print!("{}", next.audit(Form::Json)?);

    // Bytes that aren't a saved ledger's are refused, and nothing else happens.
    match Ledger::load(&saved[..saved.len() - 1]) {
        Err(Error::LoadRefused(reason)) => println!("a cut one is refused for reason {reason}"),
        other => println!("{other:?}"),
    }
    Ok(())
}
