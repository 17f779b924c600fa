//! The moveledger of this repository as a library: a ledger of Move resources in memory, and the verifier of Move bytecode that
//! stands before it. Every function of the library is proved against its contract; this crate is a thin layer over the C calls of
//! `moveledger.h`, and is tested, not proved. docs/EMBEDDING.md says what is promised at this border.
//!
//! ```
//! use moveledger::{prove, record, Address, Entry, Form, Ledger, Line, Struct};
//!
//! # fn main() -> Result<(), Box<dyn std::error::Error>> {
//! # let first = std::fs::read(concat!(env!("CARGO_MANIFEST_DIR"), "/../../examples/first-coin.stream"))?;
//! # let module = &first[20..119];
//! // `module` is the bytes of 0x1::M with a struct Coin and a function mint: tools/moveasm makes them of a text.
//! let certificate = prove(module)?;
//! let mut ledger = Ledger::new()?;
//! let mint = |sender: u128, value: u64| {
//!     record::run(&record::Run {
//!         sender: Address::from(sender),
//!         address: Address::from(1),
//!         module: "M",
//!         function: "mint",
//!         budget: 100,
//!         arguments: &[record::Argument::U64(value)],
//!     })
//! };
//! let mut records = record::publish(Address::from(1), &[(module, &certificate.to_bytes())]);
//! records.extend(mint(1, 7));
//! let report = ledger.apply(&records)?;
//! assert_eq!(report.as_str(), "1 published 1\n2 returned 5\n");
//! assert!(matches!(report.parsed().next(), Some(Ok(Line::Published { record: 1, modules: 1 }))));
//!
//! // What is stored is asked for without a record, and a ledger that is saved is loaded as what it was.
//! let mut again = Ledger::load(&ledger.save()?)?;
//! let entries = again.show(Form::Text)?;
//! assert!(matches!(entries.parsed().next(), Some(Ok(Entry::At { value: "{7}", .. }))));
//!
//! // One value is found by its address and its struct, whatever else is stored.
//! let coin = Struct { address: Address::from(1), module: "M", name: "Coin" };
//! assert_eq!(again.value(Address::from(1), &coin)?.as_deref(), Some("{7}"));
//! assert_eq!(again.value(Address::from(2), &coin)?, None);
//! assert_eq!(again.values(coin).count(), 1);
//!
//! // What is answered in a block is kept, or taken back: the ledger is then as it was.
//! let mut block = again.block()?;
//! let report = block.apply(&mint(2, 9))?;
//! for change in block.changes()?.values() {
//!     assert_eq!((change.before, change.now), (None, Some("{9}")));
//! }
//! let is_agreed = report.parsed().all(|line| matches!(line, Ok(Line::Returned { .. })));
//! if is_agreed {
//!     block.commit();
//! } else {
//!     block.rollback();
//! }
//! assert_eq!((again.answered(), again.values(coin).count()), (1, 2));
//!
//! // A save in pieces needs no memory that grows with what is stored.
//! let mut saved = Vec::new();
//! again.save_to(&mut saved)?;
//! assert_eq!(saved[..], again.save()?[..]);
//! # Ok(())
//! # }
//! ```

mod address;
mod asked;
mod author;
mod block;
mod changed;
mod error;
mod ledger;
mod line;
mod questions;
pub mod record;
mod report;
mod saving;
mod sys;
mod text;

pub use address::{Address, NoAddress};
pub use asked::{Module, ModuleName, Modules, Page, Tally, Value, Values};
pub use author::{check, migrate, prove, prove_within};
pub use block::Block;
pub use changed::{Change, ChangedModule, ChangedModules, Changes};
pub use error::Error;
pub use ledger::{Form, Ledger};
pub use line::{Abort, Entry, Exhausted, Line, Struct, UnknownLine};
pub use report::{Entries, Report};
pub use saving::Pieces;
pub use text::{Certificate, Saved};
