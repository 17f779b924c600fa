//! Each request for memory that the library makes, refused in turn: the call says so, and nothing is lost but what it says.
#![cfg(all(target_os = "linux", target_env = "gnu"))]

mod rows;

use moveledger::{check, migrate, prove, Address, Entries, Error, Form, Ledger, Report, Struct, Tally};
use rows::{decoded, of_repository, rows, split};
use std::cell::Cell;
use std::ffi::c_void;
use std::fs;

thread_local! {
    /// How many requests this thread's calls have made since they are counted, and which of them are refused.
    static MET: Cell<u64> = const { Cell::new(0) };
    static REFUSED: Cell<(u64, u64)> = const { Cell::new((u64::MAX, 0)) };
}

extern "C" {
    fn __libc_malloc(size: usize) -> *mut c_void;
    fn __libc_realloc(old: *mut c_void, size: usize) -> *mut c_void;
}

/// Whether this request is refused.
fn is_refused() -> bool {
    let met = MET.get() + 1;
    MET.set(met);
    let (from, to) = REFUSED.get();
    from <= met && met <= to
}

/// The C library's `malloc`, in front of the real one. Rust's own memory comes from here too, so that requests are refused only
/// while a call of the library runs.
#[no_mangle]
pub extern "C" fn malloc(size: usize) -> *mut c_void {
    if is_refused() {
        return std::ptr::null_mut();
    }
    // SAFETY: this is what `malloc` was.
    unsafe { __libc_malloc(size) }
}

/// The C library's `realloc`, in front of the real one.
///
/// # Safety
/// As of C's.
#[no_mangle]
pub unsafe extern "C" fn realloc(old: *mut c_void, size: usize) -> *mut c_void {
    if is_refused() {
        return std::ptr::null_mut();
    }
    // SAFETY: this is what `realloc` was, and the caller keeps its rules.
    unsafe { __libc_realloc(old, size) }
}

/// What a call answers with the requests of these numbers refused, and how many it made.
fn with_refused<T>(from: u64, to: u64, call: impl FnOnce() -> T) -> (T, u64) {
    MET.set(0);
    REFUSED.set((from, to));
    let answer = call();
    REFUSED.set((u64::MAX, 0));
    (answer, MET.get())
}

/// Tries a call with each of its requests refused, alone and with all behind it, until one makes fewer requests.
fn refuse_each<T>(mut call: impl FnMut(u64, u64) -> (T, u64), mut is_right: impl FnMut(T) -> bool) -> u64 {
    let mut refused = 0;
    for last in [0, u64::MAX] {
        for nth in 1.. {
            let (answer, met) = call(nth, nth.max(last));
            assert!(is_right(answer), "request {nth}");
            if met < nth {
                break;
            }
            refused += 1;
        }
    }
    refused
}

/// What a ledger is saved as.
fn saved(ledger: &Ledger) -> Vec<u8> {
    ledger.save().expect("there is memory").to_vec()
}

/// What each number of first records makes of a ledger, and the whole report.
fn states(load: &impl Fn() -> Ledger, records: &[Vec<u8>]) -> (Vec<Vec<u8>>, String) {
    let (mut ledger, mut report) = (load(), Report::new());
    let mut states = vec![saved(&ledger)];
    for record in records {
        ledger.apply_into(record, &mut report).expect("there is memory");
        states.push(saved(&ledger));
    }
    (states, report.to_string())
}

/// Refuses each request of one call that answers all records. The ledger is then that of the records that were answered, and goes on
/// from there with memory back.
fn refuse_in_applying(shows: &str, load: impl Fn() -> Ledger, records: &[Vec<u8>]) -> u64 {
    let (states, whole) = states(&load, records);
    let bytes = records.concat();
    let call = |from, to| {
        let mut ledger = load();
        let (answer, met) = with_refused(from, to, || ledger.apply(&bytes));
        ((ledger, answer), met)
    };
    refuse_each(call, |(mut ledger, answer)| {
        let answered = ledger.answered() as usize;
        match answer {
            Ok(report) => report.as_str() == whole && saved(&ledger) == states[records.len()],
            Err(Error::Unfinished(report)) => {
                let at = saved(&ledger);
                assert!(answered < records.len(), "{shows}");
                ledger.apply(&records[answered..].concat()).expect("memory is back");
                whole.starts_with(report.as_str())
                    && at == states[answered]
                    && saved(&ledger) == states[records.len()]
            }
            Err(_) => false,
        }
    })
}

/// The rows that have most to do: those that the repository's own test of the same kind takes.
fn inputs() -> Vec<(String, Vec<Vec<u8>>)> {
    let tests = fs::read_to_string(of_repository("crates/moveledger_tests/src/tests.rt")).expect("the tests");
    let (_, listed) = tests.split_once("const STARVED: ").expect("they name rows");
    let (listed, _) = listed.split_once("];").expect("they end");
    let rows = rows("rows.rt", "ROWS").into_iter();
    rows.filter(|row| listed.contains(&format!("\"{}\"", row.shows)))
        .map(|row| (row.shows.clone(), row.records()))
        .collect()
}

#[test]
fn want_of_memory_is_told_of_records() {
    let inputs = inputs();
    assert!(!inputs.is_empty());
    let mut refused = 0;
    for (shows, records) in &inputs {
        let empty = || Ledger::new().expect("there is memory");
        refused += refuse_in_applying(shows, empty, records);
    }
    for row in rows("saved.rt", "LOADED") {
        let (text, records) = row.given.split_once(' ').expect("a ledger and records");
        let load = || Ledger::load(&decoded(text)).expect("it is loaded");
        refused += refuse_in_applying(&row.shows, load, &split(&decoded(records)));
    }
    println!("{refused} requests refused");
    assert!(refused > 100);
}

#[test]
fn want_of_memory_is_told_of_everything_else() {
    let text = fs::read(of_repository("examples/kept.ledger")).expect("the ledger is there");
    let old = fs::read(of_repository("examples/old.ledger")).expect("the ledger is there");
    let ledger = Ledger::load(&text).expect("it is loaded");
    let module = fs::read(of_repository("examples/first-coin.stream")).expect("the stream")[20..119].to_vec();
    let is_memory = |error: Option<Error>| matches!(error, Some(Error::Memory));
    let mut refused = 0;

    refused += refuse_each(
        |a, b| with_refused(a, b, Ledger::new),
        |made| match made {
            Ok(made) => saved(&made) == b"MVL2\0\0",
            Err(error) => is_memory(Some(error)),
        },
    );
    refused += refuse_each(
        |a, b| with_refused(a, b, || Ledger::load(&text)),
        |made| match made {
            Ok(made) => saved(&made) == text,
            Err(error) => is_memory(Some(error)),
        },
    );
    refused += refuse_each(
        |a, b| with_refused(a, b, || ledger.save()),
        |made| match made {
            Ok(made) => *made == *text,
            Err(error) => is_memory(Some(error)) && saved(&ledger) == text,
        },
    );
    refused += refuse_each(
        |a, b| with_refused(a, b, || migrate(&old)),
        |made| match made {
            Ok(made) => *made == *text,
            Err(error) => is_memory(Some(error)),
        },
    );
    refused += refuse_each(
        |a, b| with_refused(a, b, || prove(&module)),
        |made| match made {
            Ok(made) => made.as_str() == "01010100",
            Err(error) => is_memory(Some(error)),
        },
    );
    refused += refuse_each(
        |a, b| with_refused(a, b, || check(&module, "01010100")),
        |made| match made {
            Ok(()) => true,
            Err(error) => is_memory(Some(error)),
        },
    );
    for form in [Form::Text, Form::Json] {
        for ask in [Ledger::show, Ledger::audit, shown_at, shown_page] {
            let whole = ask(&ledger, form).expect("there is memory").to_string();
            refused += refuse_each(
                |a, b| with_refused(a, b, || ask(&ledger, form)),
                |made| match made {
                    Ok(made) => made.as_str() == whole,
                    Err(error) => is_memory(Some(error)) && saved(&ledger) == text,
                },
            );
        }
    }
    refused += refuse_each(
        |a, b| with_refused(a, b, || ledger.show_value(ONE, &COIN, Form::Json)),
        |made| match made {
            Ok(made) => made.is_some_and(|made| made.as_str().contains("\"{7}\"")),
            Err(error) => is_memory(Some(error)) && saved(&ledger) == text,
        },
    );
    refused += refuse_each(
        |a, b| with_refused(a, b, || ledger.module(ONE, "M")),
        |made| match made {
            Ok(made) => {
                made.is_some_and(|made| made.as_bytes() == module && made.certificate() == [1, 1, 1, 0])
            }
            Err(error) => is_memory(Some(error)) && saved(&ledger) == text,
        },
    );
    refused += refuse_each(
        |a, b| with_refused(a, b, || ledger.modules()),
        |made| match made {
            Ok(made) => made.iter().map(|name| name.name).eq(["M"]),
            Err(error) => is_memory(Some(error)) && saved(&ledger) == text,
        },
    );
    // A question whose answer is a number takes no memory.
    let (counts, met) = with_refused(1, u64::MAX, || (ledger.runs(), ledger.tally(&COIN)));
    assert_eq!((counts, met), ((1, Some(Tally { packed: 1, unpacked: 0 })), 0));
    println!("{refused} requests refused");
    assert!(refused > 10);
}

/// The address of the example's coin, and the coin's name.
const ONE: Address = Address([0, 0, 0, 0, 0, 0, 0, 0, 0, 0, 0, 0, 0, 0, 0, 1]);
const COIN: Struct<'_> = Struct { address: ONE, module: "M", name: "Coin" };

fn shown_at(ledger: &Ledger, form: Form) -> Result<Entries, Error> {
    ledger.show_at(ONE, form)
}

fn shown_page(ledger: &Ledger, form: Form) -> Result<Entries, Error> {
    let page = ledger.page(&COIN, Address::default(), 100, form)?;
    Ok(page.expect("it is published").entries)
}
