//! Ledgers in threads, altered records, and numbers that go on.

mod rows;

use moveledger::{prove, record, Address, Error, Form, Ledger, Struct};
use rows::{of_repository, rows};
use std::fs;
use std::thread;

/// The module 0x1::M with the coin.
fn coin() -> Vec<u8> {
    fs::read(of_repository("examples/first-coin.stream")).expect("the stream is there")[20..119].to_vec()
}

/// The record that publishes it.
fn published() -> Vec<u8> {
    let module = coin();
    let certificate = prove(&module).expect("it passes").to_bytes();
    record::publish(Address::from(1), &[(&module, &certificate)])
}

/// The record by which an address mints a coin.
fn mint(sender: u128) -> Vec<u8> {
    record::run(&record::Run {
        sender: Address::from(sender),
        address: Address::from(1),
        module: "M",
        function: "mint",
        budget: 100,
        arguments: &[record::Argument::U64(7)],
    })
}

/// What a ledger of its own answers to so many mints, one by one.
fn minted(count: u128) -> (String, Vec<u8>) {
    let mut ledger = Ledger::new().expect("there is memory");
    let mut report = ledger.apply(&published()).expect("there is memory");
    for sender in 0..count {
        ledger.apply_into(&mint(sender), &mut report).expect("there is memory");
    }
    (report.to_string(), ledger.save().expect("there is memory").to_vec())
}

#[test]
fn records_are_those_of_the_examples() {
    let wanted = fs::read(of_repository("examples/first-coin.stream")).expect("the stream is there");
    assert_eq!([published(), mint(1)].concat(), wanted);
}

#[test]
fn two_threads_have_a_ledger_each() {
    let alone = [minted(50), minted(60)];
    let together = [50, 60].map(|count| thread::spawn(move || minted(count)));
    assert_eq!(together.map(|thread| thread.join().expect("it ends")), alone);
}

#[test]
fn threads_read_one_ledger_at_once() {
    let mut ledger = Ledger::new().expect("there is memory");
    ledger.apply(&published()).expect("there is memory");
    ledger.apply(&mint(1)).expect("there is memory");
    let told = || {
        let saved = ledger.save().expect("there is memory").to_vec();
        let shown = ledger.show(Form::Text).expect("there is memory").as_str().to_string();
        let coin = Struct { address: Address::from(1), module: "M", name: "Coin" };
        assert_eq!(ledger.values(coin).filter_map(Result::ok).count(), 1);
        assert_eq!(ledger.tally(&coin).map(|tally| tally.stored()), Some(1));
        (saved, shown, ledger.audit(Form::Json).expect("there is memory").as_str().to_string())
    };
    let alone = told();
    thread::scope(|all| {
        for _ in 0..4 {
            all.spawn(|| (0..200).for_each(|_| assert_eq!(told(), alone)));
        }
    });
}

#[test]
fn a_ledger_goes_to_another_thread_and_back() {
    let mut ledger = Ledger::new().expect("there is memory");
    ledger.apply(&published()).expect("there is memory");
    let mut ledger = thread::spawn(move || {
        ledger.apply(&mint(1)).expect("there is memory");
        ledger
    })
    .join()
    .expect("it ends");
    assert_eq!(ledger.apply(&mint(2)).expect("there is memory").as_str(), "3 returned 5\n");
}

#[test]
fn numbers_go_on_from_where_a_node_says() {
    let mut ledger = Ledger::new().expect("there is memory");
    ledger.apply(&published()).expect("there is memory");
    let mut next = Ledger::load(&ledger.save().expect("there is memory")).expect("it is loaded");
    next.go_on_after(ledger.answered());
    assert_eq!(next.apply(&mint(1)).expect("there is memory").as_str(), "2 returned 5\n");
    assert_eq!(next.answered(), 2);
}

#[test]
fn nothing_is_answered_to_nothing() {
    let mut ledger = Ledger::new().expect("there is memory");
    assert_eq!(ledger.apply(&[]).expect("there is memory").as_str(), "");
    assert_eq!(ledger.answered(), 0);
    assert_eq!(ledger.show(Form::Text).expect("there is memory").as_str(), "end 0\n");
    let nothing = Struct { address: Address::default(), module: "", name: "" };
    assert_eq!(
        (ledger.value(Address::default(), &nothing).ok(), ledger.values(nothing).count()),
        (Some(None), 0)
    );
    assert_eq!((ledger.modules().expect("there is memory").iter().count(), ledger.runs()), (0, 0));
    assert_eq!(ledger.tally(&nothing), None);
    assert!(matches!(Ledger::load(&[]), Err(Error::LoadRefused(1))));
    assert!(matches!(prove(&[]), Err(Error::Refused(2))));
}

#[test]
fn a_cut_record_is_answered_and_the_next_call_goes_on() {
    let mut ledger = Ledger::new().expect("there is memory");
    assert_eq!(ledger.apply(&published()[..50]).expect("there is memory").as_str(), "1 refused 1\n");
    assert_eq!(ledger.apply(&published()).expect("there is memory").as_str(), "2 published 1\n");
}

// Bytes that are altered are answered, whatever they are.
#[test]
fn altered_records_are_answered() {
    for row in rows("rows.rt", "ROWS").iter().take(20) {
        let bytes = row.records().concat();
        for at in (0..bytes.len()).step_by(37) {
            let mut altered = bytes.clone();
            altered[at] ^= 1;
            let mut ledger = Ledger::new().expect("there is memory");
            let report = ledger.apply(&altered).expect("there is memory");
            assert!(report.parsed().all(|line| line.is_ok()));
        }
    }
}
