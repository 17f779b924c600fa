//! The worked rows, the examples and saved ledgers through the library: byte for byte what the program prints.

mod rows;

use moveledger::{check, migrate, prove, Address, Entry, Error, Form, Ledger, Line, Report, Struct};
use rows::{decoded, of_repository, rows, Row};
use std::fs;

/// The report of one call for each of these texts of records, with its lines read.
fn report(ledger: &mut Ledger, texts: &[Vec<u8>]) -> String {
    let mut report = Report::new();
    for text in texts {
        ledger.apply_into(text, &mut report).expect("there is memory");
    }
    for line in report.parsed() {
        line.expect("each line is known");
    }
    report.to_string()
}

/// All records in one call, and a call for each, give the same report and the same ledger; what is asked without a record is what
/// records are told.
fn answers_as_wanted(first: impl Fn() -> Ledger, row: &Row, records: &[Vec<u8>]) {
    let (mut at_once, mut one_by_one) = (first(), first());
    assert_eq!(report(&mut at_once, &[records.concat()]), row.report(), "{}", row.shows);
    assert_eq!(report(&mut one_by_one, records), row.report(), "{}", row.shows);
    let saved = at_once.save().expect("there is memory");
    assert_eq!(*saved, *one_by_one.save().expect("there is memory"), "{}", row.shows);
    is_asked_as_told(&mut at_once);
    let again = Ledger::load(&saved).expect("what was saved is loaded");
    assert_eq!(*saved, *again.save().expect("there is memory"), "{}", row.shows);
}

/// A show and an audit without a record have the lines of those with one, but for the number.
fn is_asked_as_told(ledger: &mut Ledger) {
    for form in [Form::Text, Form::Json] {
        let asked = [ledger.show(form), ledger.audit(form)].map(|lines| lines.expect("there is memory"));
        for (kind, lines) in [3, 4].into_iter().zip(asked) {
            let record = [kind, form as u8, 1];
            let told = ledger.apply(&record[..2 + form as usize]).expect("there is memory");
            let number = format!("{} ", ledger.answered());
            let bare: Vec<&str> =
                told.lines().map(|line| line.strip_prefix(&number).expect("its number")).collect();
            assert_eq!(bare.join("\n") + "\n", lines.as_str());
            assert!(lines.parsed().all(|entry| entry.is_ok()));
        }
    }
    is_asked_by_names(ledger);
}

/// Questions by names and addresses tell what a show and an audit do, and nothing else.
fn is_asked_by_names(ledger: &Ledger) {
    let nobody = Address([255; 16]);
    let (show, audit) = (ledger.show(Form::Text), ledger.audit(Form::Text));
    let (show, audit) = (show.expect("there is memory"), audit.expect("there is memory"));
    for entry in show.parsed() {
        if let Ok(Entry::At { address, structure, value }) = entry {
            assert_eq!(value_of(ledger, address, structure).as_deref(), Some(value));
            assert_eq!(value_of(ledger, nobody, structure), None);
            let others = [("", structure.name), (structure.module, ""), (structure.name, structure.module)];
            for (module, name) in others {
                assert_eq!(value_of(ledger, address, Struct { module, name, ..structure }), None);
            }
            has_values_at(ledger, address, &show);
            has_pages(ledger, structure, &show);
        }
    }
    for entry in audit.parsed() {
        if let Ok(Entry::Count { structure, stored, packed, unpacked }) = entry {
            let tally = ledger.tally(&structure).expect("it is there");
            assert_eq!((tally.stored(), tally.packed, tally.unpacked), (stored, packed, unpacked));
            assert_eq!(ledger.tally(&Struct { name: "", ..structure }), None);
        }
    }
    assert_eq!(ledger.show_at(nobody, Form::Text).expect("there is memory").as_str(), "end 0\n");
    let nothing = Struct { address: nobody, module: "M", name: "Coin" };
    assert!(ledger.page(&nothing, nobody, 1, Form::Text).expect("there is memory").is_none());
    assert_eq!(ledger.values(nothing).count(), 0);
    has_modules(ledger);
}

fn value_of(ledger: &Ledger, address: Address, structure: Struct<'_>) -> Option<String> {
    ledger.value(address, &structure).expect("there is memory")
}

/// What is shown at an address are the lines of a show with that address.
fn has_values_at(ledger: &Ledger, address: Address, show: &moveledger::Entries) {
    let begins = format!("at {address} ");
    let wanted: Vec<&str> = show.as_str().lines().filter(|line| line.starts_with(&begins)).collect();
    let found = ledger.show_at(address, Form::Text).expect("there is memory");
    assert_eq!(found.as_str(), format!("{}\nend {}\n", wanted.join("\n"), wanted.len()));
    let json = ledger.show_at(address, Form::Json).expect("there is memory").to_string();
    assert!(json.starts_with("json {\"show\":[{\"address\":\"") && json.ends_with("}]}\n"));
    assert_eq!(json.matches("\"value\"").count(), wanted.len());
}

/// The pages of a struct's values, of one key and of many, are what a show has of it.
fn has_pages(ledger: &Ledger, structure: Struct<'_>, show: &moveledger::Entries) {
    let wanted: Vec<(Address, String)> = show
        .parsed()
        .filter_map(|entry| match entry {
            Ok(Entry::At { address, structure: found, value }) if found == structure => {
                Some((address, value.to_owned()))
            }
            _ => None,
        })
        .collect();
    let all = ledger.values(structure).map(|value| value.expect("there is memory"));
    assert_eq!(all.map(|value| (value.address, value.text)).collect::<Vec<_>>(), wanted);
    for most in [1, 2, 3] {
        let (mut from, mut found) = (Some(Address::default()), Vec::new());
        while let Some(begin) = from {
            let page = ledger.page(&structure, begin, most, Form::Text).expect("there is memory");
            let page = page.expect("it is published");
            let told: Vec<_> = page.values().map(|value| (value.address, value.text)).collect();
            assert!(told.len() <= most);
            assert!(page.next.iter().all(|next| *next > begin), "a page goes on behind where it began");
            found.extend(told);
            from = page.next;
        }
        assert_eq!(found, wanted);
    }
}

/// A number in seven bits a byte, the lowest first, and what follows it.
fn read_number(bytes: &[u8]) -> (u64, &[u8]) {
    let length = 1 + bytes.iter().take_while(|byte| **byte >= 128).count();
    let digits = bytes[..length].iter().rev();
    (digits.fold(0, |number, byte| number << 7 | u64::from(byte & 127)), &bytes[length..])
}

/// Each module that is named has its bytes, with which it passes.
fn has_modules(ledger: &Ledger) {
    let modules = ledger.modules().expect("there is memory");
    for name in modules.iter() {
        let module = ledger.module(name.address, name.name).expect("there is memory").expect("it is there");
        let digits: String = module.certificate().iter().map(|byte| format!("{byte:02x}")).collect();
        check(module.as_bytes(), &digits).expect("it passed");
        for other in ["", "it has no such name"] {
            assert!(ledger.module(name.address, other).expect("there is memory").is_none());
        }
    }
    // A saved ledger begins with its mark, the number of runs and that of modules.
    let saved = ledger.save().expect("there is memory");
    let (runs, behind) = read_number(&saved[4..]);
    assert_eq!((ledger.runs(), modules.iter().count() as u64), (runs, read_number(behind).0));
}

fn empty() -> Ledger {
    Ledger::new().expect("there is memory")
}

#[test]
fn rows_are_answered() {
    for row in rows("rows.rt", "ROWS") {
        answers_as_wanted(empty, &row, &row.records());
    }
}

#[test]
fn loaded_ledgers_go_on() {
    for row in rows("saved.rt", "LOADED") {
        let (text, records) = row.given.split_once(' ').expect("a ledger and records");
        let load = || Ledger::load(&decoded(text)).expect("it is loaded");
        answers_as_wanted(load, &row, &[decoded(records)]);
    }
}

#[test]
fn saved_ledgers_are_migrated_or_refused() {
    for row in rows("saved.rt", "MIGRATED") {
        let text = decoded(&row.given);
        match row.wanted.strip_prefix("load refused ") {
            None => {
                assert_eq!(*migrate(&text).expect("it is loaded"), *decoded(&row.wanted), "{}", row.shows);
                let ledger = Ledger::load(&text).expect("it is loaded");
                assert_eq!(*ledger.save().expect("there is memory"), *decoded(&row.wanted), "{}", row.shows);
            }
            Some(reason) => {
                let is_it = |error| matches!(error, Error::LoadRefused(found) if found.to_string() == reason);
                assert!(migrate(&text).err().is_some_and(is_it), "{}", row.shows);
                assert!(Ledger::load(&text).err().is_some_and(is_it), "{}", row.shows);
            }
        }
    }
}

#[test]
fn examples_are_answered() {
    let files = fs::read_dir(of_repository("examples")).expect("the examples are there");
    let mut count = 0;
    for report_file in files.map(|file| file.expect("a file").path()) {
        if report_file.extension().is_some_and(|it| it == "report") {
            let wanted = fs::read_to_string(&report_file).expect("a report");
            let records = fs::read(report_file.with_extension("stream")).expect("a stream");
            let mut ledger = match fs::read(report_file.with_extension("ledger")) {
                Ok(text) => Ledger::load(&text).expect("it is loaded"),
                Err(_) => empty(),
            };
            assert_eq!(report(&mut ledger, &[records]), wanted, "{}", report_file.display());
            count += 1;
        }
    }
    assert!(count > 5);
}

/// What the program prints of a module.
fn line_of(error: Error) -> String {
    match error {
        Error::Refused(phase) => format!("refused {phase}"),
        Error::TooComplex => "too complex".to_owned(),
        other => other.to_string(),
    }
}

#[test]
fn modules_are_proved_and_checked() {
    for row in rows("authoring.rt", "PROVED") {
        let module = decoded(&row.given);
        let printed = match prove(&module) {
            Ok(certificate) => {
                check(&module, certificate.as_str()).expect("what is proved is accepted");
                assert_eq!(certificate.to_bytes(), decoded(certificate.as_str()));
                certificate.as_str().to_owned()
            }
            Err(error) => line_of(error),
        };
        assert_eq!(printed, row.wanted, "{}", row.shows);
    }
}

#[test]
fn texts_of_certificates_are_checked() {
    for row in rows("authoring.rt", "CHECKED") {
        let (text, answer) = row.wanted.split_once(": ").expect("a text and an answer");
        let text = text.replace("\\r", "\r").replace("\\n", "\n");
        let printed = check(&decoded(&row.given), &text).map_or_else(line_of, |()| "accepted".to_owned());
        assert_eq!(printed, answer, "{}", row.shows);
    }
}

#[test]
fn lines_are_read() {
    for (text, wanted) in [
        ("7 published 2", "Published { record: 7, modules: 2 }"),
        ("7 refused 13", "Refused { record: 7, phase: 13 }"),
        ("7 rejected 6", "Rejected { record: 7, reason: 6 }"),
        ("7 returned 5", "Returned { record: 7, steps: 5 }"),
        (
            "7 aborted code 18446744073709551615 3",
            "Aborted { record: 7, abort: Code(18446744073709551615), steps: 3 }",
        ),
        ("7 aborted arith 0 3", "Aborted { record: 7, abort: Arithmetic, steps: 3 }"),
        ("7 exhausted frames 9", "Exhausted { record: 7, what: Frames, steps: 9 }"),
        ("7 end 1", "Entry { record: 7, entry: End { count: 1 } }"),
        ("7 json {\"show\":[]}", "Entry { record: 7, entry: Json(\"{\\\"show\\\":[]}\") }"),
    ] {
        let line = Line::parse(text).expect("it is a line");
        assert_eq!((line.record(), format!("{line:?}").as_str()), (7, wanted));
    }
    let stored =
        Entry::parse("at 0000000000000000000000000000000a 00000000000000000000000000000001::M::Coin {7}");
    match stored {
        Ok(Entry::At { address, structure, value }) => {
            assert_eq!((address, structure.module, structure.name, value), (10.into(), "M", "Coin", "{7}"));
            assert_eq!(structure.to_string(), "00000000000000000000000000000001::M::Coin");
        }
        other => panic!("{other:?}"),
    }
    for cut in [
        "",
        "7",
        "7 ",
        "7 publ",
        "7 published",
        "+7 published 1",
        "7 published -1",
        "7 published 1 ",
        "7 aborted exists 0",
    ] {
        assert!(Line::parse(cut).is_err(), "{cut:?}");
    }
}
