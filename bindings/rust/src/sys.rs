//! The calls of `moveledger.h`, as C has them. The rest of the crate is what makes them safe.

use std::ffi::c_void;

/// What holds a ledger of the library's, or none where it is null. Each call takes it as its own while it runs.
#[repr(C)]
pub struct RawLedger {
    pub own: *mut c_void,
}

/// How far a save in pieces is, or none where it is null.
#[repr(C)]
pub struct RawSaving {
    pub own: *mut c_void,
}

/// Bytes that the library gives, to be freed by `moveledger_bytes_free`.
#[repr(C)]
pub struct RawBytes {
    pub bytes: *mut u8,
    pub length: usize,
    pub own: *mut c_void,
}

// What a call answers.
pub const DONE: i32 = 0;
pub const REFUSED: i32 = 1;
pub const LOAD_REFUSED: i32 = 2;
pub const TOO_COMPLEX: i32 = 3;
pub const MEMORY: i32 = 4;
pub const ABSENT: i32 = 8;
pub const TOO_LONG: i32 = 9;

extern "C" {
    pub fn moveledger_new(ledger: *mut RawLedger) -> i32;
    pub fn moveledger_load(saved: *const u8, length: usize, ledger: *mut RawLedger, why: *mut u8) -> i32;
    pub fn moveledger_free(ledger: *mut RawLedger);
    pub fn moveledger_apply(
        ledger: *mut RawLedger,
        records: *const u8,
        length: usize,
        answered: *mut u64,
        report: *mut RawBytes,
    ) -> i32;
    pub fn moveledger_begin(ledger: *mut RawLedger) -> i32;
    pub fn moveledger_rollback(ledger: *mut RawLedger) -> i32;
    pub fn moveledger_commit(ledger: *mut RawLedger) -> i32;
    pub fn moveledger_changes(ledger: *mut RawLedger, before: *mut RawBytes, now: *mut RawBytes) -> i32;
    pub fn moveledger_changed_modules(ledger: *mut RawLedger, names: *mut RawBytes) -> i32;
    pub fn moveledger_save(ledger: *mut RawLedger, saved: *mut RawBytes) -> i32;
    pub fn moveledger_save_begin(saving: *mut RawSaving) -> i32;
    pub fn moveledger_save_next(ledger: *mut RawLedger, saving: *mut RawSaving, piece: *mut RawBytes) -> i32;
    pub fn moveledger_save_end(saving: *mut RawSaving);
    pub fn moveledger_show(ledger: *mut RawLedger, form: u32, lines: *mut RawBytes) -> i32;
    pub fn moveledger_audit(ledger: *mut RawLedger, form: u32, lines: *mut RawBytes) -> i32;
    pub fn moveledger_show_value(
        ledger: *mut RawLedger,
        address: *const [u8; 16],
        home: *const [u8; 16],
        module: *const u8,
        module_length: usize,
        name: *const u8,
        name_length: usize,
        form: u32,
        lines: *mut RawBytes,
    ) -> i32;
    pub fn moveledger_show_at(
        ledger: *mut RawLedger,
        address: *const [u8; 16],
        form: u32,
        lines: *mut RawBytes,
    ) -> i32;
    pub fn moveledger_show_page(
        ledger: *mut RawLedger,
        home: *const [u8; 16],
        module: *const u8,
        module_length: usize,
        name: *const u8,
        name_length: usize,
        from: *mut [u8; 16],
        most: usize,
        form: u32,
        lines: *mut RawBytes,
        is_more: *mut u8,
    ) -> i32;
    pub fn moveledger_modules(ledger: *mut RawLedger, names: *mut RawBytes) -> i32;
    pub fn moveledger_module(
        ledger: *mut RawLedger,
        address: *const [u8; 16],
        name: *const u8,
        name_length: usize,
        module: *mut RawBytes,
        certificate: *mut RawBytes,
    ) -> i32;
    pub fn moveledger_runs(ledger: *mut RawLedger, runs: *mut u64) -> i32;
    pub fn moveledger_tally(
        ledger: *mut RawLedger,
        home: *const [u8; 16],
        module: *const u8,
        module_length: usize,
        name: *const u8,
        name_length: usize,
        packed: *mut u64,
        unpacked: *mut u64,
    ) -> i32;
    pub fn moveledger_read_record(
        records: *const u8,
        length: usize,
        size: *mut usize,
        kind: *mut u8,
        is_shaped: *mut u8,
        sender: *mut [u8; 16],
        budget: *mut u64,
    ) -> i32;
    pub fn moveledger_prove(
        module: *const u8,
        length: usize,
        certificate: *mut RawBytes,
        why: *mut u8,
    ) -> i32;
    pub fn moveledger_prove_within(
        module: *const u8,
        length: usize,
        steps: u64,
        certificate: *mut RawBytes,
        why: *mut u8,
    ) -> i32;
    pub fn moveledger_check(
        module: *const u8,
        length: usize,
        certificate: *const u8,
        certificate_length: usize,
        why: *mut u8,
    ) -> i32;
    pub fn moveledger_migrate(saved: *const u8, length: usize, migrated: *mut RawBytes, why: *mut u8) -> i32;
    pub fn moveledger_bytes_free(bytes: *mut RawBytes);
}
