"""What was asked for by name: the calls and types of each library, which crates call them, the definitions, and the libraries of others with
the place where each does its work. `scripts/try-surface` holds the code to it. Nothing makes this list anew: a row that goes is missed,
since their number stands here, too.

A call that takes memory has the allocator as its first parameter, behind `self`, which is left out here (decision 20). Names of parameters
don't count; lifetimes do, up to their names, where one ties the result to a parameter."""

from typing import Dict, List, NamedTuple

# The form of a type whose fields nobody else sees.
READ = "a type without public fields, with readers"
# How many rows ASKED, DEFINITIONS and LIBRARIES have.
COUNT = 93


class Row(NamedTuple):
    """A call or a type: the crate, the name, the form, and the crates whose code calls it, tests and dead code apart, each with how often it
    has to, if that is more than once; then the decisions that say why the code differs, if it may."""

    crate: str
    name: str
    form: str
    callers: str = ""
    decisions: str = ""


ASKED: List[Row] = [
    Row("mv_move_types", "Refusal", "enum { Phase(u8), Memory }"),
    Row("mv_move_types", "Address", "type = u128"),
    Row("mv_uleb", "read", "fn(&[u8], u64) -> Result<(u64, usize), UlebError>", "mv_module_text"),
    Row("mv_uleb", "write", "fn(u64, &mut Vec<u8>) -> Result<(), AllocError>", "mv_module_text mv_binary_format mv_certificate mv_saved_text"),
    Row("mv_uleb", "UlebError", "enum { Ends, Long, Range }"),
    Row("mv_binary_format", "Module", "struct<'a>"),
    Row("mv_binary_format", "decode", "fn(&'a [u8]) -> Result<Module<'a>, Refusal>", "mv_ledger_state moveledger"),
    Row("mv_binary_format", "encode", "fn(&Module<'_>) -> Result<Vec<u8>, AllocError>"),
    Row("mv_binary_format", "code", "fn(&Module<'a>, usize) -> Cursor<'a>", "mv_bounds"),
    Row("mv_binary_format", "Cursor", "struct<'a>"),
    Row("mv_bounds", "Bounded", READ),
    Row("mv_bounds", "check", "fn(Module<'a>) -> Result<Bounded<'a>, Refusal>", "mv_ledger_state moveledger"),
    Row("mv_signatures", "check", "fn(&Bounded<'_>) -> Result<(), Refusal>", "mv_type_states"),
    Row("mv_abilities", "check", "fn(&Bounded<'_>) -> Result<(), Refusal>", "mv_type_states"),
    Row("mv_abilities", "of", "fn(&Bounded<'_>, Token) -> Abilities", "mv_locals_safety"),
    Row("mv_acquires", "check", "fn(&Bounded<'_>) -> Result<(), Refusal>", "mv_certificate"),
    Row("mv_type_states", "Typed", READ),
    Row("mv_type_states", "check", "fn(Bounded<'a>) -> Result<Typed<'a>, Refusal>", "mv_ledger_state moveledger"),
    Row("mv_cfg", "Cfg", "struct { blocks: Vec<Block> }"),
    Row("mv_cfg", "Block", "struct { first: usize, last: usize, successors: Vec<usize>, reached: bool }"),
    Row("mv_cfg", "blocks", "fn(&Bounded<'_>, usize) -> Result<Cfg, Refusal>", "mv_type_states"),
    Row("mv_lattice", "Domain", "trait of copy, leq, join, step, fits"),
    Row("mv_lattice", "Domain::State", "type: PartialEq + Drop"),
    Row("mv_lattice", "Domain::copy", "fn(&self, &Self::State) -> Result<Self::State, AllocError>", "mv_lattice"),
    Row("mv_lattice", "Domain::leq", "fn(&self, &Self::State, &Self::State) -> bool", "mv_lattice"),
    Row("mv_lattice", "Domain::join", "fn(&self, &Self::State, &Self::State) -> Result<Self::State, AllocError>", "mv_lattice"),
    Row("mv_lattice", "Domain::step", "fn(&self, Self::State, usize) -> Result<Self::State, StepError>", "mv_lattice"),
    Row("mv_lattice", "Domain::fits", "fn(&self, &Self::State) -> bool", "mv_lattice"),
    Row("mv_lattice", "check_flow", "fn<D: Domain>(&D, &Cfg, &D::State, &[Option<D::State>]) -> Result<(), StepError>", "mv_certificate*2"),
    Row("mv_lattice", "solve", "fn<D: Domain>(&D, &Cfg, &D::State) -> Result<Vec<Option<D::State>>, SolveError>", "mv_analyser*2"),
    Row("mv_lattice", "StepError", "enum { Need, Memory }"),
    Row("mv_lattice", "SolveError", "enum { Need, TooComplex, Memory }"),
    Row("mv_edges", "leq_counted", "fn(&Edges, &Edges, &mut u64) -> bool", "mv_edges"),
    Row("mv_certificate", "Cert", "struct { functions: Vec<Vec<Option<Known>>> }"),
    Row("mv_certificate", "Known", "struct { locals: Availabilities, edges: Edges }"),
    Row("mv_certificate", "Verified", READ),
    Row("mv_certificate", "decode", "fn(&Typed<'_>, &[u8]) -> Result<Cert, Refusal>", "mv_ledger_state moveledger"),
    Row("mv_certificate", "encode", "fn(&Cert) -> Result<Vec<u8>, AllocError>", "moveledger"),
    Row("mv_certificate", "check", "fn(Typed<'a>, &Cert) -> Result<Verified<'a>, Refusal>", "mv_ledger_state moveledger"),
    Row("mv_analyser", "prove", "fn(&Typed<'_>) -> Result<Cert, ProveError>", "moveledger"),
    Row("mv_analyser", "ProveError", "enum { Refused(u8), TooComplex, Memory }"),
    Row("mv_linker", "New", "struct<'a> { module: Verified<'a>, text: &'a [u8], certificate: &'a [u8] }"),
    Row("mv_linker", "Store", READ),
    Row("mv_linker", "Linked", READ),
    Row("mv_linker", "link", "fn(&Store, Option<Address>, Vec<New<'_>>) -> Result<Linked, Refusal>", "mv_ledger_state"),
    Row("mv_linker", "add", "fn(&mut Store, Linked) -> Result<(), AllocError>", "mv_ledger_state"),
    Row("mv_move_types", "Key", "struct { address: Address, place: u16, index: u16 }"),
    Row("mv_storage", "Value", "struct", "", "3"),
    Row("mv_storage", "Overlay", "struct<'a>", "", "13"),
    Row("mv_storage", "Overlay", READ),
    Row("mv_storage", "Overlay::exists", "fn(&self, &Key) -> bool", "mv_interpreter", "49"),
    Row("mv_storage", "Overlay::take", "fn(&mut self, &Key) -> Result<Option<Value>, AllocError>", "mv_interpreter"),
    Row("mv_storage", "Overlay::put", "fn(&mut self, Key, Value) -> Result<(), AllocError>", "mv_interpreter", "49"),
    Row("mv_storage", "Overlay::view", "fn(&self, &Key, usize, usize) -> Option<&[u128]>", "mv_interpreter"),
    Row("mv_storage", "Overlay::edit", "fn(&mut self, &Key, usize, usize) -> Result<Option<&mut [u128]>, AllocError>", "mv_interpreter"),
    Row("mv_storage", "Overlay::commit", "fn(&mut self) -> Result<(), AllocError>", "mv_ledger", "13, 49"),
    Row("mv_storage", "Overlay::discard", "fn(self)", "mv_ledger", "13, 49"),
    Row("mv_interpreter", "FuncId", "struct { place: u16, index: u16 }", "", "19"),
    Row("mv_interpreter", "Tally", "type = Vec<StructTally>", "", "47, 49"),
    Row("mv_machine", "Arg", "struct { kind: LeafKind, number: u128 }"),
    Row("mv_interpreter", "run", "fn(&Store, &mut Overlay<'_>, FuncId, &[Arg], u64) -> Result<(Outcome, Tally), RunError>", "mv_ledger", "13, 19, 36, 47, 49"),
    Row("mv_interpreter", "RunError", "enum { Memory }"),
    Row("mv_machine", "Outcome", "struct { ending: Ending, steps: u64 }"),
    Row("mv_machine", "Ending", "enum { Returned, Aborted(Kind, u64), Exhausted(Stop) }"),
    Row("mv_machine", "Kind", "enum { Code, Arith, Exists, Missing }"),
    Row("mv_machine", "Stop", "enum { Steps, Frames }"),
    Row("mv_ledger", "Ledger::new", "fn() -> Self", "moveledger_program moveledger_c"),
    Row("mv_ledger", "Ledger::publish", "fn(&mut self, &[u8]) -> Reply", "moveledger"),
    Row("mv_ledger", "Ledger::execute", "fn(&mut self, &[u8]) -> Reply", "moveledger"),
    Row("mv_ledger", "Ledger::show", "fn(&self, &[u8]) -> Result<String, Refusal>", "moveledger_c", "49"),
    Row("mv_ledger", "Ledger::audit", "fn(&self, &[u8]) -> Result<String, Refusal>", "moveledger_c", "49"),
    Row("mv_ledger", "Ledger::save", "fn(&self) -> Result<Vec<u8>, AllocError>", "moveledger moveledger_c"),
    Row("mv_ledger", "Ledger::load", "fn(&[u8]) -> Result<Ledger, LoadError>", "moveledger moveledger_c"),
    Row("mv_ledger", "LoadError", "enum { Head, Module, Link, Body, Tally, Memory }"),
    Row("mv_ledger", "migrate", "fn(&[u8]) -> Result<Vec<u8>, LoadError>", "moveledger"),
    Row("mv_ledger", "Reply", "enum { Published(u64), Refused(u8), Rejected(u8), Ran(Outcome), Memory }"),
    Row("moveledger", "engine", "fn<R: Read, W: Write>(&mut R, &mut W, &mut Ledger) -> Result<u64, EngineError>", "moveledger"),
    Row("moveledger", "EngineError", "enum { Read, Write, Memory }"),
    Row("moveledger", "command", "fn(&'a [&'a str]) -> Result<Task<'a>, LineError>", "moveledger_program"),
    Row(
        "moveledger",
        "Task",
        "enum<'a> { Apply { file: &'a str, load: Option<&'a str>, save: Option<&'a str> }, Prove(&'a str), Check(&'a str, &'a str), Migrate(&'a str, &'a str) }",
        decisions="103",
    ),
    Row("moveledger", "LineError", "enum { Words(clap::Error), Memory }"),
    Row("moveledger", "status", "fn(&End) -> u8", "moveledger"),
    Row("moveledger", "End", "enum { Done, Read, Write, Memory, Words, Refused(u8), LoadRefused(u8), TooComplex }", decisions="103"),
    Row("moveledger", "prove_text", "fn(&[u8]) -> Result<String, ProveError>", "moveledger moveledger_c"),
    Row("moveledger", "check_text", "fn(&[u8], &[u8]) -> Result<(), Refusal>", "moveledger moveledger_c"),
]
# Definitions of specs/ that were asked for by name.
DEFINITIONS = ["mv_machine::flat", "mv_machine::offset"]


class Library(NamedTuple):
    """A library of others: its name, what it is to do, the file that does so, and the words that this has in code that is reached."""

    name: str
    does: str
    places: Dict[str, str]


LIBRARIES = [
    Library("byteorder", "reads and writes little-endian numbers", {"mv_module_text/src/reader.rt": "LittleEndian::read_", "mv_module_text/src/writing.rt": "LittleEndian::write_"}),
    Library("hex", "writes addresses, writes and reads certificates", {"mv_lines": "hex::encode", "moveledger/src/proving.rt": "hex::encode", "moveledger/src/checking.rt": "hex::decode"}),
    Library("indexmap", "keeps modules in the order of publication", {"mv_linker": "IndexMap<"}),
    Library("serde_json", "writes the JSON of reports", {"mv_lines": "serde_json::"}),
    Library("clap", "reads the command line", {"mv_commands": "use clap::"}),
    Library("thiserror", "derives public error types", {"mv_move_types": "use thiserror::Error;"}),
]
# Asked names that don't stand so yet, where no decision says why, each with what there is. One that is mended goes from here.
OPEN: Dict[str, str] = {}
