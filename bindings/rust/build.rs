//! Finds `libmoveledger.a`: in the folder that the environment's `MOVELEDGER_LIB_DIR` names. Otherwise, where the crate stands in its
//! repository, in `out/library`, where `bindings/library` puts it; that is asked for the library which `dist/` brings, and not to build
//! one. Otherwise, as in a package or among vendored crates, the crate's own archive is unpacked into `OUT_DIR`, if its sum is right.

use std::env;
use std::fs::{self, File};
use std::io::Error;
use std::path::{Path, PathBuf};
use std::process::{exit, Command, Stdio};

const FOLDER: &str = "MOVELEDGER_LIB_DIR";
const LIBRARY: &str = "libmoveledger.a";
/// The crate's own archive, and what has its sum: the same files as those of the repository's `dist/`.
const PACKED: &str = "libmoveledger.a.gz";
const SUMS: &str = "moveledger.sums";
const ANEW: &str = "take the crate's files anew from where they came";

/// What is found; otherwise why it isn't, and in a second line what to do.
type Found<T> = Result<T, String>;

fn watch(path: &Path) {
    println!("cargo:rerun-if-changed={}", path.display());
}

/// A folder that cargo names.
fn named_by_cargo(name: &str) -> Found<PathBuf> {
    env::var_os(name).map(PathBuf::from).ok_or_else(|| format!("there is no {name}\nlet cargo build this"))
}

/// A folder that is to have the library.
fn with_library(folder: PathBuf) -> Found<PathBuf> {
    let library = folder.join(LIBRARY);
    watch(&library);
    if library.is_file() {
        return Ok(folder);
    }
    let mends = "the repository's bindings/library makes it";
    Err(format!("there is no {}\n{mends}; {FOLDER} names another folder that has one", library.display()))
}

/// The repository that the crate stands in, if it stands in its repository.
fn repository_of(here: &Path) -> Option<PathBuf> {
    let top = here.join("../..");
    let place = top.join("bindings/rust").canonicalize().ok()?;
    (place == here.canonicalize().ok()? && top.join("bindings/library").is_file()).then_some(top)
}

/// The folder of the repository's library, which is put there if that takes no build.
fn of_repository(top: &Path) -> Found<PathBuf> {
    // Where it fails it says why, and the library isn't there.
    let _ = Command::new(top.join("bindings/library")).arg("--here").status();
    watch(&top.join("dist/moveledger.sums"));
    with_library(top.join("out/library"))
}

fn unread(file: &Path, why: Error) -> String {
    format!("{} can't be read: {why}\n{ANEW}", file.display())
}

/// What a tool prints that reads a file, unless that is sent elsewhere.
fn printed(tool: &str, words: &[&str], from: &Path, to: Stdio) -> Found<String> {
    let file = File::open(from).map_err(|why| unread(from, why))?;
    let ended = Command::new(tool).args(words).stdin(file).stdout(to).stderr(Stdio::inherit()).output();
    let ended = ended.map_err(|why| format!("{tool} can't be started: {why}\ninstall it"))?;
    if ended.status.success() {
        return Ok(String::from_utf8_lossy(&ended.stdout).into_owned());
    }
    Err(format!("{tool} fails on {}: {}\n{ANEW}", from.display(), ended.status))
}

fn unpack(packed: &Path, library: &Path) -> Found<()> {
    let refused = |why| format!("{} can't be written: {why}\nlet cargo write there", library.display());
    let file = File::create(library).map_err(refused)?;
    printed("gzip", &["-dc"], packed, file.into()).map(|_| ())
}

/// The sum that the library is to have.
fn wanted_sum(sums: &Path) -> Found<String> {
    let text = fs::read_to_string(sums).map_err(|why| unread(sums, why))?;
    let sum = text.lines().find_map(|line| line.strip_prefix("library "));
    sum.map(str::to_string).ok_or_else(|| format!("{} has no sum of the library\n{ANEW}", sums.display()))
}

fn check(library: &Path, sums: &Path) -> Found<()> {
    let wanted = wanted_sum(sums)?;
    let told = printed("sha256sum", &[], library, Stdio::piped())?;
    let sum = told.split_whitespace().next().unwrap_or("");
    if sum == wanted {
        return Ok(());
    }
    Err(format!("{PACKED} has a library with the sum {sum}, and {SUMS} says {wanted}\n{ANEW}"))
}

/// The folder into which the crate's own archive is unpacked. Nothing is left there if it isn't what it should be.
fn of_crate(here: &Path, out: PathBuf) -> Found<PathBuf> {
    let (packed, sums, library) = (here.join(PACKED), here.join(SUMS), out.join(LIBRARY));
    watch(&packed);
    watch(&sums);
    unpack(&packed, &library).and_then(|()| check(&library, &sums)).map(|()| out).map_err(|why| {
        let _ = fs::remove_file(&library);
        format!("{why}, or let {FOLDER} name a folder that has {LIBRARY}")
    })
}

fn folder() -> Found<PathBuf> {
    println!("cargo:rerun-if-env-changed={FOLDER}");
    if let Some(folder) = env::var_os(FOLDER) {
        return with_library(PathBuf::from(folder));
    }
    let here = named_by_cargo("CARGO_MANIFEST_DIR")?;
    match repository_of(&here) {
        Some(top) => of_repository(&top),
        None => of_crate(&here, named_by_cargo("OUT_DIR")?),
    }
}

fn main() {
    match folder() {
        Ok(folder) => {
            println!("cargo:rustc-link-search=native={}", folder.display());
            println!("cargo:rustc-link-lib=static=moveledger");
        }
        Err(why) => {
            eprintln!("{why}");
            exit(1);
        }
    }
}
