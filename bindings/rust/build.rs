//! Finds the archive of the proved library and has it linked.

use std::env;
use std::path::{Path, PathBuf};
use std::process::exit;

const ARCHIVE: &str = "libplanner.a";
const FOLDER: &str = "COMZSERED_LIB_DIR";
/// Where the caller stands. Cargo runs this script in the package's folder and leaves the variable as
/// the caller's shell set it.
const CALLER: &str = "PWD";

fn main() {
    let folder = folder();
    let archive = folder.join(ARCHIVE);
    println!("cargo:rerun-if-changed={}", archive.display());
    if !archive.is_file() {
        eprintln!("There is no {}.", archive.display());
        eprintln!("Build it with 'tools/build' in the repository's folder,");
        eprintln!("or name the folder that holds {ARCHIVE} by the environment variable {FOLDER}.");
        exit(1);
    }
    println!("cargo:rustc-link-search=native={}", folder.display());
    println!("cargo:rustc-link-lib=static=planner");
}

/// The folder that the caller named, or else the one in which this repository builds the archive.
fn folder() -> PathBuf {
    println!("cargo:rerun-if-env-changed={FOLDER}");
    match env::var_os(FOLDER).map(PathBuf::from) {
        Some(named) if named.is_absolute() => named,
        Some(named) => caller(&named).join(named),
        None => Path::new(env!("CARGO_MANIFEST_DIR")).join("../../target/staticlib"),
    }
}

/// The folder from which a relative one is taken.
fn caller(named: &Path) -> PathBuf {
    println!("cargo:rerun-if-env-changed={CALLER}");
    match env::var_os(CALLER).map(PathBuf::from) {
        Some(caller) if caller.is_absolute() => caller,
        _ => {
            eprintln!("{FOLDER} is {}, a relative folder.", named.display());
            eprintln!(
                "It is taken from where you stand, and {CALLER} does not tell where that is."
            );
            eprintln!("Name the folder from the root on.");
            exit(1);
        }
    }
}
