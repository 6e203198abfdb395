//! Links the archive that `tests/build` writes: from target/staticlib of the repository, or from the folder that
//! MUENGLAVOT_ARCHIVE_DIR names.

use std::env;
use std::path::{Path, PathBuf};
use std::process::exit;

const FOLDER: &str = "MUENGLAVOT_ARCHIVE_DIR";
const ARCHIVE: &str = "libhost.a";

fn main() {
    let built = Path::new(env!("CARGO_MANIFEST_DIR")).join("../../target/staticlib");
    let folder = env::var_os(FOLDER).map_or(built, PathBuf::from);
    let archive = folder.join(ARCHIVE);
    println!("cargo:rerun-if-env-changed={FOLDER}");
    println!("cargo:rerun-if-changed={}", archive.display());
    if !archive.is_file() {
        eprintln!("There is no archive {}.", archive.display());
        eprintln!("Write it with `tests/build`, or set {FOLDER} to the folder that has {ARCHIVE}.");
        exit(1);
    }
    println!("cargo:rustc-link-search=native={}", folder.display());
    println!("cargo:rustc-link-lib=static=host");
}
