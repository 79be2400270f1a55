//! Links the proved model's static library, which `./lurgabel library` builds.

use std::path::PathBuf;

const ARCHIVE: &str = "libcapi.a";
/// Names another folder that holds the archive.
const FOLDER_VARIABLE: &str = "LURGABEL_LIB_DIR";

fn main() {
    let archive = folder().join(ARCHIVE);
    println!("cargo:rerun-if-env-changed={FOLDER_VARIABLE}");
    println!("cargo:rerun-if-changed={}", archive.display());
    if !archive.is_file() {
        eprintln!("{} is missing: run `./lurgabel library` first", shown());
        std::process::exit(1);
    }
    println!("cargo:rustc-link-search=native={}", folder().display());
    println!("cargo:rustc-link-lib=static=capi");
}

fn folder() -> PathBuf {
    match std::env::var_os(FOLDER_VARIABLE) {
        Some(folder) => PathBuf::from(folder),
        None => here().join("../target/staticlib"),
    }
}

fn here() -> PathBuf {
    PathBuf::from(std::env::var_os("CARGO_MANIFEST_DIR").expect("cargo names this folder"))
}

/// The archive as its builder knows it, from the repository's top.
fn shown() -> String {
    match std::env::var(FOLDER_VARIABLE) {
        Ok(folder) => format!("{folder}/{ARCHIVE}"),
        Err(_) => format!("target/staticlib/{ARCHIVE}"),
    }
}
