//! Links `libcontacts.a` from the directory in `CONTACTS_LIB_DIR`, or from where `make` writes it. A
//! relative directory counts from this crate's. Without the library the crate can be checked and documented, not built.

use std::env;
use std::path::{Path, PathBuf};

fn main() {
    println!("cargo:rerun-if-env-changed=CONTACTS_LIB_DIR");
    let dir = directory();
    let archive = dir.join("libcontacts.a");
    println!("cargo:rerun-if-changed={}", archive.display());
    if !archive.is_file() {
        let how = "make it with `make` in the repository, or set CONTACTS_LIB_DIR to the directory that has it";
        println!("cargo:warning=there is no {}: {how}", archive.display());
    }
    println!("cargo:rustc-link-search=native={}", dir.display());
    println!("cargo:rustc-link-lib=static=contacts");
}

fn directory() -> PathBuf {
    match env::var_os("CONTACTS_LIB_DIR") {
        Some(dir) => PathBuf::from(dir),
        None => Path::new(env!("CARGO_MANIFEST_DIR")).join("../target/staticlib"),
    }
}
