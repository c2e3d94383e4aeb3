//! Links the proved static library, `libcontacts.a`, from `CONTACTS_LIB_DIR` or the repository's own build.

use std::env;
use std::path::PathBuf;

fn main() {
    println!("cargo:rerun-if-env-changed=CONTACTS_LIB_DIR");
    let manifest = PathBuf::from(env::var_os("CARGO_MANIFEST_DIR").expect("cargo names the manifest's directory"));
    let directory = match env::var_os("CONTACTS_LIB_DIR") {
        Some(given) => PathBuf::from(given),
        None => manifest.join("../../target/staticlib"),
    };
    let library = directory.join("libcontacts.a");
    println!("cargo:rerun-if-changed={}", library.display());
    println!("cargo:rustc-link-search=native={}", directory.display());
    println!("cargo:rustc-link-lib=static=contacts");
}
