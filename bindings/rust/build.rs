//! Says where librikkovan.a is, and how it is linked.

use std::env;
use std::path::Path;

fn main() {
    let package = env::var("CARGO_MANIFEST_DIR").expect("cargo sets it");
    let folder = env::var("RIKKOVAN_LIB_DIR").unwrap_or_else(|_| "target/staticlib".to_string());
    // A relative folder starts at the repository root.
    let folder = Path::new(&package).join("../..").join(folder);
    let archive = folder.join("librikkovan.a");

    println!("cargo::rerun-if-env-changed=RIKKOVAN_LIB_DIR");
    println!("cargo::rerun-if-changed={}", archive.display());
    println!("cargo::rustc-link-search=native={}", folder.display());
    // Not bundled: only the link of a program that uses this crate needs the archive.
    println!("cargo::rustc-link-lib=static:-bundle=rikkovan");
    if !archive.exists() {
        let place = archive.display();
        println!("cargo::warning={place} is not there: no program that uses it links");
    }
}
