//! Links the proved library, which `rt lib` writes in crates/capi.
//! `TIDEHINGE_LIB` names another folder to take it from.

use std::env;
use std::path::PathBuf;

fn main() {
    let package = env::var("CARGO_MANIFEST_DIR").expect("cargo names the package's folder");
    let folder = env::var("TIDEHINGE_LIB")
        .map_or_else(|_| PathBuf::from("../../crates/capi/out"), PathBuf::from);
    let folder = PathBuf::from(package).join(folder);
    let archive = folder.join("libcapi.a");
    if !archive.exists() {
        // The linker's own words would not say where the library comes from.
        println!(
            "cargo:warning={} is not there: `rt lib` in crates/capi writes it",
            archive.display()
        );
    }
    println!("cargo:rustc-link-search=native={}", folder.display());
    println!("cargo:rustc-link-lib=static=capi");
    // The tests link a C program with the same library.
    println!("cargo:rustc-env=TIDEHINGE_ARCHIVE={}", archive.display());
    println!("cargo:rerun-if-env-changed=TIDEHINGE_LIB");
    println!("cargo:rerun-if-changed={}", archive.display());
    println!("cargo:rerun-if-changed=build.rs");
}
