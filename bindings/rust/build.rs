//! Names the static library to whatever is linked with this crate. The library
//! is not put into the rlib, so the rlib builds where no archive is there.

use std::env;
use std::path::PathBuf;

fn main() {
    println!("cargo:rerun-if-env-changed=LUDDRISA_ARCHIVE_DIR");
    if env::var_os("CARGO_FEATURE_ARCHIVE").is_none() {
        return;
    }
    let directory = match env::var_os("LUDDRISA_ARCHIVE_DIR") {
        Some(directory) => PathBuf::from(directory),
        None => {
            let crate_root = env::var_os("CARGO_MANIFEST_DIR").expect("set by cargo");
            PathBuf::from(crate_root).join("../../target/staticlib")
        }
    };
    println!("cargo:rerun-if-changed={}", directory.join("libluddrisa.a").display());
    println!("cargo:rustc-link-search=native={}", directory.display());
    println!("cargo:rustc-link-lib=static:-bundle=luddrisa");
}
