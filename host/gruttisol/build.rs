//! Builds the archive with every exported function of the proved crates for cargo's target, and links it.
//! GRUTTISOL_ARCHIVE names one that is built already, by its full path; then nothing of the kit is needed.
#[path = "../tools/native.rs"]
mod native;

use std::env;
use std::path::PathBuf;

fn main() {
    let out = PathBuf::from(env::var_os("OUT_DIR").unwrap());
    println!("cargo:rustc-link-search=native={}", out.display());
    println!("cargo:rustc-link-lib=static=gruttisol");
    if !native::copied("GRUTTISOL_ARCHIVE", &out.join("libgruttisol.a")) {
        native::make("library", [&out]);
    }
}
