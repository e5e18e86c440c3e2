//! Builds the proved program `render` for cargo's target. GRUTTISOL_RENDER names one that is built already, by its full path;
//! then nothing of the kit is needed.
#[path = "../tools/native.rs"]
mod native;

use std::env;
use std::path::{Path, PathBuf};

fn main() {
    let program = PathBuf::from(env::var_os("OUT_DIR").unwrap()).join("render");
    println!("cargo:rustc-env=RENDER={}", program.display());
    if !native::copied("GRUTTISOL_RENDER", &program) {
        native::make("native", [Path::new("render"), &program]);
    }
}
