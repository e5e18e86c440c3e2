//! For build scripts: what `tools/native` and `tools/library` make of the proved crates, or what was made before.
use std::ffi::OsStr;
use std::path::{Path, PathBuf};
use std::process::{exit, Command};
use std::{env, fs};

/// Runs a tool of `host/tools` with these words, and cargo's target after them. Names what it reads, so that cargo
/// runs it again when that changes.
pub fn make(tool: &str, words: impl IntoIterator<Item = impl AsRef<OsStr>>) {
    let package = PathBuf::from(env::var_os("CARGO_MANIFEST_DIR").unwrap());
    let host = package.parent().unwrap();
    for read in ["tools/native", "tools/by_function", "tools/library", "../crates.txt"] {
        println!("cargo:rerun-if-changed={}", host.join(read).display());
    }
    // of a crate all but what rt leaves in its out/
    for folder in fs::read_dir(host.join("../crates")).into_iter().flatten().flatten() {
        for part in ["src", "specs", "proofs", "stdin", "stdout", "args", "data"].map(|part| folder.path().join(part)) {
            if part.exists() {
                println!("cargo:rerun-if-changed={}", part.display());
            }
        }
    }
    let tool = host.join("tools").join(tool);
    match Command::new(&tool).args(words).arg(env::var_os("TARGET").unwrap()).status() {
        Ok(status) if status.success() => {}
        Ok(_) => fail(&format!("{} made nothing; it said why above", tool.display())),
        Err(e) => fail(&format!("{}: {e}", tool.display())),
    }
}

/// Where a variable names a file that was made before, by its full path, copies it and answers true.
pub fn copied(variable: &str, out: &Path) -> bool {
    println!("cargo:rerun-if-env-changed={variable}");
    let Some(made) = env::var_os(variable).map(PathBuf::from) else { return false };
    println!("cargo:rerun-if-changed={}", made.display());
    if let Err(e) = fs::copy(&made, out) {
        fail(&format!("{variable} is {}: {e}", made.display()));
    }
    true
}

fn fail(why: &str) -> ! {
    eprintln!("{why}");
    exit(1);
}
