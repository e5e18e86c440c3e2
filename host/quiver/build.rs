//! Finds the Rust's source and declares its files as modules, for the crates `quiver`, `quiver_low`, `quiver_system` and `quiver_lent`.
//!
//! QUIVER_SRC names the folder that holds the Rust's `src`; if it isn't set, `shared/docs/src` beside the repository is
//! taken. Nothing of it is in this repository. What is found there must be quiver's at 74f0456287, or the build stops. Files with
//! private fields are copied to cargo's own folder with one line added at their end, which declares a child module of `probe/`;
//! every byte before that line is the Rust's. A file that a crate has in its own folder stands in for the Rust's of that name. Where that
//! folder has a file `threshold`, its number of volts is what a gate must rise above: the copy has it in the one line that says so.
//!
//! Where there is no source, the crate is empty, and crates that depend on it are told so: only with the source is
//! DEP_QUIVER_FOUND (or DEP_QUIVER_SYSTEM_FOUND and so on) set in their build scripts.
#[path = "source.rs"]
mod source;

use source::{is_it, with_threshold, FILES, OF_GATES};
use std::path::{Path, PathBuf};
use std::{env, fs};

/// The files to which a child is added.
const WITH_CHILD: [&str; 3] = ["rng", "modules/common", "modules/oscillators"];

fn main() {
    println!("cargo:rustc-check-cfg=cfg(found)");
    println!("cargo:rerun-if-env-changed=QUIVER_SRC");
    let here = PathBuf::from(env::var_os("CARGO_MANIFEST_DIR").unwrap());
    let above = |what: &str| here.ancestors().find(|folder| folder.join(what).exists()).unwrap();
    let (quiver, repository) = (above("probe"), above("crates.txt"));
    for own in ["build.rs", "source.rs"] {
        println!("cargo:rerun-if-changed={}", quiver.join(own).display());
    }
    let out = PathBuf::from(env::var_os("OUT_DIR").unwrap());
    let source = env::var_os("QUIVER_SRC").map_or(repository.join("../shared/docs/src"), PathBuf::from).join("src");
    let file = |name: &str| source.join(name).with_extension("rs");
    let own = |name: &str| here.join(name).with_extension("rs");
    let threshold = Some(here.join("threshold")).filter(|own| own.is_file());
    for (name, _) in FILES {
        println!("cargo:rerun-if-changed={}", file(name).display());
    }
    let found = FILES.iter().all(|(name, _)| file(name).is_file());
    let modules = if found {
        for (name, hash) in FILES {
            if !is_it(&fs::read(file(name)).unwrap(), hash) {
                panic!("{} isn't quiver's at 74f0456287, which was ported", file(name).display());
            }
        }
        println!("cargo:rustc-cfg=found");
        println!("cargo:found=yes");
        let text = |name: &str| {
            let text = fs::read_to_string(file(name)).unwrap();
            match &threshold {
                Some(volts) if name == OF_GATES => with_volts(&text, volts),
                _ => text,
            }
        };
        declared(|name, child| {
            if own(name).is_file() {
                println!("cargo:rerun-if-changed={}", own(name).display());
                own(name)
            } else if child {
                with_child(&file(name), &text(name), quiver, &out)
            } else {
                whole(&file(name))
            }
        })
    } else {
        println!("cargo:warning=skipped: QUIVER_SRC not found: {} lacks the Rust's files", source.display());
        String::new()
    };
    fs::write(out.join("modules.rs"), modules).unwrap();
}

/// The declarations of all files, `place` saying where a file stands.
fn declared(place: impl Fn(&str, bool) -> PathBuf) -> String {
    let (mut top, mut modules) = (String::new(), String::new());
    for (name, _) in FILES {
        let child = WITH_CHILD.contains(&name);
        let (into, name_there) = match name.strip_prefix("modules/") {
            Some(inner) => (&mut modules, inner),
            None => (&mut top, name),
        };
        *into += &format!("#[path = {:?}]\npub mod {name_there};\n", place(name, child));
    }
    format!("{top}pub mod modules {{\n{modules}}}\n")
}

fn whole(file: &Path) -> PathBuf {
    fs::canonicalize(file).unwrap()
}

/// The text with the volts of this file for its threshold.
fn with_volts(text: &str, volts: &Path) -> String {
    println!("cargo:rerun-if-changed={}", volts.display());
    let volts = fs::read_to_string(volts).unwrap();
    with_threshold(text, volts.trim()).expect("the line of GATE_THRESHOLD_V, once")
}

/// A copy of a file, of this text and with its child module declared at the end.
fn with_child(file: &Path, text: &str, quiver: &Path, out: &Path) -> PathBuf {
    let name = file.file_name().unwrap();
    let child = whole(&quiver.join("probe").join(name));
    println!("cargo:rerun-if-changed={}", child.display());
    let copy = out.join(name);
    fs::write(&copy, format!("{text}\n#[path = {child:?}]\npub mod probe;\n")).unwrap();
    copy
}
