//! Says by `cfg(quiver)` whether the Rust's source was found, for the crates `compare` and `reference`.
fn main() {
    println!("cargo:rerun-if-env-changed=QUIVER_SRC");
    println!("cargo:rustc-check-cfg=cfg(quiver)");
    if std::env::var_os("DEP_QUIVER_FOUND").is_some() {
        println!("cargo:rustc-cfg=quiver");
    }
}
