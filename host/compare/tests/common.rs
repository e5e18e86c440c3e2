//! The helpers that the oscillators share against the Rust's, to the last bit.

#[test]
#[cfg_attr(not(quiver), ignore = "skipped: QUIVER_SRC not found")]
fn pitch() {
    #[cfg(quiver)]
    compare::common::pitch();
}

#[test]
#[cfg_attr(not(quiver), ignore = "skipped: QUIVER_SRC not found")]
fn wrap() {
    #[cfg(quiver)]
    compare::common::wrap();
}

#[test]
#[cfg_attr(not(quiver), ignore = "skipped: QUIVER_SRC not found")]
fn turn() {
    #[cfg(quiver)]
    compare::common::turn();
}

#[test]
#[cfg_attr(not(quiver), ignore = "skipped: QUIVER_SRC not found")]
fn steps() {
    #[cfg(quiver)]
    compare::common::steps();
}

#[test]
#[cfg_attr(not(quiver), ignore = "skipped: QUIVER_SRC not found")]
fn corners() {
    #[cfg(quiver)]
    compare::common::corners();
}
