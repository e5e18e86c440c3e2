//! The Supersaw against the Rust's, to the last bit.

#[test]
#[cfg_attr(not(quiver), ignore = "skipped: QUIVER_SRC not found")]
fn two_million_ticks() {
    #[cfg(quiver)]
    compare::gate::<compare::supersaw::Supersaw>();
}
