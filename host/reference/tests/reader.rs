//! The proved reader of scores against the reference's, number and values, on drawn texts of every kind; what it read is written back.

#[test]
#[cfg_attr(not(quiver), ignore = "skipped: QUIVER_SRC not found")]
fn drawn_texts() {
    #[cfg(quiver)]
    reference::fuzz::gate(reference::fuzz::texts, 200_000);
}
