//! The program against the reference, byte for byte, on drawn scores.

#[test]
#[cfg_attr(not(quiver), ignore = "skipped: QUIVER_SRC not found")]
fn good_scores() {
    #[cfg(quiver)]
    run(reference::scores::good, reference::soak::Counts::unplayed);
}

#[test]
#[cfg_attr(not(quiver), ignore = "skipped: QUIVER_SRC not found")]
fn damaged_scores() {
    #[cfg(quiver)]
    run(reference::scores::damaged, reference::soak::Counts::unrefused);
}

#[cfg(quiver)]
fn run(drawn: reference::soak::Drawn, unmet: fn(&reference::soak::Counts) -> Vec<String>) {
    match reference::soak::run(1, 2500, drawn, program::render) {
        Ok(counts) => {
            println!("{counts}; no difference");
            assert_eq!(unmet(&counts), [""; 0], "never met");
        }
        Err(difference) => panic!("{difference}"),
    }
}
