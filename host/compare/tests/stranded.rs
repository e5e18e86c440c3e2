//! Where ours puts a write position to 0, the Rust panics. This file has one test, which silences panics.

#[test]
#[cfg_attr(not(quiver), ignore = "skipped: QUIVER_SRC not found")]
fn the_rust_panics_where_ours_repairs() {
    #[cfg(quiver)]
    {
        use quiver::modules::oscillators::{probe::Probe, KarplusStrong};
        use quiver::port::GraphModule;
        use std::panic::{catch_unwind, set_hook, AssertUnwindSafe};

        let mut string = KarplusStrong::new(48000.0);
        let tick = |string: &mut KarplusStrong| string.body(&[0.0, 0.0, 0.5, 0.5, 0.0], 1, &mut [0.0]);
        (0..100).for_each(|_| tick(&mut string));
        string.set_sample_rate(1000.0);
        let (_, [len, write_pos, ..]) = string.flat();
        assert_eq!((len, write_pos), (60, 100));
        set_hook(Box::new(|_| {}));
        assert!(catch_unwind(AssertUnwindSafe(|| tick(&mut string))).is_err());
        println!(
            "the Rust's tick panics at write position {write_pos} of {len} cells, after a change from 48 to 1 kHz"
        );
    }
}
