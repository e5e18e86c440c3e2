//! A run that never meets some mark, refusal or kind of call fails, for it compares nothing of that.

#[test]
#[cfg_attr(not(quiver), ignore = "skipped: QUIVER_SRC not found")]
fn a_short_run() {
    #[cfg(quiver)]
    {
        let said = compare::script::run::<compare::karplus_strong::KarplusStrong>(1, 1, Some(2.5)).unwrap_err();
        assert!(said.contains("never met: cleared"), "{said}");
    }
}

#[test]
#[cfg_attr(not(quiver), ignore = "skipped: QUIVER_SRC not found")]
fn a_short_run_of_the_lfo() {
    #[cfg(quiver)]
    {
        use compare::{lfo::Lfo, script::Pair};
        let said = compare::script::run::<Lfo>(1, 1, Some(2.5)).unwrap_err();
        let (_, unmet) = said.split_once("never met: ").unwrap();
        assert!(unmet.split(", ").any(|kind| Lfo::KINDS.contains(&kind)), "{said}");
    }
}

#[test]
#[cfg_attr(not(quiver), ignore = "skipped: QUIVER_SRC not found")]
fn a_short_run_of_noise() {
    #[cfg(quiver)]
    {
        let said = compare::script::run::<compare::noise_generator::NoiseGenerator>(5, 1, None).unwrap_err();
        assert!(said.contains("never met: ") && said.contains("calls that take a counter over its top"), "{said}");
    }
}

/// At either threshold.
#[test]
#[cfg_attr(not(quiver), ignore = "skipped: QUIVER_SRC not found")]
fn a_short_run_of_gates() {
    #[cfg(quiver)]
    for threshold in compare::draw::THRESHOLDS {
        let said = compare::script::run::<compare::vco::Vco>(1, 1, Some(threshold)).unwrap_err();
        let (_, unmet) = said.split_once("never met: ").unwrap();
        let of_gates = |kind: &str| compare::gates::KINDS.iter().any(|(its, _)| *its == kind);
        assert!(unmet.split(", ").any(of_gates), "{said}");
    }
}
