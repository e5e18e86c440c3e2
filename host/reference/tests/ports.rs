//! The names of a score's inputs and outputs, and their order, against the Rust's ports. Of the Lfo one output more is ours.

#[test]
#[cfg_attr(not(quiver), ignore = "skipped: QUIVER_SRC not found")]
fn ports_are_the_rusts() {
    #[cfg(quiver)]
    {
        use quiver::modules::oscillators::{FormantOsc, Lfo, Supersaw, Vco};
        use quiver::port::GraphModule;

        let theirs: [Box<dyn GraphModule>; 4] = [
            Box::new(Vco::new(48000.0)),
            Box::new(Lfo::new(48000.0)),
            Box::new(Supersaw::new(48000.0)),
            Box::new(FormantOsc::new(48000.0)),
        ];
        for (osc, theirs) in reference::score::ALL.iter().zip(&theirs) {
            let spec = theirs.port_spec();
            assert!(spec.inputs.iter().map(|port| port.name.as_str()).eq(osc.inputs.iter().copied()), "{osc:?}");
            let ours: &[&str] = if osc.name == "lfo" { &["eoc"] } else { &[] };
            let outputs = spec.outputs.iter().map(|port| port.name.as_str()).chain(ours.iter().copied());
            assert!(outputs.eq(osc.outputs.iter().copied()), "{osc:?}");
        }
    }
}
