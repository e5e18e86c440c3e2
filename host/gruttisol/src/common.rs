//! The helpers that the oscillators share: pitch, phase and the residuals that smooth a step or a corner.

exported! {
    /// A pitch in volts per octave as a frequency in hertz: 0 is middle C. Clamped to ±32; a NaN passes.
    fn voct_to_hz(voct: f64) -> f64;

    /// A phase in turns brought into [0, 1); one that isn't finite gives 0.
    fn wrap_phase(x: f64) -> f64;

    /// Whether that passes a whole turn: `x` is finite and its floor isn't 0. 1.0 does, and so does every number below 0.
    fn wrap_turned(x: f64) -> bool;

    /// What smooths a step at phase `t`, `dt` being a tick's increment.
    fn polyblep(t: f64, dt: f64) -> f64;

    /// What smooths a corner.
    fn polyblamp(t: f64, dt: f64) -> f64;
}
