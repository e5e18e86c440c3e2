//! Stand-in for the registry's `libm`, with the one interface that the Rust uses, over the proved functions.
use gruttisol::numeric;
use std::marker::PhantomData;

pub struct Libm<T>(PhantomData<T>);

impl Libm<f64> {
    #[inline]
    pub fn sin(x: f64) -> f64 {
        numeric::sin(x)
    }

    #[inline]
    pub fn cos(x: f64) -> f64 {
        numeric::cos(x)
    }

    /// The oscillators raise 2 and 3000 alone.
    #[inline]
    pub fn pow(base: f64, x: f64) -> f64 {
        if base == 2.0 {
            numeric::exp2(x)
        } else if base == 3000.0 {
            numeric::pow3000(x)
        } else {
            unasked("pow of another base")
        }
    }

    #[inline]
    pub fn floor(x: f64) -> f64 {
        numeric::floor(x)
    }

    #[inline]
    pub fn fabs(x: f64) -> f64 {
        numeric::fabs(x)
    }

    pub fn round(_: f64) -> f64 {
        unasked("round")
    }

    pub fn exp(_: f64) -> f64 {
        unasked("exp")
    }

    pub fn log(_: f64) -> f64 {
        unasked("log")
    }

    pub fn log10(_: f64) -> f64 {
        unasked("log10")
    }
}

/// What only other parts of the Rust's files ask for.
#[cold]
fn unasked(what: &str) -> f64 {
    panic!("no oscillator asks for {what}")
}
