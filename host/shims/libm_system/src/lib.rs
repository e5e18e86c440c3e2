//! Stand-in for the registry's `libm`, with the one interface that the Rust uses, over Rust's standard library.
//! Where the Rust is measured it is this, so that it pays for no call that it wouldn't make.
use std::hint::black_box;
use std::marker::PhantomData;

pub struct Libm<T>(PhantomData<T>);

/// Each line is a function of one number, and the method of `f64` that it is.
macro_rules! standard {
    ($($name:ident: $method:ident;)*) => {
        impl Libm<f64> {
            $(#[inline]
            pub fn $name(x: f64) -> f64 {
                x.$method()
            })*

            /// The base is hidden from the compiler, which knows what a `powf` of 2 is and not what the registry's `pow`
            /// of 2 is.
            #[inline]
            pub fn pow(base: f64, x: f64) -> f64 {
                black_box(base).powf(x)
            }
        }
    };
}

standard! {
    sin: sin;
    cos: cos;
    floor: floor;
    fabs: abs;
    round: round;
    exp: exp;
    log: ln;
    log10: log10;
}
