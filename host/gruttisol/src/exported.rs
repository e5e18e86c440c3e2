//! Declares functions of the archive that take and answer numbers alone.

/// Each line declares a function of the archive, under its own name after the project's prefix, and a Rust function that
/// calls it.
macro_rules! exported {
    ($($(#[$doc:meta])* fn $name:ident($($input:ident: $kind:ty),*) -> $answer:ty;)*) => {
        mod archive {
            // SAFETY: these are functions of the archive, with the types that their crates give them. They take
            // numbers alone and have no `requires`, so each returns for every input and touches no memory of its caller.
            unsafe extern "C" {
                $(#[link_name = concat!("gruttisol_", stringify!($name))]
                pub safe fn $name($($input: $kind),*) -> $answer;)*
            }
        }
        $($(#[$doc])*
        #[inline]
        pub fn $name($($input: $kind),*) -> $answer {
            archive::$name($($input),*)
        })*
    };
}

exported! {
    /// `KarplusStrong::cells`
    fn karplus_strong_cells(sample_rate: f64) -> u64;
}
