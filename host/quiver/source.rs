//! The Rust's files, whether what stands at hand is them, quiver's at 74f0456287 by SHA-256, and the one line of them that a copy may have
//! otherwise.

/// Each file as the module that it is, with its hash.
pub const FILES: [(&str, &str); 5] = [
    ("port", "f647a9fb241685a2299a9f323766ea1f83db9703c2bb57cd855059ac92e99fee"),
    ("introspection", "2f98a7f7ac5aa03945a4300604cee2982b73b04131655a37f22bbacf309633e1"),
    ("rng", "63615c2b653e39a834eb56ca0075cc1947b3130642818cf31e208157216758d5"),
    ("modules/common", "955d5ae19faef3787dde777432ce9d49ba88001dcee340696650cbe29e7da825"),
    ("modules/oscillators", "5959ea8a37c919f40c4bdf7717c53f40fd0d98a1d294c51399954d5a5d31180d"),
];

/// The file that says what a gate must rise above, and its line.
pub const OF_GATES: &str = "modules/common";
const THRESHOLD: &str = "pub const GATE_THRESHOLD_V: f64 = 2.5;";

/// The text with another number of volts in that line. There is none unless the line stood there, and once.
pub fn with_threshold(text: &str, volts: &str) -> Option<String> {
    let once = text.matches(THRESHOLD).count() == 1 && text.lines().any(|line| line == THRESHOLD);
    once.then(|| text.replace(THRESHOLD, &THRESHOLD.replace("2.5", volts)))
}

/// Whether a file is the one of that hash.
pub fn is_it(text: &[u8], hash: &str) -> bool {
    sha256(text) == hash
}

/// The first 32 bits of the fraction of a root: square or cubic.
fn fraction(root: f64) -> u32 {
    (root.fract() * 4294967296.0) as u32
}

/// SHA-256 as FIPS 180-4 has it, in hexadecimal. Its constants are roots of the first primes.
pub fn sha256(text: &[u8]) -> String {
    let primes: Vec<u32> = (2..312u32).filter(|n| (2..*n).all(|d| n % d != 0)).take(64).collect();
    let mut state: [u32; 8] = std::array::from_fn(|i| fraction(f64::from(primes[i]).sqrt()));
    let keys: Vec<u32> = primes.iter().map(|&p| fraction(f64::from(p).cbrt())).collect();
    let mut padded = text.to_vec();
    padded.push(0x80);
    while padded.len() % 64 != 56 {
        padded.push(0);
    }
    padded.extend((text.len() as u64 * 8).to_be_bytes());
    for block in padded.chunks(64) {
        let mut words: Vec<u32> = block.chunks(4).map(|word| u32::from_be_bytes(word.try_into().unwrap())).collect();
        for i in 16..64 {
            let (a, b) = (words[i - 15], words[i - 2]);
            let (a, b) =
                (a.rotate_right(7) ^ a.rotate_right(18) ^ a >> 3, b.rotate_right(17) ^ b.rotate_right(19) ^ b >> 10);
            words.push(words[i - 16].wrapping_add(a).wrapping_add(words[i - 7]).wrapping_add(b));
        }
        let [mut a, mut b, mut c, mut d, mut e, mut f, mut g, mut h] = state;
        for (word, key) in words.into_iter().zip(&keys) {
            let mixed = e.rotate_right(6) ^ e.rotate_right(11) ^ e.rotate_right(25);
            let first = h.wrapping_add(mixed).wrapping_add(e & f ^ !e & g).wrapping_add(*key).wrapping_add(word);
            let mixed = a.rotate_right(2) ^ a.rotate_right(13) ^ a.rotate_right(22);
            let second = mixed.wrapping_add(a & b ^ a & c ^ b & c);
            (h, g, f, e, d, c, b, a) = (g, f, e, d.wrapping_add(first), c, b, a, first.wrapping_add(second));
        }
        for (kept, word) in state.iter_mut().zip([a, b, c, d, e, f, g, h]) {
            *kept = kept.wrapping_add(word);
        }
    }
    state.iter().map(|word| format!("{word:08x}")).collect()
}
