//! Child of `oscillators.rs`: sees private fields and the bodies of ticks, and changes no rule.
use super::*;

/// An oscillator with `C` controls and `P` outputs, its state as `F` floats and `W` whole numbers in the order of the
/// proved library's boundary. A threshold among them is the one that this crate is compiled with.
pub trait Probe<const C: usize, const P: usize, const F: usize, const W: usize>: GraphModule {
    /// The body of a tick with nothing around it. An output that isn't wanted is left as it stands.
    fn body(&mut self, controls: &[f64; C], wanted: u32, samples: &mut [f64; P]);

    fn flat(&self) -> ([f64; F], [u64; W]);

    fn put_flat(&mut self, floats: &[f64; F], wholes: &[u64; W]);
}

/// Controls in port order.
struct In<'a, const C: usize>(&'a [f64; C]);

impl<const C: usize> InputFrame for In<'_, C> {
    #[inline(always)]
    fn get_or(&self, id: u32, _default: f64) -> f64 {
        self.0[id as usize]
    }
}

/// No control is given, so that each takes its default.
struct NotGiven;

impl InputFrame for NotGiven {
    #[inline(always)]
    fn get_or(&self, _id: u32, default: f64) -> f64 {
        default
    }
}

/// Samples in port order, from port 10 on.
struct Out<'a, const P: usize>(&'a mut [f64; P]);

impl<const P: usize> OutputFrame for Out<'_, P> {
    #[inline(always)]
    fn set(&mut self, id: u32, value: f64) {
        self.0[id as usize - 10] = value;
    }
}

impl Probe<5, 4, 5, 4> for Vco {
    #[inline]
    fn body(&mut self, controls: &[f64; 5], wanted: u32, samples: &mut [f64; 4]) {
        self.tick_wanted(&In(controls), &mut Out(samples), wanted);
    }

    fn flat(&self) -> ([f64; 5], [u64; 4]) {
        let ([a, b, c], valid) = self.freq_memo.words();
        let [prev, threshold] = self.sync_edge.flat();
        ([self.phase, self.sample_rate, prev, threshold, self.freq_memo.val()], [a, b, c, valid])
    }

    fn put_flat(&mut self, &[phase, sample_rate, prev, threshold, val]: &[f64; 5], &[a, b, c, valid]: &[u64; 4]) {
        self.phase = phase;
        self.sample_rate = sample_rate;
        self.sync_edge = EdgeDetector::of(prev, threshold);
        self.freq_memo = Memo::of([a, b, c], val, valid);
    }
}

impl Probe<3, 5, 5, 2> for Lfo {
    #[inline]
    fn body(&mut self, controls: &[f64; 3], wanted: u32, samples: &mut [f64; 5]) {
        self.tick_wanted(&In(controls), &mut Out(samples), wanted);
    }

    fn flat(&self) -> ([f64; 5], [u64; 2]) {
        let ([key], valid) = self.freq_memo.words();
        let [prev, threshold] = self.reset_edge.flat();
        ([self.phase, self.sample_rate, prev, threshold, self.freq_memo.val()], [key, valid])
    }

    fn put_flat(&mut self, &[phase, sample_rate, prev, threshold, val]: &[f64; 5], &[key, valid]: &[u64; 2]) {
        self.phase = phase;
        self.sample_rate = sample_rate;
        self.reset_edge = EdgeDetector::of(prev, threshold);
        self.freq_memo = Memo::of([key], val, valid);
    }
}

impl Probe<3, 2, 10, 2> for Supersaw {
    #[inline]
    fn body(&mut self, controls: &[f64; 3], _wanted: u32, samples: &mut [f64; 2]) {
        self.tick_generic(&In(controls), &mut Out(samples));
    }

    fn flat(&self) -> ([f64; 10], [u64; 2]) {
        let ([key], valid) = self.freq_memo.words();
        let [a, b, c, d, e, f, g] = self.phases;
        ([a, b, c, d, e, f, g, self.sub_phase, self.sample_rate, self.freq_memo.val()], [key, valid])
    }

    fn put_flat(&mut self, floats: &[f64; 10], &[key, valid]: &[u64; 2]) {
        let &[a, b, c, d, e, f, g, sub_phase, sample_rate, val] = floats;
        self.phases = [a, b, c, d, e, f, g];
        self.sub_phase = sub_phase;
        self.sample_rate = sample_rate;
        self.freq_memo = Memo::of([key], val, valid);
    }
}

impl Supersaw {
    pub const DETUNES: [f64; 7] = Self::DETUNE_RATIOS;
}

/// Its comparison is its own, with the same threshold.
impl Probe<4, 1, 5, 2> for Wavetable {
    #[inline]
    fn body(&mut self, controls: &[f64; 4], _wanted: u32, samples: &mut [f64; 1]) {
        self.tick_generic(&In(controls), &mut Out(samples));
    }

    fn flat(&self) -> ([f64; 5], [u64; 2]) {
        let ([key], valid) = self.freq_memo.words();
        ([self.phase, self.sample_rate, self.prev_sync, GATE_THRESHOLD_V, self.freq_memo.val()], [key, valid])
    }

    fn put_flat(&mut self, &[phase, sample_rate, prev_sync, threshold, val]: &[f64; 5], &[key, valid]: &[u64; 2]) {
        assert_eq!(threshold, GATE_THRESHOLD_V);
        self.phase = phase;
        self.sample_rate = sample_rate;
        self.prev_sync = prev_sync;
        self.freq_memo = Memo::of([key], val, valid);
    }
}

/// Tables, of each its levels, of each its numbers.
pub type Bank = [[[f64; 256]; 8]; 8];

impl Wavetable {
    /// The bank that it reads.
    pub fn bank(&self) -> &'static Bank {
        self.tables
    }

    /// Has it read another bank from now on.
    pub fn lend(&mut self, bank: &'static Bank) {
        self.tables = bank;
    }

    pub fn fill(bank: &mut Bank) {
        Self::generate_tables(bank);
    }

    /// The largest harmonic in a level of a table.
    pub fn largest(table: usize, level: usize) -> usize {
        Self::max_harmonic(table, level)
    }
}

impl Probe<4, 1, 29, 6> for FormantOsc {
    #[inline]
    fn body(&mut self, controls: &[f64; 4], _wanted: u32, samples: &mut [f64; 1]) {
        self.tick_generic(&In(controls), &mut Out(samples));
    }

    fn flat(&self) -> ([f64; 29], [u64; 6]) {
        let mut floats = [0.0; 29];
        floats[..2].copy_from_slice(&[self.phase, self.vibrato_phase]);
        floats[2..12].copy_from_slice(self.resonator_state.as_flattened());
        floats[12..14].copy_from_slice(&[self.sample_rate, self.freq_memo.val()]);
        floats[14..].copy_from_slice(self.coef_memo.val().as_flattened());
        let ([key], valid) = self.freq_memo.words();
        let ([a, b, c], coefs_valid) = self.coef_memo.words();
        (floats, [key, valid, a, b, c, coefs_valid])
    }

    fn put_flat(&mut self, floats: &[f64; 29], &[key, valid, a, b, c, coefs_valid]: &[u64; 6]) {
        self.phase = floats[0];
        self.vibrato_phase = floats[1];
        self.resonator_state.as_flattened_mut().copy_from_slice(&floats[2..12]);
        self.sample_rate = floats[12];
        self.freq_memo = Memo::of([key], floats[13], valid);
        let mut coefs = [[0.0; 3]; 5];
        coefs.as_flattened_mut().copy_from_slice(&floats[14..]);
        self.coef_memo = Memo::of([a, b, c], coefs, coefs_valid);
    }
}

impl FormantOsc {
    pub const GAINS: [f64; 5] = Self::AMPLITUDES;
    pub const VIBRATO_HZ: f64 = Self::VIBRATO_RATE;

    pub fn pulse(phase: f64) -> f64 {
        Self::glottal_pulse(phase)
    }
}

/// The line isn't among the flat numbers: its length is, and a new length truncates it or fills it with 0.0.
impl Probe<5, 1, 7, 4> for KarplusStrong {
    #[inline]
    fn body(&mut self, controls: &[f64; 5], _wanted: u32, samples: &mut [f64; 1]) {
        self.tick_generic(&In(controls), &mut Out(samples));
    }

    fn flat(&self) -> ([f64; 7], [u64; 4]) {
        let ([key], valid) = self.freq_memo.words();
        let [prev, threshold] = self.trigger_edge.flat();
        (
            [self.sample_rate, self.lp_state, self.ap_x1, self.ap_y1, prev, threshold, self.freq_memo.val()],
            [self.buffer.len() as u64, self.write_pos as u64, key, valid],
        )
    }

    fn put_flat(&mut self, floats: &[f64; 7], &[len, write_pos, key, valid]: &[u64; 4]) {
        let &[sample_rate, lp_state, ap_x1, ap_y1, prev, threshold, val] = floats;
        self.sample_rate = sample_rate;
        self.max_len = Self::max_len_for(sample_rate);
        self.lp_state = lp_state;
        self.ap_x1 = ap_x1;
        self.ap_y1 = ap_y1;
        self.trigger_edge = EdgeDetector::of(prev, threshold);
        self.freq_memo = Memo::of([key], val, valid);
        self.buffer.resize(len as usize, 0.0);
        self.write_pos = write_pos as usize;
    }
}

impl KarplusStrong {
    pub fn line(&self) -> &[f64] {
        &self.buffer
    }

    pub fn line_mut(&mut self) -> &mut [f64] {
        &mut self.buffer
    }

    pub fn max_len(&self) -> usize {
        self.max_len
    }

    pub fn put_write_pos(&mut self, write_pos: usize) {
        self.write_pos = write_pos;
    }

    /// The random stream, from where it stands.
    pub fn stream(&mut self) -> &mut ModuleRng {
        &mut self.rng
    }

    /// A string in the same state.
    pub fn twin(&self) -> Self {
        let (floats, wholes) = self.flat();
        let mut twin = KarplusStrong::new(self.sample_rate);
        twin.put_flat(&floats, &wholes);
        twin.buffer.copy_from_slice(&self.buffer);
        twin.rng = self.rng;
        twin
    }
}

/// The random stream isn't among the flat numbers.
impl Probe<1, 4, 36, 2> for NoiseGenerator {
    #[inline]
    fn body(&mut self, controls: &[f64; 1], wanted: u32, samples: &mut [f64; 4]) {
        self.tick_wanted(&In(controls), &mut Out(samples), wanted);
    }

    fn flat(&self) -> ([f64; 36], [u64; 2]) {
        let mut floats = [0.0; 36];
        floats[..16].copy_from_slice(&self.pink.rows);
        floats[16] = self.pink.running_sum;
        floats[17..33].copy_from_slice(&self.pink2.rows);
        floats[33..].copy_from_slice(&[self.pink2.running_sum, self.correlation, self.last_white]);
        (floats, [self.pink.index.into(), self.pink2.index.into()])
    }

    /// Of a counter the low 32 bits count.
    fn put_flat(&mut self, floats: &[f64; 36], &[index, index2]: &[u64; 2]) {
        let pink = |part: &[f64], index: u64| PinkNoiseState {
            rows: part[..16].try_into().unwrap(),
            running_sum: part[16],
            index: index as u32,
        };
        self.pink = pink(&floats[..17], index);
        self.pink2 = pink(&floats[17..34], index2);
        self.correlation = floats[34];
        self.last_white = floats[35];
    }
}

impl NoiseGenerator {
    /// The body of a tick that is given no correlation.
    #[inline]
    pub fn body_of_stored(&mut self, wanted: u32, samples: &mut [f64; 4]) {
        self.tick_wanted(&NotGiven, &mut Out(samples), wanted);
    }

    /// The random stream, from where it stands.
    pub fn stream(&mut self) -> &mut ModuleRng {
        &mut self.rng
    }
}
