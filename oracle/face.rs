// The C functions of libion.a as include/ion.h declares them, over slices and raw numbers, so that any number can be given.
// A lent slice is two arguments, its first element and its length.
use super::slip::Slip;

unsafe extern "C" {
    fn ion_interleave_mult(n: u64, mult: *mut u64) -> u32;
    fn ion_crc(mode: u8, kind: u8, layout: u8, bits: *const u8, bits_len: usize, crc: *mut u16) -> u32;
    fn ion_header_values(mode: u8, kind: u8, bits: *const u8, bits_len: usize, values: *mut u8, values_len: usize) -> u32;
    fn ion_interleave(bits: *const u8, bits_len: usize, slots: *mut u8, slots_len: usize) -> u32;
    fn ion_interleave_sym(symbols: *const u8, symbols_len: usize, values: *mut u8, values_len: usize) -> u32;
    fn ion_read_header(
        mode: u8, kind: u8, terms: *const f32, terms_len: usize, scores: *mut f32, scores_len: usize, next: *mut f32, next_len: usize, start: *mut f32,
        start_len: usize, decisions: *mut u64, decisions_len: usize, word: *mut u64, outcome: *mut u8, pass: *mut u8, score: *mut f32, ceiling: *mut f32,
    ) -> u32;
    fn ion_fill_labels(labels: *mut u16, labels_len: usize) -> u32;
    fn ion_read_header_with(
        mode: u8, kind: u8, terms: *const f32, terms_len: usize, labels: *const u16, labels_len: usize, scores: *mut f32, scores_len: usize, next: *mut f32,
        next_len: usize, start: *mut f32, start_len: usize, decisions: *mut u64, decisions_len: usize, word: *mut u64, outcome: *mut u8, pass: *mut u8,
        score: *mut f32, ceiling: *mut f32,
    ) -> u32;
    fn ion_soft_values(
        mode: u8, kind: u8, layout: u8, symbols: u8, window: u32, bits: u32, terms: *const f32, terms_len: usize, blanked: *const u32, blanked_len: usize,
        work: *mut f32, work_len: usize, metrics: *mut f32, metrics_len: usize, soft: *mut f32, soft_len: usize,
    ) -> u32;
    fn ion_write_slip(mode: u8, kind: u8, word: u64, outcome: u8, pass: u8, score: f32, start: u64, segment: u16, slip: *mut u8, slip_len: usize) -> u32;
    fn ion_read_slip(
        slip: *const u8, slip_len: usize, mode: *mut u8, kind: *mut u8, word: *mut u64, outcome: *mut u8, pass: *mut u8, score: *mut f32, start: *mut u64,
        segment: *mut u16,
    ) -> u32;
    fn ion_put_slip(board: *mut u8, board_len: usize, count: *mut u32, slip: *const u8, slip_len: usize) -> u32;
    fn ion_local_noise(
        mode: u8, kind: u8, rows: u32, energies: *const f32, energies_len: usize, noise: *const f32, noise_len: usize, eps: f32, r: f32, factors: *mut f32,
        factors_len: usize,
    ) -> u32;
    fn ion_fit_drift(mode: u8, places: *const u32, places_len: usize, timings: *const f64, timings_len: usize, drift: *mut f64) -> u32;
    fn ion_track_timing(
        mode: u8, n: *mut usize, shift: *mut i32, tnum: *mut f64, tden: *mut f64, drift: *mut f64, blocks: *mut usize, shifts: *mut i32, shifts_len: usize,
        places: *mut u32, places_len: usize, timings: *mut f64, timings_len: usize, heard: u8, early: f64, late: f64, noise: f64,
    ) -> u32;
}

pub fn interleave_mult(n: u64, mult: &mut u64) -> u32 {
    unsafe { ion_interleave_mult(n, mult) }
}

pub fn crc(mode: u8, kind: u8, layout: u8, bits: &[u8], crc: &mut u16) -> u32 {
    unsafe { ion_crc(mode, kind, layout, bits.as_ptr(), bits.len(), crc) }
}

pub fn header_values(mode: u8, kind: u8, bits: &[u8], values: &mut [u8]) -> u32 {
    unsafe { ion_header_values(mode, kind, bits.as_ptr(), bits.len(), values.as_mut_ptr(), values.len()) }
}

pub fn interleave(bits: &[u8], slots: &mut [u8]) -> u32 {
    unsafe { ion_interleave(bits.as_ptr(), bits.len(), slots.as_mut_ptr(), slots.len()) }
}

pub fn interleave_sym(symbols: &[u8], values: &mut [u8]) -> u32 {
    unsafe { ion_interleave_sym(symbols.as_ptr(), symbols.len(), values.as_mut_ptr(), values.len()) }
}

pub fn fill_labels(labels: &mut [u16]) -> u32 {
    unsafe { ion_fill_labels(labels.as_mut_ptr(), labels.len()) }
}

/// What is lent to a header read: three areas of scores and one of decisions, and the places of the answer.
pub struct Header {
    pub scores: [Vec<f32>; 3],
    pub decisions: Vec<u64>,
    pub word: u64,
    pub outcome: u8,
    pub pass: u8,
    pub score: f32,
    pub ceiling: f32,
}

impl Header {
    /// The four areas' lengths for a header of n symbols.
    pub fn lengths(n: usize) -> [usize; 4] {
        [16_384, 16_384, 16_384, 256 * n]
    }
    pub fn read(&mut self, mode: u8, kind: u8, terms: &[f32]) -> u32 {
        let [scores, next, start] = &mut self.scores;
        unsafe {
            ion_read_header(
                mode, kind, terms.as_ptr(), terms.len(), scores.as_mut_ptr(), scores.len(), next.as_mut_ptr(), next.len(), start.as_mut_ptr(), start.len(),
                self.decisions.as_mut_ptr(), self.decisions.len(), &mut self.word, &mut self.outcome, &mut self.pass, &mut self.score, &mut self.ceiling,
            )
        }
    }
}

impl Header {
    /// The same with a lent table of labels.
    pub fn read_with(&mut self, mode: u8, kind: u8, terms: &[f32], labels: &[u16]) -> u32 {
        let [scores, next, start] = &mut self.scores;
        unsafe {
            ion_read_header_with(
                mode, kind, terms.as_ptr(), terms.len(), labels.as_ptr(), labels.len(), scores.as_mut_ptr(), scores.len(), next.as_mut_ptr(), next.len(),
                start.as_mut_ptr(), start.len(), self.decisions.as_mut_ptr(), self.decisions.len(), &mut self.word, &mut self.outcome, &mut self.pass,
                &mut self.score, &mut self.ceiling,
            )
        }
    }
}

/// What is lent for soft values.
#[derive(Clone)]
pub struct Soft {
    pub mode: u8,
    pub kind: u8,
    pub layout: u8,
    pub symbols: u8,
    pub window: u32,
    pub bits: u32,
    pub terms: Vec<f32>,
    pub blanked: Vec<u32>,
    pub work: Vec<f32>,
    pub metrics: Vec<f32>,
    pub soft: Vec<f32>,
}

impl Soft {
    pub fn values(&mut self) -> u32 {
        unsafe {
            ion_soft_values(
                self.mode, self.kind, self.layout, self.symbols, self.window, self.bits, self.terms.as_ptr(), self.terms.len(), self.blanked.as_ptr(),
                self.blanked.len(),
                self.work.as_mut_ptr(), self.work.len(), self.metrics.as_mut_ptr(), self.metrics.len(), self.soft.as_mut_ptr(), self.soft.len(),
            )
        }
    }
}

pub fn write_slip(s: &Slip, out: &mut [u8]) -> u32 {
    let score = f32::from_bits(s.score);
    unsafe { ion_write_slip(s.mode, s.kind, s.word, s.outcome, s.pass, score, s.start, s.segment, out.as_mut_ptr(), out.len()) }
}

/// The eight places, as they were where the answer is not 0.
pub fn read_slip(string: &[u8], s: &mut Slip) -> u32 {
    let mut score = f32::from_bits(s.score);
    let (mode, kind, outcome, pass) = (&mut s.mode, &mut s.kind, &mut s.outcome, &mut s.pass);
    let k = unsafe { ion_read_slip(string.as_ptr(), string.len(), mode, kind, &mut s.word, outcome, pass, &mut score, &mut s.start, &mut s.segment) };
    s.score = score.to_bits();
    k
}

pub fn put_slip(board: &mut [u8], count: &mut u32, slip: &[u8]) -> u32 {
    unsafe { ion_put_slip(board.as_mut_ptr(), board.len(), count, slip.as_ptr(), slip.len()) }
}

/// What local noise factors are worked out from.
#[derive(Clone)]
pub struct Noise {
    pub mode: u8,
    pub kind: u8,
    pub rows: u32,
    pub energies: Vec<f32>,
    pub noise: Vec<f32>,
    pub eps: f32,
    pub r: f32,
}

impl Noise {
    pub fn factors(&self, factors: &mut [f32]) -> u32 {
        let Noise { mode, kind, rows, energies, noise, eps, r } = self;
        let room = factors.len();
        unsafe { ion_local_noise(*mode, *kind, *rows, energies.as_ptr(), energies.len(), noise.as_ptr(), noise.len(), *eps, *r, factors.as_mut_ptr(), room) }
    }
}

pub fn fit_drift(mode: u8, places: &[u32], timings: &[f64], drift: &mut f64) -> u32 {
    unsafe { ion_fit_drift(mode, places.as_ptr(), places.len(), timings.as_ptr(), timings.len(), drift) }
}

/// A tracker, its lists beside it.
#[derive(Clone)]
pub struct Tracker {
    pub n: usize,
    pub shift: i32,
    pub tnum: f64,
    pub tden: f64,
    pub drift: f64,
    pub blocks: usize,
    pub shifts: Vec<i32>,
    pub places: Vec<u32>,
    pub timings: Vec<f64>,
}

impl Tracker {
    pub fn track(&mut self, mode: u8, heard: u8, early: f64, late: f64, noise: f64) -> u32 {
        unsafe {
            ion_track_timing(
                mode, &mut self.n, &mut self.shift, &mut self.tnum, &mut self.tden, &mut self.drift, &mut self.blocks, self.shifts.as_mut_ptr(),
                self.shifts.len(), self.places.as_mut_ptr(), self.places.len(), self.timings.as_mut_ptr(), self.timings.len(), heard, early, late, noise,
            )
        }
    }
}
