// Inputs that more than one of the programs here draws: a stream of words, a header's terms in nine styles, tables of labels, terms and counts of soft
// values in ten and five, the samples of a tracker's series in eight shapes, slips and strings that are none, and boards of them.
#![allow(dead_code)] // no program draws all of them
use super::slip::Slip;
use ion::fec::conv::ConvCode;
use ion::phy_mfsk::hook::{Fmt, Kind, MfskMode, Terms, air};

/// A stream of words from a seed.
pub struct Dice(pub u64);
impl Dice {
    pub fn word(&mut self) -> u64 {
        self.0 = self.0.wrapping_add(1);
        air::mix64(self.0)
    }
    pub fn below(&mut self, n: u64) -> u64 {
        self.word() % n
    }
    /// One of a list.
    pub fn of<T: Copy>(&mut self, list: &[T]) -> T {
        list[self.below(list.len() as u64) as usize]
    }
    /// From 0 up to 1.
    pub fn unit(&mut self) -> f64 {
        (self.word() >> 11) as f64 / (1u64 << 53) as f64
    }
    /// Near a normal number: the sum of twelve less six.
    pub fn normal(&mut self) -> f32 {
        (0..12).map(|_| self.below(1 << 20) as f32 / (1 << 20) as f32).sum::<f32>() - 6.0
    }
}

/// The Rust's label of every register: what its encoder puts out when it has taken the register's fifteen bits, the oldest first.
pub fn labels(c: &ConvCode) -> Vec<u16> {
    (0..1u32 << 15).map(|r| c.encode_zt(&std::array::from_fn::<u8, 15, _>(|i| (r >> (14 - i) & 1) as u8), 29)[14]).collect()
}

/// The labels by document 01's words, of any five generators.
pub fn labels_by(gens: [u32; 5]) -> Vec<u16> {
    (0..1u32 << 15).map(|r| (0..5).map(|i| ((gens[i] & r).count_ones() as u16 % 2) << i).sum()).collect()
}

/// The Rust's rows of a list of terms.
pub fn rows(terms: &[f32]) -> Vec<Terms> {
    terms.chunks_exact(260).map(|s| std::array::from_fn(|r| std::array::from_fn(|p| s[52 * r + p]))).collect()
}

/// A header's word with bit j at place j from the lowest, as bytes.
pub fn bits_of(word: u64, n: usize) -> Vec<u8> {
    (0..n).map(|j| (word >> j & 1) as u8).collect()
}

/// Where the sent value of each slot of a header lies in row 2 of its terms.
pub fn sent_places(mode: MfskMode, kind: Kind, word: u64) -> Vec<usize> {
    let fmt = Fmt::of(mode);
    let sent = air::header_values(mode, kind, &bits_of(word, air::header_info_bits(kind)));
    sent.iter().enumerate().map(|(s, v)| 260 * s + 2 * 52 + fmt.tone_bin(fmt.hop(s), 0, v[0] as usize) + 2).collect()
}

/// Terms in which the sent value of each slot has `strength` in row 2, over what `noise` gives.
pub fn terms(mode: MfskMode, kind: Kind, word: u64, strength: f32, mut noise: impl FnMut() -> f32) -> Vec<f32> {
    let mut t: Vec<f32> = (0..260 * air::header_info_bits(kind)).map(|_| noise()).collect();
    for at in sent_places(mode, kind, word) {
        t[at] += strength;
    }
    t
}

pub const STYLES: [&str; 9] =
    ["clean", "noisy", "noise only", "all equal", "tied: whole -1 to 1", "whole to ±800", "to ±1,000,000", "subnormal and -0.0", "sparse whole 0 to 3"];

pub fn styled(style: usize, mode: MfskMode, kind: Kind, d: &mut Dice) -> Vec<f32> {
    let word = d.word();
    match style {
        0 => terms(mode, kind, word, 8.0, || 0.0),
        1 => {
            let strength = 2.0 + d.below(30) as f32 / 10.0;
            terms(mode, kind, word, strength, || d.normal())
        }
        2 => terms(mode, kind, word, 0.0, || d.normal()),
        3 => {
            let all = [0.0, -0.0, 1.0, -800.0, 1e6, -1e6, f32::MIN_POSITIVE, -1e-45][d.below(8) as usize];
            terms(mode, kind, word, 0.0, || all)
        }
        4 => {
            let strength = d.below(4) as f32;
            terms(mode, kind, word, strength, || d.below(3) as f32 - 1.0)
        }
        5 => {
            let strength = d.below(1600) as f32;
            terms(mode, kind, word, 0.0, || d.below(1601) as f32 - 800.0).into_iter().zip(terms(mode, kind, word, strength, || 0.0)).map(|(a, b)| (a + b).clamp(-800.0, 800.0)).collect()
        }
        6 => terms(mode, kind, word, 0.0, || (d.below(2_000_001) as f32 - 1e6).clamp(-1e6, 1e6) * [1.0, 1e-3, 1e-9][d.below(3) as usize]),
        7 => terms(mode, kind, word, 0.0, || [-0.0, 0.0, 1e-45, -1e-45, 1e-40, -3e-41, f32::MIN_POSITIVE, -1.5][d.below(8) as usize]),
        _ => {
            let one_in = 20 + d.below(400);
            terms(mode, kind, word, 0.0, || if d.below(one_in) == 0 { d.below(4) as f32 } else { 0.0 })
        }
    }
}

/// Floats with quiet and signalling NaNs of both signs among them, -0.0, and any other pattern: what a lent list holds before a call.
pub fn dirty(n: usize, mut word: impl FnMut() -> u64) -> Vec<f32> {
    (0..n).map(|i| f32::from_bits([0x7f80_0001, 0xffc1_2345, 0x8000_0000, word() as u32][i % 4])).collect()
}

/// Terms of one of ten kinds: noise, far apart, at the limit, ties, subnormal and zeros of both signs, one strong tone, whole numbers.
pub fn fill_terms(terms: &mut [f32], style: u64, mut word: impl FnMut() -> u64) {
    for (i, t) in terms.iter_mut().enumerate() {
        let mut unit = || (word() >> 40) as f32 / (1u64 << 24) as f32 * 2.0 - 1.0;
        *t = match style % 10 {
            0 => unit() * 4.0,
            1 => unit() * 1_000_000.0,
            2 => [1_000_000.0, -1_000_000.0, 999_999.94, -0.0][word() as usize % 4],
            3 => [0.0, 1.0, -1.0][(word() % 3) as usize],
            4 => f32::from_bits((word() as u32) & 0x807f_ffff),
            5 => [0.0, -0.0][word() as usize % 2],
            6 => if i % 37 == 5 { 30.0 } else { unit() },
            7 => ((word() % 41) as f32) - 20.0,
            8 => unit() * 0.01,
            _ => unit() * 40.0,
        };
    }
}

/// Counts: none, at the limit of a layout, one above it, in their whole range, or a mix.
pub fn fill_counts(blanked: &mut [u32], layout: u8, window: u32, style: u64, mut word: impl FnMut() -> u64) {
    let half = (6 * layout as u32 + 1) * window / 2;
    for c in blanked {
        *c = match style % 5 {
            0 => 0,
            1 => half,
            2 => half + 1,
            3 => (word() % (255 * window as u64 + 1)) as u32,
            _ => [0, half - 1, half, half + 1, 255 * window][(word() % 5) as usize],
        };
    }
}

pub type Heard = Option<(f64, f64, f64)>;

/// The sample of call c in a series of one of eight shapes.
pub fn sample(r: &mut Dice, shape: u64, ppm: f64, sym: f64, c: usize, shift: i32) -> Heard {
    let e = 10f64.powf(9.0 * r.unit());
    match shape {
        0 => (r.below(5) > 0).then(|| (e * r.unit(), e * r.unit(), e * r.unit())),
        1 | 2 => {
            let off = (ppm * 1e-6 * sym * c as f64 - shift as f64).clamp(-16.0, 16.0) + if shape == 2 { 6.0 * (r.unit() - 0.5) } else { 0.0 };
            Some((1e4 * (1.0 - off / 60.0), 1e4 * (1.0 + off / 60.0), 10.0 * r.unit()))
        }
        3 => {
            let faded = c / 150 % 2 == 1;
            (!faded && r.below(4) > 0).then(|| (1e3 * r.unit(), 1e3 * r.unit() + ppm.abs(), 2e3 * r.unit()))
        }
        4 => Some(([0.0, -0.0, 1.0][r.below(3) as usize], [0.0, -0.0, 1.0][r.below(3) as usize], [0.0, -0.0, 2.0][r.below(3) as usize])),
        5 => Some(([0.0, 1e9][r.below(2) as usize], [0.0, 1e9][r.below(2) as usize], [0.0, 1e9, 5e-324][r.below(3) as usize])),
        6 => Some((-0.0, -0.0, 0.0)),
        _ => Some((1e9, 0.0, 0.0)).filter(|_| ppm > 0.0).or(Some((0.0, 1e9, 0.0))),
    }
}

/// Numbers at the edges of their bytes, and scores at the edges of what is finite: both zeros, the smallest and the greatest, subnormal and
/// normal ones; and those that are not, infinities and NaNs, quiet and signalling.
const EDGES: [u64; 10] = [0, 1, 0xFF, 0x100, 0xFFFF_FFFF, 1 << 47, (1 << 48) - 1, 1 << 48, 1 << 63, u64::MAX];
const FINITE: [u32; 10] = [0, 0x8000_0000, 1, 0x8000_0001, 0x007F_FFFF, 0x0080_0000, 0x3F80_0000, 0xBF80_0000, 0x7F7F_FFFF, 0xFF7F_FFFF];
const NOT_FINITE: [u32; 8] = [0x7F80_0000, 0xFF80_0000, 0x7F80_0001, 0xFF80_0001, 0x7FC0_0000, 0xFFC0_0000, 0x7FFF_FFFF, 0xFFFF_FFFF];

/// A slip of any lawful values, the edges among them.
pub fn lawful_slip(d: &mut Dice) -> Slip {
    let number = |d: &mut Dice| if d.below(4) == 0 { d.of(&EDGES) } else { d.word() };
    let (kind, outcome) = (d.below(3) as u8, d.below(4) as u8);
    Slip {
        mode: d.below(2) as u8,
        kind,
        word: number(d) & if kind == 1 { u64::MAX } else { (1 << 48) - 1 },
        outcome,
        pass: match outcome {
            0 => 1 + d.below(3) as u8,
            3 => 2 + d.below(2) as u8,
            _ => 0,
        },
        score: match d.below(3) {
            0 => d.of(&FINITE),
            1 => (d.below(2) as u32) << 31 | d.below(0x7F80_0000) as u32,
            _ => (d.normal() * 300.0).to_bits(),
        },
        start: number(d),
        segment: number(d) as u16,
    }
}

/// Puts in one to three values that a slip does not hold, or not with the others.
pub fn spoil_slip(d: &mut Dice, s: &mut Slip) {
    for _ in 0..1 + d.below(3) {
        match d.below(6) {
            0 => s.mode = d.of(&[2, 3, 128, 255]),
            1 => s.kind = d.of(&[0, 1, 2, 3, 4, 255]),
            2 => s.word |= 1 << (48 + d.below(16)),
            3 => s.outcome = d.of(&[0, 1, 2, 3, 4, 255]),
            4 => s.pass = d.of(&[0, 1, 2, 3, 4, 255]),
            _ => s.score = d.of(&NOT_FINITE),
        }
    }
}

/// A slip's bytes with one to three of them changed, some only in a bit, or as they were; of some i cut off or gone on, or any bytes at all.
pub fn damage_slip(d: &mut Dice, i: u64, bytes: &mut Vec<u8>) {
    for _ in 0..d.below(4) {
        let at = d.below(44) as usize;
        bytes[at] = if d.below(2) == 0 { bytes[at] ^ 1 << d.below(8) } else { d.word() as u8 };
    }
    if i % 4 == 0 {
        let any = d.below(200) as usize;
        let length = d.of(&[0, 1, 43, 45, 88, any]);
        bytes.resize_with(length, || d.word() as u8);
    }
    if i % 16 == 1 {
        bytes.fill_with(|| d.word() as u8);
    }
}

/// Start samples that lie apart in one byte or another, or in the highest bit.
pub const STARTS: [u64; 7] = [0, 1, 0x100, 1 << 32, (1 << 63) - 1, 1 << 63, u64::MAX];
/// Segments of which each byte rises while the other falls, both ends, and both sides of the highest bit.
pub const SEGMENTS: [u16; 9] = [0, 1, 0xFF, 0x100, 0x1FF, 0x7FFF, 0x8000, 0xFF00, 0xFFFF];

/// The bytes of a slip of one segment, its start one of few, so that two often have the same; the other values are any.
pub fn slip_for(d: &mut Dice, segment: u16) -> Vec<u8> {
    let slip = Slip { start: d.of(&STARTS), segment, ..lawful_slip(d) };
    slip.written(44).unwrap()
}

/// One of these segments, one of those above, or any.
pub fn segment_near(d: &mut Dice, listed: &[u16]) -> u16 {
    match d.below(3) {
        0 if !listed.is_empty() => d.of(listed),
        1 => d.of(&SEGMENTS),
        _ => d.word() as u16,
    }
}

/// What a board's places hold past its count: any bytes, one byte everywhere, or slips, which a board that looked there would take for listed.
pub fn left_over(d: &mut Dice) -> Vec<u8> {
    let byte = d.of(&[0, 0xFF, 0xA5]);
    match d.below(3) {
        0 => (0..2816).flat_map(|_| d.word().to_le_bytes()).collect(),
        1 => vec![byte; 22_528],
        _ => {
            // some rise from place to place, others come in any order
            let rising = d.below(2) == 0;
            let segment = |d: &mut Dice, i: u16| if rising { 100 * i } else { d.of(&SEGMENTS) };
            (0..512).flat_map(|i| { let g = segment(d, i); slip_for(d, g) }).collect()
        }
    }
}

/// So many different segments, rising, one in eight drawn from those above.
pub fn segments(d: &mut Dice, n: usize) -> Vec<u16> {
    let mut all = std::collections::BTreeSet::new();
    while all.len() < n {
        all.insert(if d.below(8) == 0 { d.of(&SEGMENTS) } else { d.word() as u16 });
    }
    all.into_iter().collect()
}

/// A board that lists a slip for each of these segments.
pub fn board_of(d: &mut Dice, segments: &[u16]) -> Vec<u8> {
    let mut bytes = left_over(d);
    for (place, &segment) in bytes.chunks_mut(44).zip(segments) {
        place.copy_from_slice(&slip_for(d, segment));
    }
    bytes
}

/// Breaks a board, or its count: a listed byte changed, two places exchanged, one repeated, the count over places that are not listed, or
/// out of range, by few or by so much that its lower half is in range. Some of it leaves a good board.
pub fn break_board(d: &mut Dice, bytes: &mut [u8], count: &mut u32) {
    let n = (*count as u64).clamp(1, 512);
    let (i, j) = (44 * d.below(n) as usize, 44 * d.below(n) as usize);
    match d.below(6) {
        0 => bytes[i + d.below(44) as usize] ^= 1 << d.below(8),
        1 => (0..44).for_each(|k| bytes.swap(i + k, j + k)),
        2 => bytes.copy_within(i..i + 44, j),
        3 => *count = count.saturating_add(1 + d.below(3) as u32).min(512),
        4 => *count = d.of(&[513, 514, 1024, 0x8000_0000, u32::MAX]),
        _ => *count |= d.of(&[1 << 10, 1 << 16, 1 << 31]),
    }
}
