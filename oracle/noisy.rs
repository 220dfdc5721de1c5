// What local noise factors are worked out from: drawn in nine styles, damaged, with the number that document 02 (#108) has for it, and the
// Rust's factors. For noise.rs, scale/noise.rs and bench.rs.
#![allow(dead_code)] // no program asks for all of it
use super::face::Noise;
use super::inputs::Dice;
use ion::phy_mfsk::hook::{Fmt, Kind, MfskMode, ParamsBox, air, local_factors};

/// Values of a row.
pub const ROW: usize = 52;
/// The most rows.
pub const MOST: u32 = 2_048;
/// The least and the greatest of an energy, of a bin's noise, of eps and of r.
pub const ENERGY: (f32, f32) = (0.0, 1e9);
pub const NOISE: (f32, f32) = (1.0 / 1_048_576.0, 1e9);
pub const EPS: (f32, f32) = (0.0, 0.5);
pub const R: (f32, f32) = (1.0, 1_000.0);

const MODES: [MfskMode; 2] = [MfskMode::R0, MfskMode::R1];
const KINDS: [Kind; 3] = [Kind::HeaderOnly, Kind::Data, Kind::Cue];

pub const STYLES: [&str; 9] = [
    "tones in noise", "a generator in some bins for part of the rows", "about a level of 1", "ties: whole energies", "zeros of both signs",
    "all equal", "both ends of every range", "any sizes", "so small that quotients are lost",
];

/// The bins of a mode that have a factor of their own: its bins and two on either side.
pub fn in_use(mode: u8) -> usize {
    [52, 36][mode as usize]
}

/// Document 02's number, 0 where there is none: of several causes the first in the order 1, 4, 15. `room` is how many factors are lent.
pub fn number(b: &Noise, room: usize) -> u32 {
    let values = 52 * b.rows as u64;
    let lengths = [b.energies.len(), b.noise.len(), room].map(|n| n as u64);
    let each_in = |list: &[f32], least: f64, most: f64| list.iter().all(|&x| (least..=most).contains(&f64::from(x)));
    match () {
        _ if !(matches!(b.mode, 0 | 1) && matches!(b.kind, 0 | 1 | 2)) => 1,
        _ if lengths != [values, 52, values] => 4,
        _ if b.rows > 2_048 || !each_in(&[b.eps], 0.0, 0.5) || !each_in(&[b.r], 1.0, 1_000.0) => 15,
        _ if !each_in(&b.noise, 0.5f64.powi(20), 1e9) || !each_in(&b.energies, 0.0, 1e9) => 15,
        _ => 0,
    }
}

/// The Rust's side of an input that is not refused: what it is given, and its factors, one after another.
pub struct Theirs(MfskMode, Kind, Vec<[f32; ROW]>, ParamsBox);
impl Theirs {
    pub fn new(b: &Noise) -> Self {
        let mode = MODES[b.mode as usize];
        let p = ParamsBox::of(mode, b.noise[..].try_into().unwrap(), b.eps, b.r);
        Theirs(mode, KINDS[b.kind as usize], b.energies.as_chunks().0.to_vec(), p)
    }
    pub fn factors(&self) -> Vec<f32> {
        local_factors(self.0, self.1, &self.2, &self.3).into_flattened()
    }
}

/// From the least to the greatest, each size as likely as another.
fn sized(d: &mut Dice, least: f64, most: f64) -> f32 {
    ((least.ln() + d.unit() * (most / least).ln()).exp() as f32).clamp(least as f32, most as f32)
}

/// An energy of noise with this mean.
fn exponential(d: &mut Dice, mean: f32) -> f32 {
    (mean * -(1.0 - d.unit()).ln() as f32).min(ENERGY.1)
}

/// eps and r: none of the bins disturbed, half of them and as much as can be, -0.0, or any, mostly with r near 1.
fn disturbed(d: &mut Dice) -> (f32, f32) {
    let (eps, r) = (d.unit() as f32 / 2.0, sized(d, 1.0, 1_000.0));
    match d.below(8) {
        0 => EPS_R_ENDS[d.below(4) as usize],
        1 => (-0.0, r),
        2 => (eps, r),
        3 => (0.5, 3.0),
        4 => (0.0, 1.0),
        _ => (eps, 1.0 + r / 500.0),
    }
}
const EPS_R_ENDS: [(f32, f32); 4] = [(EPS.0, R.0), (EPS.0, R.1), (EPS.1, R.0), (EPS.1, R.1)];

/// Rows of energies in one of the styles.
pub fn drawn(d: &mut Dice, style: usize, mode: u8, kind: u8, rows: u32) -> Noise {
    let (eps, r) = disturbed(d);
    let fmt = Fmt::of(MODES[mode as usize]);
    let m0 = 1.0 + eps * (r - 1.0);
    let n = rows as usize;
    // bins that a generator raises, from a row on to another, or for the whole burst
    let (first, width) = (d.below(50) as usize, 1 + d.below(8) as usize);
    let (from, to) = (d.below(rows as u64 + 1) as usize, d.below(rows as u64 + 1) as usize);
    let (on, raised) = (if from < to { from..to } else { 0..n }, sized(d, 3.0, 10_000.0) * m0);
    let generator = |i: usize, b: usize| on.contains(&i) && (first..first + width).contains(&b);
    let base = sized(d, 1e-4, 1e4);
    let flat = d.below(2) == 0;
    let mut noise: Vec<f32> = (0..ROW).map(|_| if flat { base } else { base * sized(d, 0.5, 2.0) }).collect();
    let mut energies = vec![0f32; ROW * n];
    match style {
        // a tone in most rows, leaking into the next bins, in noise of which a part is disturbed; scaled, bins reach a level or stay below it
        0 | 1 | 2 => {
            let scale: Vec<f32> = (0..ROW).map(|_| if style == 2 { m0 * sized(d, 0.3, 4.0) } else { 1.0 }).collect();
            for i in 0..n {
                for b in 0..ROW {
                    let hit = style < 2 && d.unit() < eps as f64;
                    let by = if generator(i, b) && style == 1 { raised } else { scale[b] * if hit { r } else { 1.0 } };
                    energies[ROW * i + b] = exponential(d, noise[b] * by);
                }
                if d.below(8) > 0 {
                    let header = air::header_info_bits(KINDS[kind as usize]);
                    let at = fmt.tone_bin(fmt.hop(header + i), 0, d.below(32) as usize) + 2;
                    let tone = noise[at] * sized(d, 1.0, 1e5);
                    for (b, part) in [(at - 1, 0.05), (at, 1.0), (at + 1, 0.1)] {
                        energies[ROW * i + b] = (energies[ROW * i + b] + part * tone).min(ENERGY.1);
                    }
                }
            }
        }
        3 => {
            let most = 2 + d.below(3);
            noise.fill_with(|| if flat { 1.0 } else { d.of(&[1.0, 2.0]) });
            energies.fill_with(|| d.below(most) as f32);
        }
        4 => {
            let one_in = d.of(&[2, 20, 300]);
            energies.fill_with(|| if d.below(one_in) == 0 { base * d.of(&[1.0, 40.0]) } else { d.of(&[0.0, -0.0]) });
        }
        5 => {
            let all = d.of(&[0.5, 1.0, 3.0, 100.0]);
            energies.iter_mut().zip(noise.iter().cycle()).for_each(|(e, n)| *e = all * n);
        }
        6 => {
            noise.fill_with(|| d.of(&[NOISE.0, NOISE.1, 1.0]));
            energies.fill_with(|| d.of(&[0.0, -0.0, 1e9, 1.0, 1e-45, f32::MIN_POSITIVE]));
        }
        7 => {
            noise.fill_with(|| sized(d, 0.5f64.powi(20), 1e9));
            energies.fill_with(|| sized(d, 1e-30, 1e9));
        }
        // the quotients are subnormal or 0, so that many tie, but where a generator is
        _ => {
            noise.fill_with(|| d.of(&[1e9, 3e8, 1.0]));
            noise.iter_mut().skip(first).take(width).for_each(|n| *n = 1.0);
            for (at, e) in energies.iter_mut().enumerate() {
                *e = if generator(at / ROW, at % ROW) { raised } else { f32::from_bits(d.below(0x0200_0000) as u32) };
            }
        }
    }
    Noise { mode, kind, rows, energies, noise, eps, r }
}

/// Just outside a range, far outside, and no number at all; the ends themselves, and what lies just inside, are lawful.
pub fn near((least, most): (f32, f32)) -> [f32; 14] {
    let [quiet, signalling, negative] = [0x7FC0_0000, 0x7F80_0001, 0xFFC1_2345].map(f32::from_bits);
    let (below, above) = (least.next_down(), most.next_up());
    [least, most, least.next_up(), most.next_down(), below, above, -most, f32::MAX, f32::MIN, f32::INFINITY, f32::NEG_INFINITY, quiet, signalling, negative]
}

/// So many rows that 52 times as many are these few in 32 bits.
pub const WRAPPED: [(u32, usize); 5] = [(1 << 30, 0), (1 << 31, 0), (3 << 30, 0), (82_595_525, 4), (82_595_526, 56)];

/// One damage, to an input or to how many factors are lent. Some leave it lawful.
pub fn damage(d: &mut Dice, b: &mut Noise, room: &mut usize) {
    let other = |d: &mut Dice, n: usize| d.of(&[n.saturating_sub(1), n + 1, n.saturating_sub(ROW), n + ROW, 0, n / 2, 2 * n]);
    // one of the first or last bins, one that R1 does not read, or any
    let any = d.below(52) as usize;
    let bin = d.of(&[0, 1, 35, 36, 51, any]);
    match d.below(13) {
        0 => b.mode = d.of(&[2, 3, 128, 255]),
        1 => b.kind = d.of(&[3, 4, 128, 255]),
        2 => b.rows = b.rows.wrapping_add(d.of(&[1, u32::MAX])),
        3 => b.energies.resize(other(d, b.energies.len()), 1.0),
        4 => b.noise.resize(d.of(&[0, 1, 36, 51, 53, 104]), 1.0),
        5 => *room = other(d, *room),
        6 => b.eps = d.of(&near(EPS)),
        7 => b.r = d.of(&near(R)),
        8 | 9 if b.noise.len() == ROW => b.noise[bin] = d.of(&near(NOISE)),
        10 | 11 if b.energies.len() >= ROW => {
            let row = (b.energies.len() / ROW) as u64;
            let any = d.below(row);
            let row = d.of(&[0, row - 1, any]) as usize;
            b.energies[ROW * row + bin] = d.of(&near(ENERGY));
        }
        12 => {
            (b.rows, *room) = d.of(&WRAPPED);
            b.energies.resize(*room, 1.0);
        }
        _ => (),
    }
}

/// So many rows with buffers of that size.
pub fn resized(b: &mut Noise, room: &mut usize, rows: u32) {
    b.rows = rows;
    *room = ROW * rows as usize;
    b.energies.resize(*room, 1.0);
}
