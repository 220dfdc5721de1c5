// Metrics and soft bits against the second half of the Rust's `service_burst`, with document 01's stand-ins inside `lse`.
use crate::check::Check;
use crate::face::Soft;
use crate::headers::{BAD_TERMS, channel};
use crate::inputs::{Dice, dirty, fill_counts, fill_terms, rows};
use crate::jobs::{Job, Oracle};
use crate::made::{MODES, made};
use crate::small::{bad_layout, bad_name, header_bits, layout};
use ion::phy_mfsk::hook::{blanked_frac, soft_terms};

/// The windows of each mode (document 01).
const WINDOWS: [[u32; 3]; 2] = [[160, 192, 224], [80, 96, 112]];

/// A burst with lists of its lengths that hold other bits; terms and counts to be filled.
pub fn lent(d: &mut Dice, mode: u8, kind: u8, layout: u8, symbols: u8, window: u32, bits: u32) -> Soft {
    let n = bits.div_ceil(5) as usize;
    let mut list = |n| dirty(n, || d.word());
    let (work, metrics, soft) = (list(32 * n), list(32 * n), list(bits as usize));
    Soft { mode, kind, layout, symbols, window, bits, terms: vec![0.0; 260 * n], blanked: vec![0; n], work, metrics, soft }
}

/// Of several causes the first in the papers' order.
fn table(b: &Soft) -> u32 {
    let n = (b.bits as u64).div_ceil(5) as usize;
    match () {
        _ if b.mode > 1 || b.kind > 2 => 1,
        _ if !(1..=8).contains(&b.layout) => 12,
        _ if b.bits > 10_240 => 2,
        _ if !WINDOWS[b.mode as usize].contains(&b.window) => 3,
        _ if [b.terms.len(), b.blanked.len(), b.work.len(), b.metrics.len(), b.soft.len()] != [260 * n, n, 32 * n, 32 * n, b.bits as usize] => 4,
        _ if b.terms.iter().any(|t| !(t.abs() <= 1_000_000.0)) => 6,
        _ if b.blanked.iter().any(|&x| x as u64 > 255 * b.window as u64) => 7,
        _ => 0,
    }
}

pub fn values(c: &mut Check, mut ours: Soft) {
    let (before, want) = (ours.clone(), table(&ours));
    c.one("number", &mut ours.values(), want);
    if want == 0 {
        let counts: Vec<f32> = before.blanked.iter().map(|&x| blanked_frac(x, before.window as usize, before.layout as usize)).collect();
        let symbols = before.symbols != 0;
        let theirs = soft_terms(MODES[before.mode as usize], symbols, header_bits(before.kind), before.bits as usize, &rows(&before.terms), &counts);
        c.list("metrics", &mut ours.metrics, &theirs.metrics);
        c.list("soft bits", &mut ours.soft, &theirs.llrs);
        c.all("work", &mut ours.work, 0.0);
        c.answered(if before.bits == 0 { 2 } else { symbols as usize });
    } else {
        c.list("metrics", &mut ours.metrics, &before.metrics);
        c.list("soft bits", &mut ours.soft, &before.soft);
        c.list("work", &mut ours.work, &before.work);
        c.refused(want);
    }
    c.list("the terms", &mut ours.terms, &before.terms);
    c.list("the counts", &mut ours.blanked, &before.blanked);
    let Soft { mode, kind, layout, symbols, window, bits, terms, blanked, .. } = &before;
    c.input(|| format!("mode {mode} kind {kind} layout {layout} symbols {symbols} window {window} bits {bits}, {} terms {:?}.., counts {:?}..", terms.len(), &terms[..terms.len().min(6)], &blanked[..blanked.len().min(6)]));
}

/// Mostly bursts of up to 1,000 bits, one in sixteen of any length, and the ends.
fn bits(d: &mut Dice, i: u64) -> u32 {
    match i % 16 {
        0 => d.below(10_241) as u32,
        1 => d.below(11) as u32,
        2 if i % 96 == 2 => 10_230 + d.below(11) as u32,
        _ => d.below(1_001) as u32,
    }
}

fn by_channel(_: &Oracle, d: &mut Dice, i: u64, c: &mut Check) {
    let bits = bits(d, 3 + i % 13);
    let (mode, kind) = (d.below(2) as u8, [1, 2][d.below(2) as usize]);
    let how = channel(d, mode, kind, bits);
    let b = made(d.word(), &how);
    let mut ours = lent(d, mode, kind, b.layout, b.symbols as u8, b.window, bits);
    (ours.terms, ours.blanked) = (b.data_terms, b.blanked);
    values(c, ours)
}

fn random(_: &Oracle, d: &mut Dice, i: u64, c: &mut Check) {
    let (mode, bits) = (d.below(2) as u8, bits(d, i));
    let (kind, symbols, window) = (d.below(3) as u8, d.of(&[0, 0, 0, 1, 1, 255]), d.of(&WINDOWS[mode as usize]));
    let layout = layout(d);
    let mut ours = lent(d, mode, kind, layout, symbols, window, bits);
    let (a, b) = (d.below(10), d.below(5));
    fill_terms(&mut ours.terms, a, || d.word());
    fill_counts(&mut ours.blanked, layout, window, b, || d.word());
    values(c, ours)
}

/// A short burst with up to three damages: names, layouts, bit counts, windows of the other mode, five lengths, terms and counts out of range.
fn damaged(_: &Oracle, d: &mut Dice, i: u64, c: &mut Check) {
    let mode = d.below(2) as u8;
    // one in 500 at the ceiling of bits, with lists of those lengths
    let bits = if i % 500 == 0 { 10_239 + d.below(8) as u32 } else { d.below(41) as u32 };
    let (kind, symbols, window) = (d.below(3) as u8, d.below(2) as u8, d.of(&WINDOWS[mode as usize]));
    let layout = layout(d);
    let mut b = lent(d, mode, kind, layout, symbols, window, bits);
    let (x, y) = (d.below(10), d.below(5));
    fill_terms(&mut b.terms, x, || d.word());
    fill_counts(&mut b.blanked, layout, window, y, || d.word());
    for _ in 0..d.below(4) {
        let other = |d: &mut Dice, n: usize| d.of(&[n.saturating_sub(1), n + 1, 0, n / 2, n + 32, n + 260]);
        match d.below(16) {
            0 => b.mode = bad_name(d, 2),
            1 => b.kind = bad_name(d, 3),
            15 => b.layout = bad_layout(d),
            2 => b.bits = d.of(&[10_241, 10_245, u32::MAX, u32::MAX - 4, 1 << 31, 10_240]),
            3 => b.window = d.of(&[0, 79, 81, 97, 111, 113, 159, 161, 193, 223, 225, u32::MAX]),
            4 => b.window = d.of(&WINDOWS[1 - mode as usize]),
            5 => b.terms.resize(other(d, b.terms.len()), 0.5),
            6 => b.blanked.resize(other(d, b.blanked.len()), 3),
            7 => b.work.resize(other(d, b.work.len()), 1.0),
            8 => b.metrics.resize(other(d, b.metrics.len()), 1.0),
            9 => b.soft.resize(other(d, b.soft.len()), 1.0),
            10 => b.bits = b.bits.wrapping_add(d.of(&[1, 5, u32::MAX])),
            11 | 12 if !b.terms.is_empty() => {
                let at = match d.below(3) { 0 => 0, 1 => b.terms.len() - 1, _ => d.below(b.terms.len() as u64) as usize };
                b.terms[at] = d.of(&BAD_TERMS);
            }
            13 | 14 if !b.blanked.is_empty() => {
                let at = match d.below(3) { 0 => 0, 1 => b.blanked.len() - 1, _ => d.below(b.blanked.len() as u64) as usize };
                b.blanked[at] = d.of(&[255u32.wrapping_mul(b.window).wrapping_add(1), u32::MAX, 1 << 31]);
            }
            _ => (),
        }
    }
    values(c, b)
}

pub fn jobs() -> Vec<Job> {
    let job = |source, inputs, numbers, cost, one| Job { entry: "soft values", source, inputs, kinds: &["bit form", "symbol form", "0 bits"], numbers, cost, one };
    vec![
        job("damaged", 100_000, &[1, 12, 2, 3, 4, 6, 7], 0.2, damaged),
        job("random", 9_000, &[], 4.0, random),
        job("by channel", 3_000, &[], 12.0, by_channel),
    ]
}

