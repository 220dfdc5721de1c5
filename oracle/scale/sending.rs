// Data sent: the sending halves of both interleavers.
use crate::check::Check;
use crate::face;
use crate::inputs::Dice;
use crate::jobs::{Job, Oracle};
use crate::made::MODES;
use crate::small::random_bits;
use ion::phy_mfsk::hook::air;

/// What a place holds before a call: no bit and no value.
const BEFORE: u8 = 0xA5;

/// Document 02: each bit to slot (a·p) mod n with its scramble bit added modulo 2, and 0 where none goes.
fn by_the_paper(bits: &[u8], n: usize) -> Vec<u8> {
    let (a, mut slots) = (air::interleave_mult(n), vec![0; n]);
    bits.iter().enumerate().for_each(|(p, b)| slots[a * p % n] = (b + air::scramble(p)) % 2);
    slots
}

/// The Rust's slots, back from its tones, those alone that some bit reaches: in the others its padding is scrambled
/// (docs/DIFFERENCES.md).
fn by_the_rust(mode: u64, bits: &[u8], n: usize) -> Vec<u8> {
    let tones = air::data_values(MODES[mode as usize], bits);
    let a = air::interleave_mult(n);
    let slot = |s: usize| (air::gray(tones[s / 5][0] as usize) >> (s % 5) & 1) as u8;
    (0..bits.len()).map(|p| slot(a * p % n)).collect()
}

fn signs(bits: &[u8]) -> Vec<f32> {
    bits.iter().map(|&b| if b == 0 { 1.0 } else { -1.0 }).collect()
}

fn bits_sent(c: &mut Check, mode: u64, bits: &mut [u8], room: usize) {
    let n = 5 * bits.len().div_ceil(5);
    let want = match () {
        _ if bits.len() > 10_240 => 2,
        _ if room != n => 4,
        _ if bits.iter().any(|&b| b > 1) => 5,
        _ => 0,
    };
    let before = bits.to_vec();
    let mut slots = vec![BEFORE; room];
    c.one("number", &mut face::interleave(bits, &mut slots), want);
    if want != 0 {
        c.all("slots' places", &mut slots, BEFORE);
        c.refused(want);
    } else if n == 0 {
        c.answered(1);
    } else {
        c.list("slots", &mut slots, &by_the_paper(&before, n));
        let a = air::interleave_mult(n);
        let mut ours: Vec<u8> = (0..before.len()).map(|p| slots[a * p % n]).collect();
        c.list("slots that a bit reaches", &mut ours, &by_the_rust(mode, &before, n));
        c.list("signs read back", &mut air::deinterleave(&signs(&slots), before.len()), &signs(&before));
        c.answered(0);
    }
    c.list("the bits", bits, &before);
    c.input(|| format!("mode {mode} bits {before:?} slots {room}"));
}

/// Mostly short messages, one in eight of any length, and the ends.
fn length(d: &mut Dice, i: u64, most: u64) -> usize {
    match i % 8 {
        0 => d.below(most + 1) as usize,
        1 => (most - d.below(8)) as usize,
        2 => d.below(6) as usize,
        _ => d.below(300) as usize,
    }
}

fn bits_random(_: &Oracle, d: &mut Dice, i: u64, c: &mut Check) {
    let n = length(d, i, 10_240);
    let mut bits = random_bits(d, n);
    bits_sent(c, d.below(2), &mut bits, 5 * n.div_ceil(5))
}

fn other(d: &mut Dice, n: usize) -> usize {
    [0, 1, n.saturating_sub(1), n + 1, n + 5, n.saturating_sub(5), 2 * n, 10_240, 2_048][d.below(9) as usize]
}

fn spoil(d: &mut Dice, bytes: &mut [u8], bad: &[u8]) {
    if !bytes.is_empty() {
        let at = d.below(bytes.len() as u64) as usize;
        bytes[[0, bytes.len() - 1, at][d.below(3) as usize]] = d.of(bad);
    }
}

/// One to three damages: the length, the room, a byte.
fn bits_damaged(_: &Oracle, d: &mut Dice, i: u64, c: &mut Check) {
    let n = length(d, i, 10_240);
    let (mut bits, mut room) = (random_bits(d, n), 5 * n.div_ceil(5));
    for _ in 0..1 + d.below(3) {
        match d.below(3) {
            0 => bits.resize(d.of(&[10_241, 10_245, 20_475, n + 1]), 1),
            1 => room = other(d, n),
            _ => spoil(d, &mut bits, &[2, 3, 128, 255]),
        }
    }
    bits_sent(c, 0, &mut bits, room)
}

fn symbols_sent(c: &mut Check, mode: u64, symbols: &mut [u8], room: usize) {
    let n = symbols.len();
    let want = match () {
        _ if n > 2_048 => 2,
        _ if room != n => 4,
        _ if symbols.iter().any(|&x| x > 31) => 11,
        _ => 0,
    };
    let before = symbols.to_vec();
    let mut values = vec![BEFORE; room];
    c.one("number", &mut face::interleave_sym(symbols, &mut values), want);
    if want != 0 {
        c.all("values' places", &mut values, BEFORE);
        c.refused(want);
    } else if n == 0 {
        c.answered(1);
    } else {
        let theirs: Vec<u8> = air::data_values_sym(MODES[mode as usize], &before).iter().map(|v| v[0] as u8).collect();
        c.list("values", &mut values, &theirs);
        // a metric for each sent value, its symbol's number: where it lands
        let mut metrics = vec![-1f32; 32 * n];
        let a = air::interleave_mult(n);
        (0..n).for_each(|p| metrics[32 * (a * p % n) + values[a * p % n] as usize] = p as f32);
        let back = air::deinterleave_sym(&metrics);
        let mut own: Vec<f32> = (0..n).map(|p| back[32 * p + before[p] as usize]).collect();
        c.list("metrics read back", &mut own, &(0..n).map(|p| p as f32).collect::<Vec<_>>());
        c.answered(0);
    }
    c.list("the symbols", symbols, &before);
    c.input(|| format!("mode {mode} symbols {before:?} values {room}"));
}

fn drawn(d: &mut Dice, n: usize) -> Vec<u8> {
    (0..n).map(|_| d.below(32) as u8).collect()
}

fn symbols_random(_: &Oracle, d: &mut Dice, i: u64, c: &mut Check) {
    let n = length(d, i, 2_048);
    let mut symbols = drawn(d, n);
    symbols_sent(c, d.below(2), &mut symbols, n)
}

fn symbols_damaged(_: &Oracle, d: &mut Dice, i: u64, c: &mut Check) {
    let n = length(d, i, 2_048);
    let (mut symbols, mut room) = (drawn(d, n), n);
    for _ in 0..1 + d.below(3) {
        match d.below(3) {
            0 => symbols.resize(d.of(&[2_049, 2_050, 4_096, 10_240, n + 1]), 31),
            1 => room = other(d, n),
            _ => spoil(d, &mut symbols, &[32, 33, 63, 128, 255]),
        }
    }
    symbols_sent(c, 0, &mut symbols, room)
}

pub fn jobs() -> Vec<Job> {
    let job = |entry, source, inputs, numbers, cost, one| Job { entry, source, inputs, kinds: &["answered", "none sent"], numbers, cost, one };
    vec![
        job("bits sent", "random", 100_000, &[], 0.05, bits_random),
        job("bits sent", "damaged", 100_000, &[2, 4, 5], 0.02, bits_damaged),
        job("symbols sent", "random", 100_000, &[], 0.05, symbols_random),
        job("symbols sent", "damaged", 100_000, &[2, 4, 11], 0.02, symbols_damaged),
    ]
}
