// The three small entries: the multiplier, the CRC, a header sent.
use crate::check::Check;
use crate::face;
use crate::inputs::{Dice, bits_of};
use crate::jobs::{Job, Oracle};
use crate::made::{KINDS, MODES};
use ion::phy_mfsk::hook::{Fmt, air};

/// What a place holds before a call: no answer.
const BEFORE: u64 = 0xA5A5_A5A5_A5A5_A5A5;
/// The header's bits, and as many symbols, by kind (document 01).
pub fn header_bits(kind: u8) -> usize {
    if kind == 1 { 64 } else { 48 }
}

fn multiplier(c: &mut Check, n: u64) {
    let (mut mult, want) = (BEFORE, if n > 10_240 { 2 } else { 0 });
    c.one("number", &mut face::interleave_mult(n, &mut mult), want);
    if want == 0 {
        c.one("multiplier", &mut mult, air::interleave_mult(n as usize) as u64);
        c.answered(0);
    } else {
        c.one("multiplier's place", &mut mult, BEFORE);
        c.refused(want);
    }
    c.input(|| format!("n = {n}"));
}

fn multiplier_any(_: &Oracle, d: &mut Dice, _: u64, c: &mut Check) {
    let n = match d.below(4) {
        0 => d.word() >> d.below(64),
        1 => 10_240 + d.below(64),
        2 => d.of(&[1u64 << 32, 1 << 31, 1 << 63, u64::MAX, 10_241 + (1 << 32)]).wrapping_add(d.below(100)),
        _ => d.below(20_000),
    };
    multiplier(c, n)
}

/// Of several causes the first in the papers' order.
fn crc_table(mode: u8, kind: u8, layout: u8, bits: &[u8]) -> u32 {
    match () {
        _ if mode > 1 || kind > 2 => 1,
        _ if !(1..=8).contains(&layout) => 12,
        _ if bits.len() > 1_024 => 4,
        _ if bits.iter().any(|&b| b > 1) => 5,
        _ => 0,
    }
}

fn crc(c: &mut Check, mode: u8, kind: u8, layout: u8, bits: &mut [u8]) {
    let (before, want) = (bits.to_vec(), crc_table(mode, kind, layout, bits));
    let mut crc = BEFORE as u16;
    c.one("number", &mut face::crc(mode, kind, layout, bits, &mut crc), want);
    if want == 0 {
        c.one("CRC", &mut crc, air::crc16(&before, air::crc_start(layout as usize, MODES[mode as usize], KINDS[kind as usize])));
        c.answered(layout as usize - 1);
    } else {
        c.one("CRC's place", &mut crc, BEFORE as u16);
        c.refused(want);
    }
    c.list("the bits", bits, &before);
    c.input(|| format!("mode {mode} kind {kind} layout {layout} bits {before:?}"));
}

pub fn random_bits(d: &mut Dice, n: usize) -> Vec<u8> {
    let (mut word, style) = (0, d.below(8));
    (0..n)
        .map(|i| {
            if i % 64 == 0 {
                word = if style == 0 { 0 } else if style == 1 { u64::MAX } else { d.word() };
            }
            (word >> (i % 64) & 1) as u8
        })
        .collect()
}

fn crc_random(_: &Oracle, d: &mut Dice, _: u64, c: &mut Check) {
    let n = if d.below(2) == 0 { d.below(1_025) } else { d.of(&[0, 1, 16, 32, 48, 64, 1_023, 1_024]) };
    let (mode, kind, layout) = (d.below(2) as u8, d.below(3) as u8, layout(d));
    crc(c, mode, kind, layout, &mut random_bits(d, n as usize))
}

/// One to three damages: names, the layout, the length, a byte.
fn crc_damaged(_: &Oracle, d: &mut Dice, _: u64, c: &mut Check) {
    let (mut mode, mut kind, mut layout, n) = (d.below(2) as u8, d.below(3) as u8, layout(d), d.below(1_025) as usize);
    let mut bits = random_bits(d, n);
    for _ in 0..1 + d.below(3) {
        match d.below(5) {
            0 => mode = bad_name(d, 2),
            1 => kind = bad_name(d, 3),
            4 => layout = bad_layout(d),
            2 => bits.resize(d.of(&[1_025, 1_026, 1_088, 2_048, 1_024]), d.below(2) as u8),
            _ => spoil_bit(d, &mut bits),
        }
    }
    crc(c, mode, kind, layout, &mut bits)
}

/// A layout, 1 to 8 (document 02, #102).
pub fn layout(d: &mut Dice) -> u8 {
    1 + d.below(8) as u8
}

/// A number that is no layout.
pub fn bad_layout(d: &mut Dice) -> u8 {
    if d.below(3) == 0 { 0 } else { bad_name(d, 9) }
}

/// A number from `first` up that names nothing.
pub fn bad_name(d: &mut Dice, first: u8) -> u8 {
    if d.below(2) == 0 { first + d.below(2) as u8 } else { first + d.below(256 - first as u64) as u8 }
}

fn spoil_bit(d: &mut Dice, bits: &mut [u8]) {
    if let Some(last) = bits.len().checked_sub(1) {
        let at = match d.below(3) { 0 => 0, 1 => last, _ => d.below(last as u64 + 1) as usize };
        bits[at] = d.of(&[2, 3, 128, 254, 255]);
    }
}

fn sent(c: &mut Check, o: &Oracle, mode: u8, kind: u8, bits: &mut [u8], room: usize) {
    let n = header_bits(kind);
    let want = match () {
        _ if mode > 1 || kind > 2 => 1,
        _ if bits.len() != n || room != n => 4,
        _ if bits.iter().any(|&b| b > 1) => 5,
        _ => 0,
    };
    let before = bits.to_vec();
    let mut values = vec![BEFORE as u8; room];
    c.one("number", &mut face::header_values(mode, kind, bits, &mut values), want);
    if want == 0 {
        let (m, k) = (MODES[mode as usize], KINDS[kind as usize]);
        let theirs: Vec<u8> = air::header_values(m, k, &before).iter().map(|v| v[0] as u8).collect();
        c.list("values", &mut values, &theirs);
        let steps = o.code.encode_tb(&before);
        let mut ours: Vec<u16> = (0..n).map(|j| values[air::header_slot(Fmt::of(m), k, j)] as u16).collect();
        c.list("values by step", &mut ours, &steps);
        c.answered(0);
    } else {
        c.all("values' places", &mut values, BEFORE as u8);
        c.refused(want);
    }
    c.list("the bits", bits, &before);
    c.input(|| format!("mode {mode} kind {kind} bits {before:?} values {room}"));
}

fn sent_random(o: &Oracle, d: &mut Dice, i: u64, c: &mut Check) {
    let (mode, kind) = (d.below(2) as u8, d.below(3) as u8);
    let n = header_bits(kind);
    // one in sixteen with one or two ones, or one or two zeros
    let word = match i % 16 {
        0 => 1 << d.below(n as u64) | 1 << d.below(n as u64),
        1 => !(1 << d.below(n as u64) | 1 << d.below(n as u64)),
        _ => d.word(),
    };
    sent(c, o, mode, kind, &mut bits_of(word, n), n)
}

fn sent_damaged(o: &Oracle, d: &mut Dice, _: u64, c: &mut Check) {
    let (mut mode, mut kind) = (d.below(2) as u8, d.below(3) as u8);
    let mut room = header_bits(kind);
    let mut bits = bits_of(d.word(), room);
    for _ in 0..1 + d.below(3) {
        let other = [0, 1, 15, 47, 48, 49, 63, 64, 65, 128][d.below(10) as usize];
        match d.below(6) {
            0 => mode = bad_name(d, 2),
            1 => kind = bad_name(d, 3),
            2 => kind = d.below(3) as u8,
            3 => bits.resize(other, 1),
            4 => room = other,
            _ => spoil_bit(d, &mut bits),
        }
    }
    sent(c, o, mode, kind, &mut bits, room)
}

/// What is answered of a CRC is told by its layout k, so that a whole run must meet each.
const LAYOUTS: [&str; 8] = ["k 1", "k 2", "k 3", "k 4", "k 5", "k 6", "k 7", "k 8"];

pub fn jobs() -> Vec<Job> {
    let job = |entry, source, inputs, numbers, cost, one| Job { entry, source, inputs, kinds: &["answered"], numbers, cost, one };
    vec![
        job("multiplier", "every n", 10_241, &[], 0.001, |_, _, n, c| multiplier(c, n)),
        job("multiplier", "random", 400_000, &[2], 0.0005, multiplier_any),
        Job { kinds: &LAYOUTS, ..job("CRC", "random", 300_000, &[], 0.01, crc_random) },
        Job { kinds: &LAYOUTS, ..job("CRC", "damaged", 200_000, &[1, 12, 4, 5], 0.004, crc_damaged) },
        job("header sent", "random", 300_000, &[], 0.01, sent_random),
        job("header sent", "damaged", 200_000, &[1, 4, 5], 0.002, sent_damaged),
    ]
}
