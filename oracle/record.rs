// Writes recorded answers of the Rust to standard output, 17 bytes a record: for crates/vectors/stdin, or with the word `series` fits
// and series of the tracker for crates/series/stdin, or with the word `boards` series of slips put on a board, by the model of board.rs,
// for crates/board_series/stdin, or with the word `noise` local noise factors, and by the table of noisy.rs what is refused of them, for
// crates/noise_series/stdin.
use ion::phy_mfsk::hook::{Fmt, Kind, MfskMode, Terms, Tracker, air, code, decode_terms, decode_terms_told, blanked_frac, fit_drift, soft_terms, windows};
use board::{Board, rank};
use face::Noise;
use noisy::{ENERGY, EPS, NOISE, R, Theirs};
use slip::Slip;
use std::cmp::Ordering;
use std::io::Write;

mod board;
#[allow(dead_code)] // only what local noise is given: ours is not linked here
mod face;
mod inputs;
mod noisy;
mod slip;

/// The terms that crates/vectors works out from a seed: whole numbers from -2 to 2, with the values of a header raised
/// by up to 7.
fn terms(mode: MfskMode, kind: Kind, seed: u64) -> Vec<Terms> {
    let fmt = Fmt::of(mode);
    let n = air::header_info_bits(kind);
    let bits: Vec<u8> = (0..n).map(|j| (air::mix64(seed) >> j & 1) as u8).collect();
    let mut t: Vec<f32> = (0..260 * n as u64).map(|i| (air::mix64(seed ^ i << 8) % 5) as f32 - 2.0).collect();
    for (s, v) in air::header_values(mode, kind, &bits).iter().enumerate() {
        t[260 * s + 104 + fmt.tone_bin(fmt.hop(s), 0, v[0] as usize) + 2] += (seed % 8) as f32;
    }
    t.chunks(260).map(|s| std::array::from_fn(|r| std::array::from_fn(|p| s[52 * r + p]))).collect()
}

/// The digest that crates/vectors makes of a burst's metrics and soft bits, its terms and counts worked out from a seed, in layout k.
fn burst(mode: MfskMode, kind: Kind, k: usize, symbols: bool, window: usize, bits: usize, seed: u64) -> u64 {
    let n = bits.div_ceil(5);
    let flat: Vec<f32> = (0..260 * n as u64).map(|i| ((air::mix64(seed ^ i << 32) % 401) as f32 - 200.0) / 16.0).collect();
    let terms: Vec<Terms> = flat.chunks(260).map(|s| std::array::from_fn(|r| std::array::from_fn(|p| s[52 * r + p]))).collect();
    let blanked: Vec<f32> = (0..n as u64).map(|i| blanked_frac((air::mix64(seed ^ i << 48) % (6 * k as u64 + 2)) as u32 * window as u32, window, k)).collect();
    let out = soft_terms(mode, symbols, air::header_info_bits(kind), bits, &terms, &blanked);
    out.metrics.iter().chain(&out.llrs).fold(seed, |h, x| air::mix64(h ^ x.to_bits() as u64))
}

/// What a refusal's number is added to.
const REFUSED: u64 = 1 << 32;

/// The slots of bits by document 02's words; where no slot is left out, by the Rust as well.
fn slots(bits: &[u8]) -> Vec<u8> {
    let n = 5 * bits.len().div_ceil(5);
    let (a, mut slots) = (air::interleave_mult(n), vec![0; n]);
    bits.iter().enumerate().for_each(|(p, b)| slots[a * p % n] = (b + air::scramble(p)) % 2);
    if bits.len() == n && n > 0 {
        let tones = air::data_values(MfskMode::R0, bits);
        slots = (0..n).map(|s| (air::gray(tones[s / 5][0] as usize) >> (s % 5) & 1) as u8).collect();
    }
    slots
}

/// The digest that crates/vectors makes of data sent, bits or symbols worked out from a seed, or the refusal of a list
/// too long, of `extra` places too many, or of a first one that is none.
fn sending(symbols: bool, asked: u64) -> u64 {
    let (seed, n, extra, first) = (asked % REFUSED, (asked >> 32) % 65536, (asked >> 48) % 256, (asked >> 56) as u8);
    let (below, most, number) = if symbols { (32, 2_048, 11) } else { (2, 10_240, 5) };
    let mut list: Vec<u8> = (0..n).map(|i| (air::mix64(seed ^ i << 32) % below) as u8).collect();
    if first > 0 {
        list[0] = first;
    }
    let sent: Vec<u8> = match () {
        _ if n > most => return REFUSED + 2,
        _ if extra > 0 => return REFUSED + 4,
        _ if list.iter().any(|&x| x as u64 >= below) => return REFUSED + number,
        _ if symbols && n > 0 => air::data_values_sym(MfskMode::R0, &list).iter().map(|v| v[0] as u8).collect(),
        _ => slots(&list),
    };
    sent.iter().fold(seed, |h, &x| air::mix64(h ^ x as u64))
}

fn drawn(seed: u64, i: usize) -> u64 {
    air::mix64(seed ^ (i as u64) << 32)
}

fn below(x: u64, n: u32) -> f64 {
    ((x % 65536) as u32 % n) as f64
}

/// The drift of the blocks that crates/series works out from a seed, or the refusal of one that is out of range.
fn fit(mode: MfskMode, seed: u64, n: usize, bad: bool) -> u64 {
    let slope = (below(seed, 64) - 32.0) / 64.0;
    let line = |i: usize| slope * i as f64 + (below(drawn(seed, i) >> 8, 2001) - 1000.0) / 128.0;
    let blocks: Vec<(f64, f64)> = (0..n).map(|i| ((64 * i as u64 + drawn(seed, i) % 64) as f64 / 2.0, if bad && i == 1 { 5000.0 } else { line(i) })).collect();
    if blocks.iter().any(|b| b.1.abs() > 4096.0) {
        return REFUSED + 10;
    }
    fit_drift(&blocks, Fmt::of(mode).sym).to_bits()
}

/// The digest that crates/series makes of a series of calls from a fresh tracker, its samples worked out from a seed:
/// some are Missed, some out of range.
fn series(mode: MfskMode, seed: u64, calls: usize) -> u64 {
    let mut t = Tracker::new(mode);
    let mut h = seed;
    for c in 0..calls {
        let x = drawn(seed, c);
        let early = if (x >> 52) % 64 == 0 { 2e9 } else { below(x >> 8, 1000) };
        let heard = (x % 8 != 0).then(|| (early, below(x >> 24, 1000) + below(seed, 256), below(x >> 40, 100)));
        let number = match heard {
            Some((early, _, _)) if early > 1e9 => 8,
            _ if t.shifts().len() == 2048 => 9,
            _ => 0,
        };
        if number == 0 {
            t.symbol(heard);
        }
        h = air::mix64(h ^ number);
    }
    let (n, shift, tnum, tden, _, drift) = t.state();
    let fields = [n as u64, (shift as f64).to_bits(), tnum.to_bits(), tden.to_bits(), drift.to_bits(), t.blocks().len() as u64];
    let shifts = (0..2048).map(|i| (t.shifts().get(i).copied().unwrap_or(0) as f64).to_bits());
    let blocks = (0..64).flat_map(|i| t.blocks().get(i).map_or([0, 0], |b| [(2.0 * b.0) as u64, b.1.to_bits()]));
    fields.into_iter().chain(shifts).chain(blocks).fold(h, |h, x| air::mix64(h ^ x))
}

/// The pass that a slip's outcome goes with, drawn from a word.
fn pass_of(outcome: u8, x: u64) -> u8 {
    match outcome {
        0 => 1 + (x % 3) as u8,
        3 => 2 + (x % 2) as u8,
        _ => 0,
    }
}

/// The slip that crates/vectors draws from what is asked: a seed, and in bit 56 whether it is a Likely.
fn slip_of(asked: u64) -> Slip {
    let (seed, likely) = (asked % REFUSED, (asked >> 56) % 2 == 1);
    let x = drawn(seed, 0);
    let (kind, outcome, y) = ((x / 2 % 3) as u8, if likely { 3 } else { (x / 8 % 3) as u8 }, drawn(seed, 2));
    Slip {
        mode: (x % 2) as u8,
        kind,
        word: drawn(seed, 1) >> if kind == 1 { 0 } else { 16 },
        outcome,
        pass: pass_of(outcome, x / 32),
        score: (y % 2) as u32 * 0x8000_0000 + (y / 2 % 0x7F80_0000) as u32,
        start: drawn(seed, 3),
        segment: (drawn(seed, 4) >> 48) as u16,
    }
}

/// The digest that crates/vectors makes of a slip written, one value another, into so many bytes, or its refusal.
fn slip_written(asked: u64) -> u64 {
    let (seed, which, room) = (asked % REFUSED, (asked >> 40) as u8, (asked >> 48) % 256);
    let mut s = slip_of(asked);
    match (asked >> 32) % 256 {
        1 => s.mode = which,
        2 => s.kind = which,
        3 => s.word |= 1 << which,
        4 => s.outcome = which,
        5 => s.pass = which,
        6 => s.score = [0x8000_0000, 0x7F7F_FFFF, 1, 0x7F80_0000, 0xFF80_0000, 0x7FC0_0000, 0xFF80_0001][which as usize],
        _ => (),
    }
    s.written(room as usize).map_or_else(|k| REFUSED + k as u64, |bytes| bytes.iter().fold(seed, |h, &b| air::mix64(h ^ b as u64)))
}

/// The digest that crates/vectors makes of a string read, a slip's bytes damaged at one place, cut off or gone on, or its refusal.
fn slip_read(asked: u64) -> u64 {
    let (seed, at, with, length) = (asked % REFUSED, (asked >> 32) % 256, (asked >> 40) as u8, (asked >> 48) % 256);
    let mut string = slip_of(asked).written(44).unwrap();
    string[at as usize] ^= with;
    string.resize(length as usize, 0);
    slip::read(&string).map_or_else(|k| REFUSED + k as u64, |s| {
        let bytes = [s.mode, s.kind, s.outcome, s.pass].map(u64::from);
        bytes.into_iter().chain([s.word, s.score as u64, s.start, s.segment as u64]).fold(seed, |h, x| air::mix64(h ^ x))
    })
}

/// Document 02, #107: Likely slips of either pass, other passes, and what each side refuses.
fn likely_slips(put: Put) {
    let likely = |seed: u64, second: u64, third: u64, length: u64| seed | second << 32 | third << 40 | length << 48 | 1 << 56;
    let mut seeds = 9700..;
    let mut write = |put: Put, place: u64, which: u64, room: u64| {
        let asked = likely(seeds.next().unwrap(), place, which, room);
        put(15, asked, slip_written(asked));
    };
    (0..6).for_each(|_| write(put, 0, 0, 44));
    [43, 45].into_iter().for_each(|room| write(put, 0, 0, room));
    for (place, which) in [(1, 2), (3, 63), (4, 0), (4, 1), (4, 4), (5, 0), (5, 1), (5, 2), (5, 3), (5, 4), (6, 0), (6, 3)] {
        write(put, place, which, 44);
    }
    let mut seeds = 9800..;
    let mut read = |put: Put, at: u64, with: u64, length: u64| {
        let asked = likely(seeds.next().unwrap(), at, with, length);
        put(152, asked, slip_read(asked));
    };
    (0..6).for_each(|_| read(put, 0, 0, 44));
    [43, 45].into_iter().for_each(|length| read(put, 0, 0, length));
    // the outcome's byte as Sure's, Open's, Kept's and 7, and every bit of the pass
    [3, 1, 2, 4].into_iter().for_each(|with| read(put, 22, with, 44));
    (0..4).for_each(|bit| read(put, 23, 1 << bit, 44));
}

/// Document 02, #103: slips of every kind and outcome that it has, and what each side refuses.
fn slips(put: Put) {
    let mut seeds = 9000..;
    let mut next = || seeds.next().unwrap();
    let mut write = |put: Put, place: u64, which: u64, room: u64| {
        let asked = next() | place << 32 | which << 40 | room << 48;
        put(15, asked, slip_written(asked));
    };
    (0..24).for_each(|_| write(put, 0, 0, 44));
    [0, 1, 43, 45, 64].into_iter().for_each(|room| write(put, 0, 0, room));
    for (place, which) in [(1, 2), (1, 255), (2, 3), (2, 255), (3, 48), (3, 48), (3, 63), (3, 47), (4, 3), (4, 255), (5, 0), (5, 0), (5, 1), (5, 3), (5, 4), (5, 255)] {
        write(put, place, which, 44);
    }
    (0..7).for_each(|which| write(put, 6, which, 44));
    // 4 comes before 13
    write(put, 1, 2, 43);
    write(put, 6, 3, 45);
    let mut seeds = 9500..;
    let mut read = |put: Put, at: u64, with: u64, length: u64| {
        let asked = seeds.next().unwrap() | at << 32 | with << 40 | length << 48;
        put(152, asked, slip_read(asked));
    };
    (0..24).for_each(|_| read(put, 0, 0, 44));
    [0, 1, 43, 45, 64].into_iter().for_each(|length| read(put, 0, 0, length));
    (0..44).for_each(|at| read(put, at, 1 << (at % 8), 44));
}

/// Document 02, #111: headers read with a lent table of labels, right and off: every cause, and of several the first.
fn tables(put: Put) {
    let c = code();
    let mut one = |seed: u64, other: u64, m: usize, k: usize, place: u64, by: u64| {
        let (mode, kind) = ([MfskMode::R0, MfskMode::R1][m], [Kind::HeaderOnly, Kind::Data, Kind::Cue][k]);
        let t = terms(mode, kind, seed);
        let (bits, score, copy) = decode_terms_told(&c, mode, kind, &t);
        let (outcome, pass) = copy.outcome(score);
        let word = bits.iter().rev().fold(0, |w, &b| w << 1 | b as u64);
        let places = [word, outcome as u64 + 16 * pass as u64, score.to_bits() as u64, copy.ceiling().to_bits() as u64];
        let answer = match other {
            6 => REFUSED + 1,
            4 | 5 => REFUSED + 4,
            1 | 2 | 7 => REFUSED + 16,
            3 => REFUSED + 6,
            _ => places.into_iter().fold(seed, |h, x| air::mix64(h ^ x)),
        };
        put(153, seed | other << 20 | (m as u64) << 23 | (k as u64) << 24 | place << 32 | by << 47, answer);
    };
    for m in 0..2 {
        for k in 0..3 {
            one(500 + 10 * m as u64 + k as u64, 0, m, k, 0, 0);
        }
    }
    // the first entry, the last, both sides of the halves, each of the five bits and bits above them
    for (i, place) in [0, 1, 2, 16_383, 16_384, 16_385, 32_766, 32_767, 255, 8_192].into_iter().enumerate() {
        one(600 + i as u64, 1, i % 2, i % 3, place, 1 << [0, 1, 2, 3, 4, 5, 8, 15, 0, 4][i]);
    }
    // as linear as the right one, by another generator: a bit of one of the five
    for (i, bit) in [0, 3, 7, 14].into_iter().enumerate() {
        one(620 + i as u64, 7, i % 2, i % 3, 1 << bit, 1 << i);
    }
    for other in 2..=6 {
        for i in 0..4 {
            one(640 + 10 * other + i, other, i as usize % 2, i as usize % 3, 1 + 4_321 * i, 1 + i);
        }
    }
}

/// Takes what was asked, its argument and the answer.
type Put<'a> = &'a mut dyn FnMut(u8, u64, u64);

fn vectors(put: Put) {
    for n in (0..=320).chain((0..=128).map(|i| 80 * i)) {
        put(0, n, air::interleave_mult(n as usize) as u64);
    }
    for (m, mode) in [MfskMode::R0, MfskMode::R1].into_iter().enumerate() {
        for (k, kind) in [Kind::HeaderOnly, Kind::Data, Kind::Cue].into_iter().enumerate() {
            for i in 0..64u64 {
                let len = i % 33;
                let word = air::mix64(1000 * m as u64 + 100 * k as u64 + i) >> 32 & ((1 << len) - 1);
                let bits: Vec<u8> = (0..len).map(|j| (word >> j & 1) as u8).collect();
                let asked = m as u64 | (k as u64) << 8 | len << 16 | word << 32;
                put(1, asked, air::crc16(&bits, air::crc_start(1, mode, kind)) as u64);
            }
        }
        put(9, m as u64, Fmt::of(mode).sym as u64);
        put(10, m as u64, Fmt::of(mode).nbins as u64);
        for w in 79..=225 {
            put(11, m as u64 | w << 8, windows(mode).contains(&(w as usize)) as u64);
        }
        for i in (0..256).chain([2047, 2048, 4095, 4096]) {
            put(2 + m as u8, i, Fmt::of(mode).hop(i as usize) as u64);
        }
    }
    for (k, kind) in [Kind::HeaderOnly, Kind::Data, Kind::Cue].into_iter().enumerate() {
        for j in 0..air::header_info_bits(kind) {
            put(8, k as u64 | (j as u64) << 8, air::header_slot(Fmt::of(MfskMode::R0), kind, j) as u64);
        }
    }
    for (m, mode) in [MfskMode::R0, MfskMode::R1].into_iter().enumerate() {
        for (k, kind) in [Kind::HeaderOnly, Kind::Data, Kind::Cue].into_iter().enumerate() {
            let n = air::header_info_bits(kind);
            for word in [0, u64::MAX, 1, 1 << (n - 1)].into_iter().chain((0..12).map(air::mix64)) {
                let bits: Vec<u8> = (0..n).map(|j| (word >> j & 1) as u8).collect();
                for (part, slots) in air::header_values(mode, kind, &bits).chunks(8).enumerate() {
                    let values = slots.iter().rev().fold(0, |v, s| v << 8 | s[0] as u64);
                    put((16 + part + 8 * (k + 3 * m)) as u8, word, values);
                }
            }
        }
    }
    let c = code();
    for (m, mode) in [MfskMode::R0, MfskMode::R1].into_iter().enumerate() {
        for (k, kind) in [Kind::HeaderOnly, Kind::Data, Kind::Cue].into_iter().enumerate() {
            let first = 100 * m as u64 + 10 * k as u64;
            // besides, the first that closes in pass 3 and the first that stays Open
            let late = (1000..).find(|&seed| decode_terms_told(&c, mode, kind, &terms(mode, kind, seed)).2.pass == 3).unwrap();
            let open = (1000..).find(|&seed| decode_terms_told(&c, mode, kind, &terms(mode, kind, seed)).2.kind == 2).unwrap();
            for seed in (first..first + 8).chain([late, open]) {
                let t = terms(mode, kind, seed);
                let (bits, score) = decode_terms(&c, mode, kind, &t);
                let (outcome, pass) = decode_terms_told(&c, mode, kind, &t).2.outcome(score);
                let word = bits.iter().rev().fold(0, |w, &b| w << 1 | b as u64);
                for (part, answer) in [word, outcome as u64 + 16 * pass as u64, score.to_bits() as u64].into_iter().enumerate() {
                    put((64 + part + 3 * (k + 3 * m)) as u8, seed, answer);
                }
            }
        }
    }
    for (m, mode) in [MfskMode::R0, MfskMode::R1].into_iter().enumerate() {
        for (k, kind) in [Kind::HeaderOnly, Kind::Data, Kind::Cue].into_iter().enumerate() {
            for form in 0..2u64 {
                for (i, bits) in [0, 1, 2, 5, 6, 31, 64, 320].into_iter().enumerate() {
                    let (number, seed) = (i % 3, 1000 * m as u64 + 100 * k as u64 + 10 * form + i as u64);
                    let asked = seed | (bits as u64) << 32 | (number as u64) << 48;
                    put((128 + form + 2 * (k as u64 + 3 * m as u64)) as u8, asked, burst(mode, kind, 1, form == 1, windows(mode)[number], bits, seed));
                }
            }
        }
    }
    layouts(put);
    slips(put);
    // how many, places too many, the first one instead
    let bits = [0, 1, 2, 3, 4, 5, 6, 7, 8, 9, 10, 31, 64, 100, 320, 1000, 10_235, 10_238, 10_240].map(|n| (n, 0, 0));
    let refused = [(10_241, 0, 0), (10_241, 1, 2), (5, 1, 0), (5, 1, 2), (5, 0, 2), (5, 0, 255)];
    for (i, (n, extra, first)) in bits.into_iter().chain(refused).enumerate() {
        let asked = 5000 + i as u64 | n << 32 | extra << 48 | first << 56;
        put(12, asked, sending(false, asked));
    }
    let symbols = [0, 1, 2, 3, 4, 5, 31, 32, 64, 100, 320, 1000, 2_047, 2_048].map(|n| (n, 0, 0));
    let refused = [(2_049, 0, 0), (2_049, 1, 32), (5, 1, 0), (5, 1, 32), (5, 0, 32), (5, 0, 255), (5, 0, 31)];
    for (i, (n, extra, first)) in symbols.into_iter().chain(refused).enumerate() {
        let asked = 6000 + i as u64 | n << 32 | extra << 48 | first << 56;
        put(13, asked, sending(true, asked));
    }
    for p in (0..256).chain([2047, 2048, 10_239]) {
        put(4, p, air::scramble(p as usize) as u64);
        put(5, p, air::sym_scramble(p as usize) as u64);
    }
    for v in 0..32 {
        put(6, v, air::gray(v as usize) as u64);
    }
    for z in [0, 1, 1234567, 1 << 63, u64::MAX] {
        put(7, z, air::mix64(z));
    }
    ceilings(put);
    likely_slips(put);
    tables(put);
}

/// Document 02, #106 and #107: ceilings of headers as those of the codes 64 to 81, by the copy of `decode_tb`'s loop to which make.sh adds the tops,
/// and by them their outcomes, under those codes. For each mode and kind ten seeds, the first from 2,000, 3,000 .. on that are as wanted: out in pass
/// 1, 2 or 3, a candidate or neither, with the ceiling as the score or not. Their terms are whole, so that the least top is the last.
fn ceilings(put: Put) {
    // kind and pass as told, and whether the ceiling is the score; of those out in pass 3, which are few, either
    const WANTED: [(u8, u8, bool); 10] =
        [(0, 1, true), (0, 2, true), (0, 2, false), (0, 3, false), (0, 3, false), (1, 0, true), (1, 0, false), (1, 0, false), (2, 0, false), (2, 0, false)];
    let c = code();
    for (m, mode) in [MfskMode::R0, MfskMode::R1].into_iter().enumerate() {
        for (k, kind) in [Kind::HeaderOnly, Kind::Data, Kind::Cue].into_iter().enumerate() {
            let mut wanted: Vec<_> = WANTED.into_iter().map(Some).collect();
            for seed in 2000 + 1000 * (k + 3 * m) as u64.. {
                if wanted.iter().all(Option::is_none) {
                    break;
                }
                let (_, score, copy) = decode_terms_told(&c, mode, kind, &terms(mode, kind, seed));
                let met = Some((copy.kind, copy.pass, copy.pass != 3 && copy.ceiling() == score));
                if let Some(place) = wanted.iter_mut().find(|w| **w == met) {
                    *place = None;
                    put((82 + k + 3 * m) as u8, seed, copy.ceiling().to_bits() as u64);
                    let (outcome, pass) = copy.outcome(score);
                    put((65 + 3 * (k + 3 * m)) as u8, seed, outcome as u64 + 16 * pass as u64);
                }
            }
        }
    }
}

/// Document 02, #102: CRCs and bursts in every layout, and layouts that are refused.
fn layouts(put: Put) {
    for (m, mode) in [MfskMode::R0, MfskMode::R1].into_iter().enumerate() {
        for (k, kind) in [Kind::HeaderOnly, Kind::Data, Kind::Cue].into_iter().enumerate() {
            for layout in 1..=8u64 {
                let turn = 24 * m as u64 + 8 * k as u64 + layout;
                for len in [0, 1 + turn % 32] {
                    let word = air::mix64(7000 + turn) >> 32 & ((1 << len) - 1);
                    let bits: Vec<u8> = (0..len).map(|j| (word >> j & 1) as u8).collect();
                    let asked = m as u64 | (k as u64) << 8 | len << 16 | layout << 24 | word << 32;
                    put(14, asked, air::crc16(&bits, air::crc_start(layout as usize, mode, kind)) as u64);
                }
                for form in 0..2u64 {
                    let (number, bits, seed) = (turn % 3, [5, 31, 64, 320][((turn + form) % 4) as usize], 8000 + 2 * turn + form);
                    let asked = seed | bits << 32 | number << 48 | layout << 56;
                    let answer = burst(mode, kind, layout as usize, form == 1, windows(mode)[number as usize], bits as usize, seed);
                    put((140 + form + 2 * (k as u64 + 3 * m as u64)) as u8, asked, answer);
                }
            }
        }
    }
    for layout in [0, 9, 255u64] {
        put(14, 1 | 1 << 8 | 3 << 16 | layout << 24, REFUSED + 12);
        put(140, 8999 | 5 << 32 | layout << 56, REFUSED + 12);
        // no mode 2, and 1 comes before 12
        put(14, 2 | 3 << 16 | layout << 24, REFUSED + 1);
    }
}

/// Each through the entry itself and through the C function.
fn drifts(put: Put) {
    for way in 0..2u8 {
        for (m, mode) in [MfskMode::R0, MfskMode::R1].into_iter().enumerate() {
            let what = 192 + m as u8 + 2 * way;
            for n in [0, 1, 5, 6, 7, 16, 33, 63, 64] {
                for (seed, bad) in [(11 + n, false), (200 + 7 * n, false), (300 + n, true)] {
                    put(what, seed | n << 32 | (bad as u64) << 48, fit(mode, seed, n as usize, bad));
                }
            }
            for calls in [0, 1, 2, 3, 34, 66, 300, 1000, 2048, 2200] {
                let seed = 1000 + 17 * calls;
                put(what + 4, seed | calls << 32, series(mode, seed, calls as usize));
            }
        }
    }
}

// A series of slips put on a board, for crates/board_series. `what` is 200. `asked` has a seed in bits 0 to 31, how many puts (n) in bits 32 to 47,
// and a style in bits 48 to 50: an even one has few segments, an odd one many; 2, 3, 6 and 7 have damage; from 4 on there are Likely slips
// (document 02, #107). All numbers are u64; mix64 is the papers'.
//
// The board: 22,528 bytes, byte i holds mix64(seed xor i) % 256; the count is 0.
//
// Put j, for j = 0 to n - 1, draws four words:
//   x = mix64(seed xor (j << 32)), y = mix64(x), z = mix64(y), w = mix64(z)
// and spells the slip with
//   mode = x % 2, kind = (x / 2) % 3, outcome = (x / 8) % 3, from style 4 on (x / 8) % 4
//   pass = 1 + (x / 32) % 3 where the outcome is 0, 2 + (x / 32) % 2 where it is 3, else 0
//   score's pattern = (y % 2) * 0x8000_0000 + (y / 2) % 0x7F80_0000
//   word = z where the kind is 1, else z >> 16
//   start = (((x >> 8) % 4) << 62) xor ((x >> 10) % 2)
//   segment = (x >> 16) % 8 in the even styles, ((x >> 16) % 2048) * 31 in the odd ones
// in a string of 45 bytes, of which the last is 0, and puts its first 44 on the board. In the styles with damage w % 16 says what is otherwise:
//   0: byte (w >> 8) % 44 of the string is xored with 1 << ((w >> 16) % 8)
//   1: the first (w >> 8) % 44 bytes of the string are put
//   2: all 45 are put
//   3: before the put the count is raised by one, and after it set to what it was (no place past it is a slip: it is refused)
//   4: before the put the count is set to 513 + ((w >> 8) % 2) * 65535, and after it to what it was
//   5: the first 22,527 bytes of the board are lent, and the first (w >> 8) % 45 bytes of the string put
//   6: before the put byte 43 of the board is xored with 1 << ((w >> 16) % 8), and after it once more where it was refused
//   7: likewise byte (w >> 8) % 44 of the board
// and any other leaves the put as it is.
//
// The answer is a digest: h = seed; after each put h = mix64(h xor (number + 256 * count)), the number being the put's answer, 0 or the
// refusal's (13, not 2^32 + 13), and the count as the put left it, before it is set back; at the end, for each of the 22,528 bytes of the
// board, the first one first, h = mix64(h xor byte).

/// The slip of put j.
fn board_slip(seed: u64, j: u64, style: u64) -> Slip {
    let x = drawn(seed, j as usize);
    let y = air::mix64(x);
    let z = air::mix64(y);
    let (kind, outcome) = ((x / 2 % 3) as u8, (x / 8 % if style > 3 { 4 } else { 3 }) as u8);
    Slip {
        mode: (x % 2) as u8,
        kind,
        word: z >> if kind == 1 { 0 } else { 16 },
        outcome,
        pass: pass_of(outcome, x / 32),
        score: (y % 2) as u32 * 0x8000_0000 + (y / 2 % 0x7F80_0000) as u32,
        start: (x >> 8) % 4 << 62 ^ (x >> 10) % 2,
        segment: if style % 2 == 1 { (x >> 16) % 2048 * 31 } else { (x >> 16) % 8 } as u16,
    }
}

/// The digest of the whole series.
fn board_digest(asked: u64) -> u64 {
    let (seed, n, style) = (asked % REFUSED, (asked >> 32) % 65536, (asked >> 48) % 8);
    let mut board = Board { bytes: (0..board::BYTES as u64).map(|i| air::mix64(seed ^ i) as u8).collect(), count: 0 };
    let mut h = seed;
    for j in 0..n {
        let w = (0..4).fold(seed ^ j << 32, |word, _| air::mix64(word));
        let mut string = [board_slip(seed, j, style).written(44).unwrap(), vec![0]].concat();
        let (number, bit, was) = ((w >> 8) as usize, 1u8 << (w >> 16) % 8, board.count);
        let (mut part, mut last, mut at) = (44, None, None);
        match if style % 4 > 1 { w % 16 } else { 15 } {
            0 => string[number % 44] ^= bit,
            1 => part = number % 44,
            2 => part = 45,
            3 => board.count = was + 1,
            4 => board.count = 513 + (number % 2 * 65535) as u32,
            5 => (part, last) = (number % 45, board.bytes.pop()),
            6 => at = Some(43),
            7 => at = Some(number % 44),
            _ => (),
        }
        let lent = board.count;
        at.iter().for_each(|&i: &usize| board.bytes[i] ^= bit);
        let answer = board.put(&string[..part]) as u64;
        h = air::mix64(h ^ (answer + 256 * board.count as u64));
        at.iter().filter(|_| answer != 0).for_each(|&i| board.bytes[i] ^= bit);
        board.bytes.extend(last);
        if lent != was {
            board.count = was;
        }
    }
    board.bytes.iter().fold(h, |h, &b| air::mix64(h ^ b as u64))
}

/// Document 02, #105: few segments, boards that fill, and both with damage; #107: the same with Likely slips; #110: two slips of one segment
/// in each of the nine ways in which the new one's reading and start can be to the listed one's.
fn boards(put: Put) {
    let few = [0, 1, 2, 3, 4, 6, 9, 14, 20, 40, 70, 120].map(|n| (0, n));
    let many = [1, 2, 3, 10, 100, 250, 400, 550, 600, 650, 700, 700].map(|n| (1, n));
    let few_damaged = [1, 2, 4, 8, 12, 20, 30, 50, 80, 120, 200].map(|n| (2, n));
    let many_damaged = [20, 100, 400, 1600, 1600].map(|n| (3, n));
    let likely = [(4, 2), (4, 4), (4, 9), (4, 20), (4, 120), (5, 100), (5, 600), (5, 700), (6, 8), (6, 30), (6, 120), (7, 400), (7, 1600)];
    for ((style, n), seed) in few.into_iter().chain(many).chain(few_damaged).chain(many_damaged).chain(likely).zip(10_500u64..) {
        let asked = seed | n << 32 | style << 48;
        put(200, asked, board_digest(asked));
    }
    let ways = [Ordering::Less, Ordering::Equal, Ordering::Greater];
    for way in ways.map(|reading| ways.map(|start| (reading, start))).as_flattened() {
        let is_met = |&seed: &u64| {
            let [listed, new] = [0, 1].map(|j| board_slip(seed, j, 4));
            listed.segment == new.segment && (rank(new.outcome).cmp(&rank(listed.outcome)), new.start.cmp(&listed.start)) == *way
        };
        let asked = (11_000..).find(is_met).unwrap() | 2 << 32 | 4 << 48;
        put(200, asked, board_digest(asked));
    }
}

// Local noise factors, for crates/noise_series. `what` is 210. `asked` has a seed in bits 0 to 31, how many rows (n) in bits 32 to 43,
// the mode in 44 and 45, the kind in 46 and 47, a style in 48 to 51, and in 52 to 55 and 56 to 59 two damages, 0 for none. All numbers are
// u64; mix64 is the papers'. Every float is drawn as its bits, so that neither side rounds what is given.
//
// Word i of list l is word(l, i) = mix64(seed xor (l << 56) xor (i << 32)).
//
// Energy `at`, of row i = at / 52 and place b = at % 52, by x = word(0, at):
//   style 0: ordinary noise from 2^-5 to 2^2, bits 0x3D00_0000 + x % 0x0380_0000, times 2^k (bits + (k << 23)), where k is
//     8 where (w >> 8) % 52 = b, w = word(5, i) being the row's word (a tone in each row),
//     else 5 where w % 16 = 0 (a crash over the row),
//     else 2 + seed % 5 where f <= b <= f + (seed / 64) % 8, f = seed % 52, and (i % 32 + (seed / 512) % 32) % 32 < 16 (a generator in
//     some places for half of the rows), else 0
//   style 1: ties, x % 4 itself
//   style 2: zeros of the sign (x >> 8) % 2, but where x % 8 = 0 bits 0x3F80_0000 + (x >> 8) % 0x0200_0000
//   style 3: both ends, by x % 6 one of 0, -0, 10^9, the least float above 0, the least normal one and 1
//   style 4: any size, bits x % (1 + the bits of 10^9)
//   style 5: all equal over their noise, which is taken times 2^(seed % 4)
// Noise b, by x = word(1, b): in style 1 1 or 2 by x % 2; in style 3 one of 2^-20, 10^9 and 1 by x % 3; in style 4 of bits from those of
// 2^-20 to those of 10^9 by x; else from 1/2 up to 2, bits 0x3F00_0000 + x % 0x0100_0000.
// eps, by x = word(3, 0): in style 3 one of 0, -0 and 1/2 by x % 3; in style 4 of bits from 0 to those of 1/2 by x; else from those of
// 2^-7 to those of 1/2.
// r, by x = word(3, 1): in style 3 1 or 1,000 by x % 2; in style 4 of bits from those of 1 to those of 1,000 by x; else from those of 1
// up to those of 8, 8 left out.
// (`of bits from a to b by x` is a + x % (b - a + 1).)
// Factor i before the call, by x = word(2, i): bits ((x % 2) << 31) + (x >> 1) % 0x7F80_0000.
//
// Damage k has the word w = word(4, k). A bad value is by w % 6 the next float above its range, the next below it, infinity, -infinity,
// NaN or -1.
//   1, 2: an energy is bad, in row 0, n - 1 or n / 2 by (w >> 8) % 3, at place (w >> 16) % 52 by 1, 36 + (w >> 16) % 16 by 2
//   3, 4: a noise is bad, at place (w >> 16) % 52 by 3, 36 + (w >> 16) % 16 by 4
//   5: eps is bad; 6: r is bad
//   7, 8, 9: of the energies, the noise or the factors one too few is lent where w % 2 = 0 and there are any, else one too many
//   10: the rows told are n + 1 where w % 2 = 0, else n + 2^30, 52 times which is the same in 32 bits
//   11: the mode is 2 + w % 254; 12: the kind is 3 + w % 253
//
// The answer is a digest: h = mix64(seed xor number), the number being 0 or the refusal's; then for each factor lent, the first one
// first, h = mix64(h xor its bits), which on a refusal are those from before the call.
fn word(seed: u64, list: u64, i: usize) -> u64 {
    air::mix64(seed ^ list << 56 ^ (i as u64) << 32)
}

/// Bits from those of the least to those of the greatest.
fn between((least, most): (f32, f32), x: u64) -> f32 {
    let least = least.to_bits() as u64;
    f32::from_bits((least + x % (most.to_bits() as u64 - least + 1)) as u32)
}

/// By how many powers of two a place is raised over ordinary noise.
fn raised(seed: u64, i: usize, b: u64) -> u32 {
    let (w, first) = (word(seed, 5, i), seed % 52);
    let on = (i as u64 % 32 + seed / 512 % 32) % 32 < 16;
    match () {
        _ if (w >> 8) % 52 == b => 8,
        _ if w % 16 == 0 => 5,
        _ if on && (first..=first + seed / 64 % 8).contains(&b) => 2 + (seed % 5) as u32,
        _ => 0,
    }
}

fn energy_at(seed: u64, style: u64, at: usize) -> f32 {
    let x = word(seed, 0, at);
    match style {
        1 => (x % 4) as f32,
        2 if x % 8 == 0 => f32::from_bits(0x3F80_0000 + ((x >> 8) % 0x0200_0000) as u32),
        2 => [0.0, -0.0][(x >> 8) as usize % 2],
        3 => [ENERGY.0, -0.0, ENERGY.1, f32::from_bits(1), f32::MIN_POSITIVE, 1.0][(x % 6) as usize],
        4 => between(ENERGY, x),
        5 => f32::from_bits(noise_at(seed, style, at % 52).to_bits() + ((seed % 4) << 23) as u32),
        _ => f32::from_bits(0x3D00_0000 + (x % 0x0380_0000) as u32 + (raised(seed, at / 52, at as u64 % 52) << 23)),
    }
}

fn noise_at(seed: u64, style: u64, b: usize) -> f32 {
    let x = word(seed, 1, b);
    match style {
        1 => [1.0, 2.0][(x % 2) as usize],
        3 => [NOISE.0, NOISE.1, 1.0][(x % 3) as usize],
        4 => between(NOISE, x),
        _ => f32::from_bits(0x3F00_0000 + (x % 0x0100_0000) as u32),
    }
}

fn eps_r(seed: u64, style: u64) -> (f32, f32) {
    let (x, y) = (word(seed, 3, 0), word(seed, 3, 1));
    match style {
        3 => ([EPS.0, -0.0, EPS.1][(x % 3) as usize], [R.0, R.1][(y % 2) as usize]),
        4 => (between(EPS, x), between(R, y)),
        _ => (between((1.0 / 128.0, 0.5), x), between((1.0, 8f32.next_down()), y)),
    }
}

/// Does a damage to what is given, or to how many factors are lent.
fn damaged(seed: u64, k: u64, b: &mut Noise, room: &mut usize) {
    let w = word(seed, 4, k as usize);
    let bad = |(least, most): (f32, f32)| [most.next_up(), least.next_down(), f32::INFINITY, f32::NEG_INFINITY, f32::NAN, -1.0][(w % 6) as usize];
    let rows = b.energies.len() / 52;
    let row = [0, rows.saturating_sub(1), rows / 2][(w >> 8) as usize % 3];
    let place = if k % 2 == 1 { (w >> 16) % 52 } else { 36 + (w >> 16) % 16 } as usize;
    let other = |n: usize| if w % 2 == 0 && n > 0 { n - 1 } else { n + 1 };
    match k {
        1 | 2 => b.energies[52 * row + place] = bad(ENERGY),
        3 | 4 => b.noise[place] = bad(NOISE),
        5 => b.eps = bad(EPS),
        6 => b.r = bad(R),
        7 => b.energies.resize(other(b.energies.len()), 1.0),
        8 => b.noise.resize(other(b.noise.len()), 1.0),
        9 => *room = other(*room),
        10 => b.rows += [1, 1 << 30][(w % 2) as usize],
        11 => b.mode = 2 + (w % 254) as u8,
        12 => b.kind = 3 + (w % 253) as u8,
        _ => (),
    }
}

/// What a record asks, and how many factors are lent.
fn noise_of(asked: u64) -> (Noise, usize) {
    let (seed, rows, style) = (asked % REFUSED, (asked >> 32) as usize % 4096, (asked >> 48) % 16);
    let (eps, r) = eps_r(seed, style);
    let mut b = Noise {
        mode: (asked >> 44) as u8 % 4,
        kind: (asked >> 46) as u8 % 4,
        rows: rows as u32,
        energies: (0..52 * rows).map(|at| energy_at(seed, style, at)).collect(),
        noise: (0..52).map(|b| noise_at(seed, style, b)).collect(),
        eps,
        r,
    };
    let mut room = 52 * rows;
    // values before lengths, so that a value's place is there
    let mut damages = [(asked >> 52) % 16, (asked >> 56) % 16];
    damages.sort();
    damages.into_iter().for_each(|k| damaged(seed, k, &mut b, &mut room));
    (b, room)
}

/// The Rust's factors, or those from before the call where document 02 has a refusal.
fn noise_digest(asked: u64) -> u64 {
    let (seed, (b, room)) = (asked % REFUSED, noise_of(asked));
    let number = noisy::number(&b, room);
    let before = |x: u64| f32::from_bits(((x % 2) << 31 | (x >> 1) % 0x7F80_0000) as u32);
    let factors = if number == 0 { Theirs::new(&b).factors() } else { (0..room).map(|i| before(word(seed, 2, i))).collect() };
    factors.iter().fold(air::mix64(seed ^ number as u64), |h, x| air::mix64(h ^ x.to_bits() as u64))
}

/// Document 02, #108: every style over few rows and many, in both modes and behind every kind, and what is refused.
fn local_noise(put: Put) {
    let mut seeds = 10_800..;
    let mut ask = |put: Put, (mode, kind): (u64, u64), n: u64, style: u64, damages: [u64; 2], fits: &dyn Fn(u64) -> bool| {
        let seed = seeds.find(|&seed| fits(seed)).unwrap();
        let asked = seed | n << 32 | mode << 44 | kind << 46 | style << 48 | damages[0] << 52 | damages[1] << 56;
        put(210, asked, noise_digest(asked));
    };
    let any = |_: u64| true;
    let behind = |turn: u64| (turn % 2, turn / 2 % 3);
    for style in 0..6 {
        // 2,048 is the most
        let many = [2_048, 2_047, 1_000, 300, 2_048, 130][style as usize];
        for (n, turn) in [0, 1, 5, 6, 12, 13, 25, 26, 60, 200, many].into_iter().zip(style..) {
            ask(put, behind(turn), n, style, [0, 0], &any);
        }
    }
    // a value past either end, then no number of its range at all; places that R1 does not read among them
    for (k, style) in (1..7u64).zip(0..) {
        for which in [0, 1, 2 + k % 4] {
            let mode = if k % 2 == 0 && k < 5 { 1 } else { which % 2 };
            ask(put, (mode, k % 3), 7 + 6 * k, style, [k, 0], &|seed| word(seed, 4, k as usize) % 6 == which);
        }
    }
    // lengths and rows told, each either way, then a mode and a kind that are not named
    for k in 7..13u64 {
        for which in 0..if k < 11 { 2 } else { 1 } {
            ask(put, behind(k), 5 * k - 30, k % 6, [k, 0], &|seed| k > 10 || word(seed, 4, k as usize) % 2 == which);
        }
    }
    // of two causes the first in the order 1, 4, 15
    for (damages, turn) in [[11, 7], [8, 12], [5, 7], [9, 6], [1, 8], [11, 5], [3, 12], [10, 4]].into_iter().zip(0..) {
        ask(put, behind(turn), 26, turn % 6, damages, &any);
    }
    // a row too many by itself, and beside what comes before it; no rows, with something wrong
    for (k, turn) in [0, 7, 11].into_iter().zip(3..) {
        ask(put, behind(turn), 2_049, turn % 6, [k, 0], &any);
    }
    for (k, turn) in [3, 6, 9].into_iter().zip(0..) {
        ask(put, behind(turn), 0, turn, [k, 0], &any);
    }
}

fn main() {
    let mut out = Vec::new();
    let mut put = |what: u8, asked: u64, answer: u64| {
        out.push(what);
        out.extend(asked.to_le_bytes());
        out.extend(answer.to_le_bytes());
    };
    match std::env::args().nth(1).as_deref() {
        Some("series") => drifts(&mut put),
        Some("boards") => boards(&mut put),
        Some("noise") => local_noise(&mut put),
        _ => vectors(&mut put),
    }
    std::io::stdout().write_all(&out).unwrap();
}
