// Holds the proved parts against the Rust, exhaustively where that is possible, and prints counts.
// A section that differs prints its smallest input, and the run ends with status 1. The argument is how many headers of each style are read.
use ion::phy_mfsk::hook::{Fmt, Kind, MfskMode, air, windows};
mod board;
mod boards;
mod drift;
mod exact;
mod face;
mod inputs;
mod labels;
mod noise;
mod noisy;
mod read;
mod sending;
mod sent;
mod slip;
mod slips;
mod soft;

// A lent slice is two arguments, its first element and its length.
unsafe extern "C" {
    fn probe_mix64(seed: u64) -> u64;
    fn probe_gray(v: u64) -> u64;
    fn probe_hop(mode: u8, i: u64) -> u64;
    fn probe_scramble(p: u64) -> u64;
    fn probe_sym_scramble(p: u64) -> u64;
    fn probe_header_slot(kind: u8, j: u64) -> u64;
    fn probe_bins(mode: u8) -> u64;
    fn probe_symbol(mode: u8) -> u64;
    fn probe_has_window(mode: u8, window: u32) -> u64;
    fn probe_root(n: u32) -> f32;
    fn probe_root_entry(k: usize) -> f32;
}

const MODES: [MfskMode; 2] = [MfskMode::R0, MfskMode::R1];
const KINDS: [Kind; 3] = [Kind::HeaderOnly, Kind::Data, Kind::Cue];
const REFUSED: u64 = 1 << 32;

/// Compares the pairs (ours, the Rust's) that a section yields, and says how many there were.
struct Section {
    name: &'static str,
    all: u64,
    differ: u64,
    first: Option<String>,
}

impl Section {
    fn new(name: &'static str) -> Self {
        Section { name, all: 0, differ: 0, first: None }
    }
    fn pair(&mut self, ours: u64, theirs: u64, input: impl Fn() -> String) {
        self.all += 1;
        if ours != theirs {
            self.differ += 1;
            self.first.get_or_insert_with(|| format!("{}: {ours}, the Rust {theirs}", input()));
        }
    }
    fn end(self, wrong: &mut bool) {
        println!("{}: {} compared, {} differ", self.name, self.all, self.differ);
        if let Some(f) = self.first {
            println!("  smallest input {f}");
            *wrong = true;
        }
    }
}

/// An answer's number: 0, or 2^32 and the refusal's.
fn told(k: u32) -> u64 {
    if k == 0 { 0 } else { REFUSED + k as u64 }
}

fn mult(n: u64) -> u64 {
    let mut a = 0;
    let k = face::interleave_mult(n, &mut a);
    told(k) + a
}

fn crc(mode: u8, kind: u8, layout: u8, bits: &[u8]) -> u64 {
    let mut value = 0;
    let k = face::crc(mode, kind, layout, bits, &mut value);
    told(k) + value as u64
}

fn multipliers(wrong: &mut bool) {
    let mut s = Section::new("multiplier, every n to 10,240");
    for n in 0..=10_240 {
        s.pair(mult(n), air::interleave_mult(n as usize) as u64, || format!("n = {n}"));
    }
    s.end(wrong);
    let mut s = Section::new("multiplier, refusal 2 above");
    for n in (10_241..=20_000).chain([1 << 32, u64::MAX]) {
        s.pair(mult(n), REFUSED + 2, || format!("n = {n}"));
    }
    s.end(wrong);
}

fn crcs(wrong: &mut bool) {
    let mut s = Section::new("CRC, every bit string to 16 bits, 48 starts");
    let mut starts = Vec::new();
    for (m, mode) in MODES.iter().enumerate() {
        for (k, kind) in KINDS.iter().enumerate() {
            for layout in 1..=8 {
                let start = air::crc_start(layout as usize, *mode, *kind);
                starts.push(start);
                for len in 0..=16usize {
                    for word in 0..1u32 << len {
                        let bits: Vec<u8> = (0..len).map(|i| (word >> i & 1) as u8).collect();
                        s.pair(crc(m as u8, k as u8, layout, &bits), air::crc16(&bits, start) as u64, || format!("mode {m} kind {k} layout {layout} bits {bits:?}"));
                    }
                }
            }
        }
    }
    s.end(wrong);
    let mut s = Section::new("CRC, no two of the 48 starts equal");
    for (i, start) in starts.iter().enumerate() {
        s.pair(starts.iter().filter(|x| *x == start).count() as u64, 1, || format!("start {i}"));
    }
    s.end(wrong);
}

/// Bad input: the first number that the papers' order gives, worked out here from their table.
fn crc_refusals(wrong: &mut bool) {
    let mut s = Section::new("CRC, refusals 1, 12, 4, 5");
    let layouts: Vec<u8> = (0..=10).chain([16, 128, 255]).collect();
    for mode in 0..=4u8 {
        for kind in 0..=4u8 {
            for &layout in &layouts {
                for len in [0usize, 1, 1023, 1024, 1025, 4000] {
                    for bad in [None, Some((0usize, 2u8)), Some((len / 2, 255)), Some((len.wrapping_sub(1), 2))] {
                        let mut bits = vec![1u8; len];
                        let mut other = false;
                        if let Some((at, byte)) = bad {
                            if at < len {
                                bits[at] = byte;
                                other = true;
                            }
                        }
                        let want = if mode > 1 || kind > 2 {
                            REFUSED + 1
                        } else if !(1..=8).contains(&layout) {
                            REFUSED + 12
                        } else if len > 1024 {
                            REFUSED + 4
                        } else if other {
                            REFUSED + 5
                        } else {
                            air::crc16(&bits, air::crc_start(layout as usize, MODES[mode as usize], KINDS[kind as usize])) as u64
                        };
                        let before = bits.clone();
                        s.pair(crc(mode, kind, layout, &bits), want, || format!("mode {mode} kind {kind} layout {layout} length {len} bad {bad:?}"));
                        assert_eq!(before, bits);
                    }
                }
            }
        }
    }
    s.end(wrong);
}

fn formats(wrong: &mut bool) {
    let mut s = Section::new("bins, symbol length, every window to 65,536 and the largest");
    for (m, mode) in MODES.iter().enumerate() {
        let fmt = Fmt::of(*mode);
        s.pair(unsafe { probe_bins(m as u8) }, fmt.nbins as u64, || format!("bins of mode {m}"));
        s.pair(unsafe { probe_symbol(m as u8) }, fmt.sym as u64, || format!("symbol of mode {m}"));
        for w in (0..=65_536).chain([u32::MAX]) {
            let theirs = windows(*mode).contains(&(w as usize)) as u64;
            s.pair(unsafe { probe_has_window(m as u8, w) }, theirs, || format!("mode {m} window {w}"));
        }
    }
    s.end(wrong);
}

fn air_order(wrong: &mut bool) {
    let mut s = Section::new("hop, both modes, every index to 4,096");
    for (m, mode) in MODES.iter().enumerate() {
        for i in 0..=4096u64 {
            s.pair(unsafe { probe_hop(m as u8, i) }, Fmt::of(*mode).hop(i as usize) as u64, || format!("mode {m} i = {i}"));
        }
    }
    s.end(wrong);
    let mut s = Section::new("scramble and sym_scramble, every index to 4,096");
    for p in 0..=4096u64 {
        s.pair(unsafe { probe_scramble(p) }, air::scramble(p as usize) as u64, || format!("scramble p = {p}"));
        s.pair(unsafe { probe_sym_scramble(p) }, air::sym_scramble(p as usize) as u64, || format!("sym_scramble p = {p}"));
    }
    s.end(wrong);
    let mut s = Section::new("header slot, every kind and step");
    for (k, kind) in KINDS.iter().enumerate() {
        for j in 0..air::header_info_bits(*kind) {
            for mode in MODES {
                s.pair(unsafe { probe_header_slot(k as u8, j as u64) }, air::header_slot(Fmt::of(mode), *kind, j) as u64, || format!("kind {k} step {j}"));
            }
        }
    }
    s.end(wrong);
}

fn numbers(wrong: &mut bool) {
    let mut s = Section::new("mix64 and gray, edges and 1,000,000 words");
    let mut x = 1u64;
    for z in [0, 1, 1234567, u64::MAX, 1 << 63, u64::MAX >> 1].into_iter().chain((0..1_000_000).map(|_| {
        x = x.wrapping_mul(6364136223846793005).wrapping_add(1442695040888963407);
        x
    })) {
        s.pair(unsafe { probe_mix64(z) }, air::mix64(z), || format!("mix64 {z}"));
        s.pair(unsafe { probe_gray(z) }, air::gray(z as usize) as u64, || format!("gray {z}"));
    }
    s.end(wrong);
}

/// The square roots, worked out in whole numbers and from the table, against `f32::sqrt`, by which the Rust takes its own.
fn roots(wrong: &mut bool) {
    let theirs = |n: u32| (n as f32).sqrt().to_bits() as u64;
    let mut s = Section::new("square roots of 1 to 52, worked out");
    for n in 1..=52 {
        s.pair(unsafe { probe_root(n) }.to_bits() as u64, theirs(n), || format!("n = {n}"));
    }
    s.end(wrong);
    let mut s = Section::new("square roots of 1 to 52, the table's");
    for n in 1..=52 {
        s.pair(unsafe { probe_root_entry(n as usize - 1) }.to_bits() as u64, theirs(n), || format!("n = {n}"));
    }
    s.end(wrong);
}

fn main() {
    let mut wrong = false;
    drift::all(&mut wrong);
    if cfg!(unchanged_sums) {
        std::process::exit(wrong as i32);
    }
    multipliers(&mut wrong);
    crcs(&mut wrong);
    crc_refusals(&mut wrong);
    formats(&mut wrong);
    air_order(&mut wrong);
    numbers(&mut wrong);
    sent::all(&mut wrong);
    sending::all(&mut wrong);
    slips::all(&mut wrong);
    boards::all(&mut wrong);
    roots(&mut wrong);
    noise::all(&mut wrong);
    soft::all(&mut wrong);
    let headers = std::env::args().nth(1).map_or(2_400, |n| n.parse().expect("how many headers of each style"));
    labels::all(&mut wrong);
    read::all(&mut wrong, headers);
    labels::unchanged(&mut wrong);
    std::process::exit(wrong as i32);
}
