// The fit and the tracker against the Rust's `fit_drift` and `track_timing`, bit for bit after every call, and their refusals
// against document 01's table. Built with `--cfg unchanged_sums` the Rust's float sums start at -0.0, and only a zero's sign may differ.
use super::inputs::{Dice, Heard, sample};
use super::face::{self, Tracker as Ours};
use super::{MODES, REFUSED, Section, told};
use ion::phy_mfsk::hook::{Fmt, Tracker, fit_drift};

const CALLS: usize = 2048;
/// What a drift's place holds before the call.
const UNTOUCHED: u64 = 0x7FF4_0000_0000_A5A5;

/// Equal bits, or with unchanged sums two zeros: how many of those is counted apart.
fn same(s: &mut Section, zeros: &mut u64, ours: f64, theirs: f64, input: impl Fn() -> String) {
    if cfg!(unchanged_sums) && ours == 0.0 && theirs == 0.0 && ours.to_bits() != theirs.to_bits() {
        *zeros += 1;
        return s.pair(0, 0, input);
    }
    s.pair(ours.to_bits(), theirs.to_bits(), input)
}

fn fit(mode: u8, places: &[u32], timings: &[f64]) -> (u64, u64) {
    let mut drift = f64::from_bits(UNTOUCHED);
    let k = face::fit_drift(mode, places, timings, &mut drift);
    (told(k), drift.to_bits())
}

fn fits(wrong: &mut bool) {
    let mut s = Section::new("fit, 400,000 lists of blocks");
    let (mut r, mut zeros) = (Dice(1 << 40), 0);
    for round in 0..400_000u64 {
        let (n, m) = (r.below(65) as usize, r.below(2) as usize);
        let most = [4096, 1, 2, 3000][r.below(4) as usize];
        let size = [4096.0, 1.0, 1e-3, 1e-300, 5e-324, 0.0][r.below(6) as usize];
        let mut places: Vec<u32> = (0..n).map(|_| r.below(most + 1) as u32).collect();
        places.sort();
        let slope = (r.unit() - 0.5) * 0.2;
        let line = r.below(2) == 1;
        let timings: Vec<f64> = places.iter().map(|&p| {
            let y = (2.0 * r.unit() - 1.0) * size;
            let y = if line { slope * p as f64 / 2.0 + y * 1e-4 } else { y };
            (if r.below(9) == 0 { -0.0 } else { y }).clamp(-4096.0, 4096.0)
        }).collect();
        let blocks: Vec<(f64, f64)> = places.iter().zip(&timings).map(|(&p, &y)| (p as f64 / 2.0, y)).collect();
        let (k, d) = fit(m as u8, &places, &timings);
        let input = || format!("round {round} mode {m} places {places:?} timings {timings:?}");
        s.pair(k, 0, input);
        same(&mut s, &mut zeros, f64::from_bits(d), fit_drift(&blocks, Fmt::of(MODES[m]).sym), input);
    }
    let (places, timings) = ([0, 0, 0, 0, 0, 1], [0.0, 0.0, 0.0, 0.0, 0.0, -0.0]);
    let blocks: Vec<(f64, f64)> = places.iter().zip(&timings).map(|(&p, &y)| (p as f64 / 2.0, y)).collect();
    let named = || "six blocks, the last timing -0.0".to_string();
    s.pair(fit(0, &places, &timings).1, 0, named);
    let minus = if cfg!(unchanged_sums) { (-0.0f64).to_bits() } else { 0 };
    s.pair(fit_drift(&blocks, 224).to_bits(), minus, named);
    for n in 0..6 {
        s.pair(fit(1, &vec![9; n], &vec![4096.0; n]).1, 0, || format!("{n} blocks"));
    }
    s.end(wrong);
    if cfg!(unchanged_sums) {
        println!("  zeros of the other sign: {zeros}");
    }
}

fn fit_refusals(wrong: &mut bool) {
    let mut s = Section::new("fit, refusals 1 and 10 and an untouched drift");
    let mut r = Dice(2 << 40);
    let bad = [f64::NAN, f64::INFINITY, -f64::INFINITY, 4096.0f64.next_up(), (-4096.0f64).next_down()];
    for round in 0..200_000u64 {
        let n = r.below(70) as usize;
        let mode = if r.below(5) == 0 { r.below(256) as u8 } else { r.below(2) as u8 };
        let mut places: Vec<u32> = (0..n).map(|_| r.below(4097) as u32).collect();
        places.sort();
        let mut timings: Vec<f64> = (0..n).map(|_| (2.0 * r.unit() - 1.0) * 4096.0).collect();
        if n > 0 && r.below(2) == 0 {
            let i = r.below(n as u64) as usize;
            match r.below(4) {
                0 => timings[i] = bad[r.below(5) as usize],
                1 => places[n - 1] = 4097 + r.below(9) as u32,
                2 => places[i] = r.below(4097) as u32,
                _ => timings[i] = if r.below(2) == 0 { 4096.0 } else { -4096.0 },
            }
        }
        let ten = n > 64 || places.iter().any(|&p| p > 4096) || places.windows(2).any(|w| w[1] < w[0]) || !timings.iter().all(|y| y.abs() <= 4096.0);
        let want = if mode > 1 { REFUSED + 1 } else if ten { REFUSED + 10 } else { 0 };
        let (k, d) = fit(mode, &places, &timings);
        s.pair(k, want, || format!("round {round} mode {mode} places {places:?} timings {timings:?}"));
        s.pair((d == UNTOUCHED) as u64, (want != 0) as u64, || format!("round {round}: the drift's place"));
    }
    s.end(wrong);
}

/// What the lists hold where nothing is stored: out of every range.
const NO_SHIFT: i32 = 0x5A5A_5A5A;
const NO_PLACE: u32 = 0xA5A5_A5A5;

impl Ours {
    fn fresh() -> Self {
        Ours { n: 0, shift: 0, tnum: 0.0, tden: 0.0, drift: 0.0, blocks: 0, shifts: vec![NO_SHIFT; CALLS], places: vec![NO_PLACE; 64], timings: vec![f64::from_bits(UNTOUCHED); 64] }
    }
    fn call(&mut self, mode: u8, heard: Heard) -> u64 {
        let (early, late, noise) = heard.unwrap_or((f64::NAN, -1.0, 2e9));
        told(self.track(mode, heard.is_some() as u8, early, late, noise))
    }
    fn bits(&self) -> (Vec<u64>, Vec<i32>, Vec<u32>, Vec<u64>) {
        let head = vec![self.n as u64, self.blocks as u64, self.shift as u64, self.tnum.to_bits(), self.tden.to_bits(), self.drift.to_bits()];
        (head, self.shifts.clone(), self.places.clone(), self.timings.iter().map(|x| x.to_bits()).collect())
    }
}

/// After a call: each field, and both lists whole.
fn agrees(s: &mut Section, zeros: &mut u64, o: &Ours, t: &Tracker, length: usize, input: &dyn Fn() -> String) {
    let (next, shift, tnum, tden, tcnt, drift) = t.state();
    let (n, blocks) = (o.n, t.blocks());
    s.pair(n as u64, next as u64, input);
    s.pair(o.shift as u64, shift as u64, input);
    s.pair((n.max(2) - 2) as u64 % length as u64, tcnt as u64, input);
    same(s, zeros, o.tnum, tnum, input);
    same(s, zeros, o.tden, tden, input);
    same(s, zeros, o.drift, drift, input);
    s.pair((o.shifts[..n] == *t.shifts() && o.shifts[n..].iter().all(|&z| z == NO_SHIFT)) as u64, 1, input);
    s.pair(o.blocks as u64, blocks.len() as u64, input);
    let stored = blocks.iter().enumerate().all(|(i, b)| o.places[i] as f64 / 2.0 == b.0 && o.timings[i].to_bits() == b.1.to_bits());
    let rest = o.places[blocks.len()..].iter().all(|&p| p == NO_PLACE) && o.timings[blocks.len()..].iter().all(|y| y.to_bits() == UNTOUCHED);
    s.pair((stored && rest) as u64, 1, input);
}

fn series(wrong: &mut bool) {
    let mut s = Section::new("tracker, 1,024 series of 2,048 calls, every field and list after every call");
    let (mut r, mut zeros, mut far) = (Dice(3 << 40), 0, [0i32; 2]);
    for round in 0..1024u64 {
        let m = (round & 1) as usize;
        let (sym, length) = (Fmt::of(MODES[m]).sym, [32, 64][m]);
        let (shape, ppm) = (round / 2 % 8, (10.0 + 390.0 * r.unit()) * if r.below(2) == 0 { 1.0 } else { -1.0 });
        let (mut o, mut t) = (Ours::fresh(), Tracker::new(MODES[m]));
        for c in 1..=CALLS {
            let x = sample(&mut r, shape, ppm, sym as f64, c, o.shift);
            let input = || format!("round {round} mode {m} shape {shape} call {c} {x:?}");
            s.pair(o.call(m as u8, x), 0, input);
            t.symbol(x);
            agrees(&mut s, &mut zeros, &o, &t, length, &input);
            far[m] = far[m].max(o.shift.abs());
        }
        s.pair(o.call(m as u8, None), REFUSED + 9, || format!("round {round}: call 2,049"));
    }
    s.pair((far[0] <= 137) as u64, 1, || format!("|shift| {} in R0", far[0]));
    s.pair((far[1] <= 69) as u64, 1, || format!("|shift| {} in R1", far[1]));
    s.end(wrong);
    println!("  farthest shift {} in R0, {} in R1{}", far[0], far[1], if cfg!(unchanged_sums) { format!("; zeros of the other sign: {zeros}") } else { String::new() });
}

fn named(wrong: &mut bool) {
    let mut s = Section::new("tracker, named series");
    let (mut o, mut t) = (Ours::fresh(), Tracker::new(MODES[0]));
    for c in 1..=34 {
        let x = match c { 3 => Some((0.0, 1e9, 1e9)), 4 => Some((0.0, 1.5e-323, 0.0)), _ => None };
        s.pair(o.call(0, x), 0, || format!("infinite quotient, call {c}"));
        t.symbol(x);
    }
    s.pair(o.timings[0].to_bits(), 32.0f64.to_bits(), || "infinite quotient: the timing".into());
    s.pair(t.blocks()[0].1.to_bits(), 32.0f64.to_bits(), || "infinite quotient: the Rust's timing".into());
    let mut o = Ours::fresh();
    for _ in 0..3 {
        s.pair(o.call(0, Some((1.0, 2.0, 0.5))), 0, || "three times Heard(1, 2, 0.5)".into());
    }
    s.pair(o.tnum.to_bits(), 1.0f64.to_bits(), || "tnum after call 3".into());
    let mut o = Ours::fresh();
    for c in 1..=226 {
        s.pair(o.call(0, Some((100.0, 100.0 + 0.05 * c as f64, 1.0))), 0, || format!("rising late energy, call {c}"));
    }
    s.pair(o.shifts[192..224].iter().sum::<i32>() as u64, 140, || "the stored shifts at places 192 to 223".into());
    s.end(wrong);
}

/// A tracker that keeps the rule, with n calls made, each clause then broken alone: the number, and every byte left.
fn broken(wrong: &mut bool) {
    let mut s = Section::new("tracker, broken rules, refusals 1, 4, 8, 9, 10 and untouched bytes");
    let mut r = Dice(4 << 40);
    for round in 0..40_000u64 {
        let m = (round & 1) as usize;
        let (sym, length) = (Fmt::of(MODES[m]).sym, [32usize, 64][m]);
        let mut o = Ours::fresh();
        let n = 3 + r.below(400) as usize;
        for c in 1..=n {
            o.call(m as u8, sample(&mut r, 2, 100.0, sym as f64, c, o.shift));
        }
        let (judged, limit) = (n.max(2) - 2, 300e-6 * sym as f64);
        let (whole, listed) = (judged - judged % length, o.blocks);
        let mut x = if r.below(2) == 0 { None } else { Some((1.0, 2.0, 3.0)) };
        let (mut mode, what) = (m as u8, r.below(27));
        let want = match what {
            0 => { mode = 2 + r.below(254) as u8; 1 }
            1 => { o.shifts.pop(); 4 }
            2 => { o.places.push(0); o.timings.push(0.0); 4 }
            3 => { x = Some((f64::NAN, 0.0, 0.0)); 8 }
            4 => { x = Some((0.0, -5e-324, 0.0)); 8 }
            5 => { x = Some((0.0, 0.0, 1e9f64.next_up())); 8 }
            6 => { o.n = 2048; o.blocks = 0; o.shifts.fill(0); 9 }
            7 => { o.n = 2049 + r.below(1 << 60) as usize; 9 }
            8 => { o.blocks = whole / length + 1 + r.below(1 << 60) as usize; 9 }
            9 if listed > 0 => { o.places[listed - 1] = 2 * whole as u32 + 1; 9 }
            10 => { o.drift = limit.next_up(); 9 }
            11 => { o.drift = f64::from_bits(UNTOUCHED); 9 }
            12 => { o.tnum = 1e12f64.next_up(); 9 }
            13 => { o.tnum = f64::NAN; 9 }
            14 => { o.tden = 1e12f64.next_up(); 9 }
            15 => { o.tden = -5e-324; 9 }
            16 => { o.tden = -0.0; 9 }
            17 => { o.tden = f64::from_bits(UNTOUCHED); 9 }
            18 => { o.shift = if r.below(2) == 0 { 2049 } else { -2049 }; 9 }
            19 => { let j = r.below(n as u64) as usize; o.shifts[j] = if r.below(2) == 0 { 2049 } else { i32::MIN }; 9 }
            20 if listed > 1 => { o.places[listed - 2] = o.places[listed - 1] + 1; if o.places[listed - 2] > 2 * whole as u32 { 9 } else { 10 } }
            21 if listed > 0 => { o.timings[r.below(listed as u64) as usize] = f64::from_bits(UNTOUCHED); 10 }
            22 if listed > 0 => { o.timings[r.below(listed as u64) as usize] = 4096.0f64.next_up(); 10 }
            // kept at its limits
            23 => { o.drift = -limit; 0 }
            24 => { o.tnum = -1e12; o.tden = 1e12; 0 }
            25 => { o.shift = -2048; 0 }
            26 => { let j = r.below(n as u64) as usize; o.shifts[j] = 2048; 0 }
            _ => 0,
        };
        let before = o.bits();
        let k = o.call(mode, x);
        let input = || format!("round {round} mode {mode} n {n} breach {what}");
        s.pair(k, if want == 0 { 0 } else { REFUSED + want }, input);
        s.pair((o.bits() == before) as u64, (want != 0) as u64, input);
    }
    s.end(wrong);
}

pub fn all(wrong: &mut bool) {
    fits(wrong);
    fit_refusals(wrong);
    named(wrong);
    series(wrong);
    broken(wrong);
}
