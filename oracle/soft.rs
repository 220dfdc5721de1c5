// Metrics and soft bits: the entry against the second half of the Rust's `service_burst` with document 01's two stand-ins inside
// `lse`, bit for bit; its refusals against document 01's table; and how far the stand-ins lie from the library's functions.
use super::inputs::{self, dirty, rows};
use super::face::Soft as Lent;
use super::{KINDS, MODES, REFUSED, Section, told};
use ion::phy_mfsk::hook::{Fmt, air, blanked_frac, soft_terms, windows};

unsafe extern "C" {
    fn probe_exp(t: f32) -> f32;
    fn probe_ln_1p(u: f32) -> f32;
}

fn patterns(list: &[f32]) -> Vec<u32> {
    list.iter().map(|x| x.to_bits()).collect()
}

/// What is lent: the inputs, and three lists that start with other bits, NaNs with payloads among them.
impl Lent {
    /// A burst with lists of its lengths; terms and counts to be filled.
    fn new(mode: u8, kind: u8, layout: u8, form: u8, window: u32, bits: u32, r: &mut Random) -> Self {
        let n = bits.div_ceil(5) as usize;
        Lent {
            mode, kind, layout, symbols: form, window, bits, terms: vec![0.0; 260 * n], blanked: vec![0; n],
            work: dirty(32 * n, || r.next()), metrics: dirty(32 * n, || r.next()), soft: dirty(bits as usize, || r.next()),
        }
    }
    fn call(&mut self) -> u64 {
        let (terms, blanked) = (patterns(&self.terms), self.blanked.clone());
        let answer = told(self.values());
        assert!(terms == patterns(&self.terms) && blanked == self.blanked);
        answer
    }
    fn say(&self) -> String {
        let Lent { mode, kind, layout, symbols: form, window, bits, .. } = self;
        format!("mode {mode} kind {kind} layout {layout} form {form} window {window} bits {bits} counts {:?} first terms {:?}", &self.blanked[..self.blanked.len().min(4)], &self.terms[..self.terms.len().min(4)])
    }
}

struct Random(u64);
impl Random {
    fn next(&mut self) -> u64 {
        self.0 = self.0.wrapping_add(0x9E37_79B9_7F4A_7C15);
        air::mix64(self.0)
    }
    fn below(&mut self, n: u64) -> u64 {
        self.next() % n
    }
    /// A layout, 1 to 8.
    fn layout(&mut self) -> u8 {
        1 + self.below(8) as u8
    }
}

fn fill_terms(b: &mut Lent, style: u64, r: &mut Random) {
    inputs::fill_terms(&mut b.terms, style, || r.next())
}

fn fill_counts(b: &mut Lent, style: u64, r: &mut Random) {
    inputs::fill_counts(&mut b.blanked, b.layout, b.window, style, || r.next())
}

/// One burst on both sides: the answer, and how many metrics, soft bits and places of the work area differ.
fn burst(s: &mut Section, floats: &mut u64, b: &mut Lent) {
    let terms = rows(&b.terms);
    let blanked: Vec<f32> = b.blanked.iter().map(|&c| blanked_frac(c, b.window as usize, b.layout as usize)).collect();
    let hsyms = air::header_info_bits(KINDS[b.kind as usize]);
    let want = soft_terms(MODES[b.mode as usize], b.symbols == 1, hsyms, b.bits as usize, &terms, &blanked);
    let answer = b.call();
    let b = &*b;
    s.pair(answer, 0, || b.say());
    let differ = |ours: &[f32], theirs: &[f32]| {
        (ours.len() != theirs.len()) as u64 + ours.iter().zip(theirs).filter(|(x, y)| x.to_bits() != y.to_bits()).count() as u64
    };
    s.pair(differ(&b.metrics, &want.metrics), 0, || b.say());
    s.pair(differ(&b.soft, &want.llrs), 0, || b.say());
    s.pair(b.work.iter().filter(|x| x.to_bits() != 0).count() as u64, 0, || b.say());
    let bounded = b.metrics.iter().all(|x| (-40.0..=0.0).contains(x)) && b.soft.iter().all(|x| (-12.0..=12.0).contains(x));
    s.pair(bounded as u64, 1, || b.say());
    *floats += (b.metrics.len() + b.soft.len()) as u64;
}

fn bursts(wrong: &mut bool) {
    let mut r = Random(7);
    let mut floats = 0;
    let mut s = Section::new("soft values, 0 to 70 bits, every mode, kind, form and window, every layout by turns (five pairs a burst)");
    let mut layouts = (1..=8).cycle();
    for bits in 0..=70 {
        for (m, mode) in MODES.into_iter().enumerate() {
            for window in windows(mode) {
                for kind in 0..3 {
                    for form in 0..2 {
                        let mut b = Lent::new(m as u8, kind, layouts.next().unwrap(), form, window as u32, bits, &mut r);
                        let style = r.next();
                        fill_terms(&mut b, style, &mut r);
                        fill_counts(&mut b, style / 10, &mut r);
                        burst(&mut s, &mut floats, &mut b);
                    }
                }
            }
        }
    }
    s.end(wrong);
    let mut s = Section::new("soft values, 10,235 to 10,240 bits, and 400 bursts of any length");
    for i in 0..424u64 {
        let m = i as usize % 2;
        let bits = if i < 24 { 10_235 + (i / 4) as u32 } else { r.below(10_241) as u32 };
        let window = windows(MODES[m])[r.below(3) as usize] as u32;
        let (kind, layout) = (r.below(3) as u8, r.layout());
        let mut b = Lent::new(m as u8, kind, layout, (i / 2 % 2) as u8, window, bits, &mut r);
        fill_terms(&mut b, i / 4, &mut r);
        let style = r.next();
        fill_counts(&mut b, style, &mut r);
        burst(&mut s, &mut floats, &mut b);
    }
    s.end(wrong);
    println!("  {floats} metrics and soft bits compared bit for bit");
}

/// The papers' table, worked out here: of several causes the first in their order.
fn table(b: &Lent) -> u64 {
    let n = (b.bits as u64).div_ceil(5) as usize;
    if b.mode > 1 || b.kind > 2 {
        REFUSED + 1
    } else if !(1..=8).contains(&b.layout) {
        REFUSED + 12
    } else if b.bits > 10_240 {
        REFUSED + 2
    } else if !windows(MODES[b.mode as usize]).contains(&(b.window as usize)) {
        REFUSED + 3
    } else if [b.terms.len(), b.blanked.len(), b.work.len(), b.metrics.len(), b.soft.len()] != [260 * n, n, 32 * n, 32 * n, b.bits as usize] {
        REFUSED + 4
    } else if b.terms.iter().any(|t| !(t.abs() <= 1_000_000.0)) {
        REFUSED + 6
    } else if b.blanked.iter().any(|&c| c as u64 > 255 * b.window as u64) {
        REFUSED + 7
    } else {
        0
    }
}

fn refusals(wrong: &mut bool) {
    let mut r = Random(11);
    let mut s = Section::new("soft values, refusals 1, 12, 2, 3, 4, 6, 7 and untouched lists, 60,000 calls");
    let mut seen = [0u64; 13];
    for i in 0..60_000u64 {
        let window = windows(MODES[(i % 2) as usize])[r.below(3) as usize] as u32;
        let (kind, layout, form, bits) = (r.below(3) as u8, r.layout(), r.below(2) as u8, r.below(41) as u32);
        let mut b = Lent::new((i % 2) as u8, kind, layout, form, window, bits, &mut r);
        let style = r.next();
        fill_terms(&mut b, style, &mut r);
        fill_counts(&mut b, style / 10, &mut r);
        for _ in 0..r.below(3) {
            let at = r.next() as usize;
            match r.below(13) {
                0 => b.mode = [2, 3, 255][at % 3],
                1 => b.kind = [3, 4, 255][at % 3],
                12 => b.layout = [0, 9, 10, 16, 128, 255][at % 6],
                2 => b.bits = [10_241, 10_245, u32::MAX, u32::MAX - 4, 1 << 31][at % 5],
                3 => b.window = [0, 159, 161, 80, 160, u32::MAX, 0x1_0000_00A0u64 as u32][at % 7],
                4 => b.terms.resize(at % 2000, 0.5),
                5 => b.blanked.resize(at % 12, 3),
                6 => b.work.resize(at % 300, 1.0),
                7 => b.metrics.resize(at % 300, 1.0),
                8 => b.soft.resize(at % 50, 1.0),
                9 | 10 if !b.terms.is_empty() => {
                    let n = b.terms.len();
                    b.terms[at % n] = [f32::NAN, f32::from_bits(0x7f80_0001), f32::INFINITY, f32::NEG_INFINITY, 1_000_000.06, -1_000_000.06, f32::MAX][(at / n) % 7];
                }
                11 if !b.blanked.is_empty() => {
                    let n = b.blanked.len();
                    b.blanked[at % n] = [255u32.wrapping_mul(b.window).wrapping_add(1), u32::MAX, 1 << 31][(at / n) % 3];
                }
                _ => (),
            }
        }
        let want = table(&b);
        let before = [patterns(&b.work), patterns(&b.metrics), patterns(&b.soft)];
        let answer = b.call();
        s.pair(answer, want, || b.say());
        if want != 0 {
            let after = [patterns(&b.work), patterns(&b.metrics), patterns(&b.soft)];
            s.pair((before != after) as u64, 0, || b.say());
            seen[(want - REFUSED) as usize] += 1;
        } else {
            seen[0] += 1;
        }
    }
    s.end(wrong);
    println!("  accepted {}, refused by 1, 12, 2, 3, 4, 6, 7: {:?}", seen[0], [1, 12, 2, 3, 4, 6, 7].map(|k: usize| seen[k]));
}

fn named(wrong: &mut bool) {
    let mut r = Random(13);
    let mut s = Section::new("soft values, the named tests");
    // one erased symbol, 2 bits: [0.0, -0.0] in bit form, [0.0, 0.0] in symbol form; 560 kept, 561 erased, in layout 8 3,920 and 3,921
    for (form, second) in [(0, -0.0f32), (1, 0.0)] {
        for (layout, limit) in [(1, 560), (8, 3_920)] {
            let mut b = Lent::new(0, 0, layout, form, 160, 2, &mut r);
            fill_terms(&mut b, 0, &mut r);
            b.blanked[0] = limit + 1;
            s.pair(b.call(), 0, || b.say());
            s.pair(b.soft[0].to_bits() as u64, 0, || b.say());
            s.pair(b.soft[1].to_bits() as u64, second.to_bits() as u64, || b.say());
            let mut kept = b.clone();
            kept.blanked[0] = limit;
            s.pair(kept.call(), 0, || kept.say());
            s.pair((kept.soft == [0.0, 0.0]) as u64, 0, || kept.say());
        }
    }
    // 12 straight after 1, before 2
    for (mode, layout, want) in [(0, 9, 12), (0, 0, 12), (2, 9, 1), (0, 8, 2)] {
        let mut b = Lent::new(mode, 1, layout, 0, 160, 0, &mut r);
        b.bits = 10_241;
        s.pair(b.call(), REFUSED + want, || b.say());
    }
    // 0 bits
    for form in 0..2 {
        let mut b = Lent::new(1, 1, 1, form, 112, 0, &mut r);
        s.pair(b.call(), 0, || b.say());
    }
    // exp just below -16 and at it
    let below = f32::from_bits((-16.0f32).to_bits() + 1);
    s.pair(unsafe { probe_exp(below) }.to_bits() as u64, 0, || format!("exp {below}"));
    s.pair((unsafe { probe_exp(-16.0) } > 0.0) as u64, 1, || "exp -16".into());
    // two inputs that differ only in erased symbols' terms
    for i in 0..200u64 {
        let (layout, bits) = (r.layout(), 1 + r.below(200) as u32);
        let mut b = Lent::new((i % 2) as u8, 1, layout, (i / 2 % 2) as u8, 112 * (2 - i as u32 % 2), bits, &mut r);
        fill_terms(&mut b, i, &mut r);
        fill_counts(&mut b, 4, &mut r);
        let mut other = b.clone();
        for (i, t) in other.terms.iter_mut().enumerate() {
            if 2 * b.blanked[i / 260] > (6 * b.layout as u32 + 1) * b.window {
                *t = (r.below(2_000_001) as f32) - 1_000_000.0;
            }
        }
        s.pair(b.call(), other.call(), || b.say());
        let same = patterns(&b.soft) == patterns(&other.soft) && patterns(&b.metrics) == patterns(&other.metrics) && patterns(&b.work) == patterns(&other.work);
        s.pair(same as u64, 1, || b.say());
    }
    s.end(wrong);
}

/// Every layout, window and count to 255 windows: whether a symbol is erased, seen in its metrics, against the Rust's quotient. A kept
/// symbol has value 0 above the others, an erased one none.
fn erasures(wrong: &mut bool) {
    let mut r = Random(17);
    let mut s = Section::new("erasure, every layout, window and count to 255 windows");
    for (m, mode) in MODES.into_iter().enumerate() {
        for window in windows(mode) {
            for layout in 1..=8 {
                let counts: Vec<u32> = (0..=255 * window as u32).collect();
                for part in counts.chunks(2_048) {
                    let mut b = Lent::new(m as u8, 0, layout, 0, window as u32, 5 * part.len() as u32, &mut r);
                    let fmt = Fmt::of(mode);
                    b.terms.chunks_mut(260).enumerate().for_each(|(i, t)| t[2 * 52 + fmt.tone_bin(fmt.hop(48 + i), 0, 0) + 2] = 9.0);
                    b.blanked.copy_from_slice(part);
                    s.pair(b.call(), 0, || b.say());
                    for (metrics, &count) in b.metrics.chunks(32).zip(part) {
                        let ours = metrics.iter().all(|x| x.to_bits() == 0);
                        let theirs = blanked_frac(count, window, layout as usize) > 0.5;
                        s.pair(ours as u64, theirs as u64, || format!("layout {layout} window {window} count {count}"));
                    }
                }
            }
        }
    }
    s.end(wrong);
}

/// The stand-ins themselves against document 01's text in Rust, and their distance to the library's own.
fn standins(wrong: &mut bool) {
    let mut s = Section::new("exp and ln_1p stand-ins, every 512th float of their range");
    let (mut far_exp, mut far_ln) = (0f64, 0f64);
    for bits in (0..=0x4188_0000u32).step_by(512) {
        let t = -f32::from_bits(bits);
        let e = unsafe { probe_exp(t) };
        s.pair(e.to_bits() as u64, air::paper_exp(t).to_bits() as u64, || format!("exp {t}"));
        far_exp = far_exp.max((e as f64 - (t as f64).exp()).abs());
        if bits <= 0x3f80_0000 {
            let u = f32::from_bits(bits);
            let l = unsafe { probe_ln_1p(u) };
            s.pair(l.to_bits() as u64, air::paper_ln_1p(u).to_bits() as u64, || format!("ln_1p {u}"));
            far_ln = far_ln.max((l as f64 - (u as f64).ln_1p()).abs());
        }
    }
    s.end(wrong);
    println!("  greatest distance to the library's (f64): exp {far_exp:e}, ln_1p {far_ln:e}");
}

pub fn all(wrong: &mut bool) {
    named(wrong);
    standins(wrong);
    bursts(wrong);
    erasures(wrong);
    refusals(wrong);
}
