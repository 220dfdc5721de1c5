// The fit against `fit_drift` and the tracker against `track_timing`: every field and both lists after every call.
use crate::check::Check;
use crate::face::{self, Tracker};
use crate::inputs::{Dice, Heard, sample};
use crate::jobs::{Job, Oracle};
use crate::made::MODES;
use crate::small::bad_name;
use ion::phy_mfsk::hook::{Fmt, Tracker as Rust, fit_drift};

/// What a place holds where nothing is stored: out of every range, a signalling NaN with a payload among them.
const NO_FLOAT: f64 = f64::from_bits(0x7FF4_0000_0000_A5A5);
const NO_SHIFT: i32 = 0x5A5A_5A5A;
const NO_PLACE: u32 = 0xA5A5_A5A5;
const CALLS: usize = 2048;
/// Symbol and block length of each mode (document 01).
const SYMBOL: [f64; 2] = [224.0, 112.0];
const LENGTH: [usize; 2] = [32, 64];

fn blocks_wrong(places: &[u32], timings: &[f64]) -> bool {
    places.len() > 64 || places.iter().any(|&p| p > 4_096) || places.windows(2).any(|w| w[1] < w[0]) || !timings.iter().all(|y| y.abs() <= 4_096.0)
}

fn fit(c: &mut Check, mode: u8, mut places: Vec<u32>, mut timings: Vec<f64>) {
    let (before, mut drift) = ((places.clone(), timings.clone()), NO_FLOAT);
    let want = match () {
        _ if mode > 1 => 1,
        _ if places.len() != timings.len() => 4,
        _ if blocks_wrong(&places, &timings) => 10,
        _ => 0,
    };
    c.one("number", &mut face::fit_drift(mode, &places, &timings, &mut drift), want);
    if want == 0 {
        let blocks: Vec<(f64, f64)> = places.iter().zip(&timings).map(|(&p, &y)| (p as f64 / 2.0, y)).collect();
        let theirs = fit_drift(&blocks, SYMBOL[mode as usize] as usize);
        c.one("drift", &mut drift, theirs);
        c.answered(match theirs.abs() { 0.0 => 0, x if x < 0.0003 * SYMBOL[mode as usize] => 1, _ => 2 });
    } else {
        c.one("drift's place", &mut drift, NO_FLOAT);
        c.refused(want);
    }
    c.list("the places", &mut places, &before.0);
    c.list("the timings", &mut timings, &before.1);
    c.input(|| format!("mode {mode} places {:?} timings {:?}", before.0, before.1));
}

/// Blocks near a line, of one size or another, or anywhere.
fn blocks(d: &mut Dice) -> (Vec<u32>, Vec<f64>) {
    let n = d.below(65) as usize;
    let most = d.of(&[4096, 1, 2, 3000]);
    let (size, slope, line) = (d.of(&[4096.0, 1.0, 1e-3, 1e-300, 5e-324, 0.0]), (d.unit() - 0.5) * 0.2, d.below(2) == 1);
    let mut places: Vec<u32> = (0..n).map(|_| d.below(most + 1) as u32).collect();
    places.sort();
    let timings = places
        .iter()
        .map(|&p| {
            let y = (2.0 * d.unit() - 1.0) * size;
            let y = if line { slope * p as f64 / 2.0 + y * 1e-4 } else { y };
            (if d.below(9) == 0 { -0.0 } else { y }).clamp(-4096.0, 4096.0)
        })
        .collect();
    (places, timings)
}

fn fit_random(_: &Oracle, d: &mut Dice, _: u64, c: &mut Check) {
    let (mode, (places, timings)) = (d.below(2) as u8, blocks(d));
    fit(c, mode, places, timings)
}

fn fit_damaged(_: &Oracle, d: &mut Dice, _: u64, c: &mut Check) {
    let (mut mode, (mut places, mut timings)) = (d.below(2) as u8, blocks(d));
    for _ in 0..1 + d.below(2) {
        let at = |d: &mut Dice, n: usize| d.below(n.max(1) as u64) as usize;
        match d.below(9) {
            0 => mode = bad_name(d, 2),
            1 => places.push(4096),
            2 => timings.truncate(d.of(&[0, 1, 63])),
            3 | 4 => {
                let n = 60 + d.below(8) as usize;
                places.resize(n, 4096);
                timings.resize(n, 1.0);
            }
            5 => {
                let i = at(d, places.len());
                places.get_mut(i).into_iter().for_each(|p| *p = d.of(&[4097, u32::MAX, 4096, 0, 2048]));
            }
            6 => places.reverse(),
            _ => {
                let i = at(d, timings.len());
                let other = d.of(&[f64::NAN, NO_FLOAT, f64::INFINITY, -f64::INFINITY, 4096.0f64.next_up(), (-4096.0f64).next_down(), 4096.0, -4096.0]);
                timings.get_mut(i).into_iter().for_each(|y| *y = other);
            }
        }
    }
    fit(c, mode, places, timings)
}

fn fresh() -> Tracker {
    Tracker { n: 0, shift: 0, tnum: 0.0, tden: 0.0, drift: 0.0, blocks: 0, shifts: vec![NO_SHIFT; CALLS], places: vec![NO_PLACE; 64], timings: vec![NO_FLOAT; 64] }
}

/// A call's sample as raw numbers. The three floats of a Missed are not looked at.
#[derive(Clone, Copy, Debug)]
struct Call(u8, f64, f64, f64);
impl Call {
    fn of(d: &mut Dice, heard: Heard) -> Self {
        match heard {
            Some((early, late, noise)) => Call(if d.below(8) == 0 { 255 } else { 1 }, early, late, noise),
            None => Call(0, f64::NAN, -1.0, 2e9),
        }
    }
    fn heard(self) -> Heard {
        (self.0 != 0).then_some((self.1, self.2, self.3))
    }
}

/// The tracker rule of document 01, broken.
fn rule_broken(m: usize, t: &Tracker) -> bool {
    let judged = t.n.max(2) - 2;
    let whole = judged - judged % LENGTH[m];
    let within = |x: f64, most: f64| x.abs() <= most; // a NaN is out of any range
    t.n >= CALLS
        || t.blocks > whole / LENGTH[m]
        || t.places[..t.blocks].iter().any(|&p| p as usize > 2 * whole)
        || !within(t.drift, 0.0003 * SYMBOL[m])
        || !within(t.tnum, 1e12)
        || !within(t.tden, 1e12)
        || t.tden.is_sign_negative()
        || t.shift.unsigned_abs() > 2_048
        || t.shifts[..t.n].iter().any(|z| z.unsigned_abs() > 2_048)
}

/// Of several causes the first in the papers' order.
fn table(mode: u8, t: &Tracker, x: Call) -> u32 {
    let out = |v: f64| !(0.0..=1e9).contains(&v);
    match () {
        _ if mode > 1 => 1,
        _ if t.shifts.len() != CALLS || t.places.len() != 64 || t.timings.len() != 64 => 4,
        _ if x.0 != 0 && (out(x.1) || out(x.2) || out(x.3)) => 8,
        _ if rule_broken(mode as usize, t) => 9,
        _ if blocks_wrong(&t.places[..t.blocks], &t.timings[..t.blocks]) => 10,
        _ => 0,
    }
}

/// A refused call: the number, and every field and list as it was.
fn refused(c: &mut Check, t: &mut Tracker, mode: u8, x: Call, want: u32) {
    let before = t.clone();
    c.one("number", &mut t.track(mode, x.0, x.1, x.2, x.3), want);
    fields(c, t, before.n, before.shift, [before.tnum, before.tden, before.drift], before.blocks);
    c.list("shifts", &mut t.shifts, &before.shifts);
    c.list("places", &mut t.places, &before.places);
    c.list("timings", &mut t.timings, &before.timings);
    c.refused(want);
    c.input(|| format!("mode {mode} {x:?} at {}", say(&before)));
}

fn say(t: &Tracker) -> String {
    format!(
        "n {} shift {} tnum {:e} tden {:e} drift {:e} blocks {}, lists of {}, {} and {}",
        t.n, t.shift, t.tnum, t.tden, t.drift, t.blocks, t.shifts.len(), t.places.len(), t.timings.len()
    )
}

fn fields(c: &mut Check, t: &mut Tracker, n: usize, shift: i32, sums: [f64; 3], blocks: usize) {
    c.one("n", &mut t.n, n);
    c.one("shift", &mut t.shift, shift);
    c.one("tnum", &mut t.tnum, sums[0]);
    c.one("tden", &mut t.tden, sums[1]);
    c.one("drift", &mut t.drift, sums[2]);
    c.one("blocks", &mut t.blocks, blocks);
}

/// A call on both sides. `before` is the tracker as it was in the places where the call stores nothing.
fn call(c: &mut Check, t: &mut Tracker, rust: &mut Rust, m: usize, x: Call, before: &Tracker) {
    let listed = rust.blocks().len();
    c.one("number", &mut t.track(m as u8, x.0, x.1, x.2, x.3), 0);
    rust.symbol(x.heard());
    let (n, shift, tnum, tden, waiting, drift) = rust.state();
    let stored = rust.blocks();
    fields(c, t, n, shift, [tnum, tden, drift], stored.len());
    c.one("waiting", &mut ((t.n.max(2) - 2) % LENGTH[m]), waiting);
    c.list("stored shifts", &mut t.shifts[..n], rust.shifts());
    c.list("other shifts", &mut t.shifts[n..], &before.shifts[n..]);
    let (places, timings): (Vec<u32>, Vec<f64>) = stored.iter().map(|b| ((2.0 * b.0) as u32, b.1)).unzip();
    c.list("stored places", &mut t.places[..stored.len()], &places);
    c.list("other places", &mut t.places[stored.len()..], &before.places[stored.len()..]);
    c.list("stored timings", &mut t.timings[..stored.len()], &timings);
    c.list("other timings", &mut t.timings[stored.len()..], &before.timings[stored.len()..]);
    c.answered(if n < 3 { 0 } else if stored.len() > listed { 3 } else if waiting == 0 { 2 } else { 1 });
}

const DID: &[&str] = &["first two", "gathered", "empty block", "block"];

/// A series from a fresh tracker; `spoilt` one call in so many is bad, refused, and the series goes on.
fn series(c: &mut Check, d: &mut Dice, shapes: &[u64], calls: usize, spoilt: u64) {
    let m = d.below(2) as usize;
    let (shape, ppm) = (d.of(shapes), (10.0 + 390.0 * d.unit()) * d.of(&[1.0, -1.0]));
    let (mut t, before, mut rust) = (fresh(), fresh(), Rust::new(MODES[m]));
    assert_eq!(Fmt::of(MODES[m]).sym as f64, SYMBOL[m]);
    for k in 1..=calls {
        let now = if shape > 7 { d.below(8) } else { shape };
        let heard = sample(d, now, ppm, SYMBOL[m], k, t.shift);
        if spoilt > 0 && d.below(spoilt) == 0 {
            let (mode, x) = spoil(d, m as u8, heard);
            let want = table(mode, &t, x);
            refused(c, &mut t, mode, x, want);
        }
        let x = Call::of(d, heard);
        call(c, &mut t, &mut rust, m, x, &before);
        if t.shift.abs() > [137, 69][m] {
            c.bad.get_or_insert_with(|| format!("|shift| {} in mode {m}", t.shift));
        }
        if c.bad.is_some() {
            return c.input(|| format!("mode {m} shape {shape} call {k} {x:?}"));
        }
    }
    if calls == CALLS {
        let x = Call::of(d, None);
        refused(c, &mut t, m as u8, x, 9);
    }
}

/// A call with a mode that is not named or a Heard value out of range.
fn spoil(d: &mut Dice, mode: u8, heard: Heard) -> (u8, Call) {
    let (early, late, noise) = heard.unwrap_or((1.0, 2.0, 3.0));
    if d.below(4) == 0 {
        return (bad_name(d, 2), Call(d.below(2) as u8, early, late, noise));
    }
    let mut x = [early, late, noise];
    x[d.below(3) as usize] = d.of(&[f64::NAN, NO_FLOAT, f64::INFINITY, -f64::INFINITY, -5e-324, -1.0, 1e9f64.next_up()]);
    (mode, Call(1, x[0], x[1], x[2]))
}

fn length(d: &mut Dice, i: u64) -> usize {
    if i % 4 == 0 { 1 + d.below(CALLS as u64) as usize } else { CALLS }
}

fn made(_: &Oracle, d: &mut Dice, i: u64, c: &mut Check) {
    let calls = length(d, i);
    series(c, d, &[1, 2, 3, 7], calls, 0)
}

fn random(_: &Oracle, d: &mut Dice, i: u64, c: &mut Check) {
    let calls = length(d, i);
    series(c, d, &[0, 4, 5, 6, 8], calls, 0)
}

fn spoilt(_: &Oracle, d: &mut Dice, i: u64, c: &mut Check) {
    let calls = length(d, i);
    series(c, d, &[0, 1, 2, 3, 8], calls, 20)
}

/// A tracker in any state that keeps the rule, at its limits as well, lists filled anyhow where they are not read.
fn state(d: &mut Dice, m: usize) -> Tracker {
    let n = match d.below(4) { 0 => d.below(40), 1 => 2_047 - d.below(3), _ => d.below(2_048) } as usize;
    let judged = n.max(2) - 2;
    let whole = judged - judged % LENGTH[m];
    let room = whole / LENGTH[m];
    let blocks = match d.below(3) { 0 => room, _ => d.below(room as u64 + 1) as usize };
    let (far, size) = (d.of(&[0, 3, 137, 2_048]), d.of(&[4096.0, 137.0, 1.0, 0.0]));
    let shift = |d: &mut Dice| d.below(2 * far + 1) as i32 - far as i32;
    let mut t = fresh();
    (t.n, t.blocks) = (n, blocks);
    t.shift = shift(d);
    t.shifts[..n].iter_mut().for_each(|z| *z = shift(d));
    t.places[..blocks].iter_mut().for_each(|p| *p = d.below(2 * whole as u64 + 1) as u32);
    t.places[..blocks].sort();
    t.timings[..blocks].iter_mut().for_each(|y| *y = d.of(&[1.0, 1.0, 0.0, -0.0, 1.0]) * (2.0 * d.unit() - 1.0) * size);
    let part = d.unit();
    t.tnum = d.of(&[0.0, -0.0, 1e12, -1e12, 1.0, 5e-324]) * d.of(&[1.0, part]);
    t.tden = d.of(&[0.0, 1e12, 1.0, 5e-324, 1e6]) * d.of(&[1.0, part]);
    t.drift = 0.0003 * SYMBOL[m] * d.of(&[0.0, -0.0, 1.0, -1.0, part, -part]);
    t
}

/// The Rust's tracker in a state that keeps the rule.
fn as_rust(m: usize, t: &Tracker) -> Rust {
    let blocks: Vec<(f64, f64)> = (0..t.blocks).map(|i| (t.places[i] as f64 / 2.0, t.timings[i])).collect();
    Rust::at(MODES[m], t.shift, (t.tnum, t.tden, t.drift), (t.n.max(2) - 2) % LENGTH[m], &t.shifts[..t.n], &blocks)
}

/// From any state: up to 70 calls, so that a block's end is met, or until the rule refuses.
fn any_state(_: &Oracle, d: &mut Dice, _: u64, c: &mut Check) {
    let m = d.below(2) as usize;
    let mut t = state(d, m);
    let (before, mut rust) = (t.clone(), as_rust(m, &t));
    let shape = d.below(8);
    for k in 1..=1 + d.below(70) as usize {
        let heard = sample(d, shape, 100.0, SYMBOL[m], k, 0);
        let x = Call::of(d, heard);
        let want = table(m as u8, &t, x);
        if want != 0 {
            return refused(c, &mut t, m as u8, x, want);
        }
        call(c, &mut t, &mut rust, m, x, &before);
        if c.bad.is_some() {
            return c.input(|| format!("mode {m} call {k} {x:?} from {}", say(&before)));
        }
    }
}

/// A good state with one to three damages, each at a limit's other side; the harmless ones are held to the Rust.
fn damaged(_: &Oracle, d: &mut Dice, _: u64, c: &mut Check) {
    let m = d.below(2) as usize;
    let mut t = state(d, m);
    let judged = t.n.max(2) - 2;
    let whole = judged - judged % LENGTH[m];
    let mut mode = m as u8;
    let heard = sample(d, 0, 0.0, SYMBOL[m], 1, 0);
    let mut x = Call::of(d, heard);
    for _ in 0..1 + d.below(3) {
        let limit = 0.0003 * SYMBOL[m];
        match d.below(20) {
            0 => (mode, x) = (bad_name(d, 2), x),
            1 => t.shifts.resize(d.of(&[0, 2_047, 2_049]), 0),
            2 => t.places.resize(d.of(&[0, 63, 65]), 0),
            3 => t.timings.resize(d.of(&[0, 63, 65]), 0.0),
            4 => {
                let n = d.of(&[0, 63, 65, 128]);
                t.places.resize(n, 0);
                t.timings.resize(n, 0.0);
            }
            5 | 6 => {
                let was = mode;
                (mode, x) = spoil(d, m as u8, heard);
                mode = mode.max(was);
            }
            7 => (t.n, t.blocks) = (CALLS, 0),
            8 => t.n = d.of(&[2_049, 4_096, usize::MAX, 1 << 32, 1 << 63]),
            9 => t.blocks = whole / LENGTH[m] + d.of(&[1, 2, 64, 1 << 32, (1 << 63) - 64]),
            10 if t.blocks > 0 && t.places.len() >= t.blocks => t.places[t.blocks - 1] = 2 * whole as u32 + d.of(&[0, 1, 2]),
            11 => t.drift = d.of(&[limit.next_up(), -limit.next_up(), f64::NAN, NO_FLOAT, f64::INFINITY]),
            12 => t.tnum = d.of(&[1e12f64.next_up(), -1e12f64.next_up(), f64::NAN, NO_FLOAT, -f64::INFINITY]),
            13 => t.tden = d.of(&[1e12f64.next_up(), -5e-324, -0.0, f64::NAN, -f64::NAN, NO_FLOAT, f64::INFINITY]),
            14 => t.shift = d.of(&[2_049, -2_049, i32::MIN, i32::MAX, 2_048, -2_048]),
            15 if t.n > 0 && t.shifts.len() >= t.n.min(CALLS) => {
                let j = d.below(t.n.min(CALLS) as u64) as usize;
                t.shifts[j] = d.of(&[2_049, -2_049, i32::MIN, i32::MAX, 2_048, -2_048]);
            }
            16 if t.blocks > 1 && t.blocks < 64 && t.places.len() >= t.blocks => t.places[t.blocks - 2] = t.places[t.blocks - 1] + 1,
            17 | 18 if t.blocks > 0 && t.timings.len() >= t.blocks => {
                let j = d.below(t.blocks as u64) as usize;
                t.timings[j] = d.of(&[4096.0f64.next_up(), (-4096.0f64).next_down(), f64::NAN, NO_FLOAT, f64::INFINITY, 4096.0, -4096.0]);
            }
            _ => (),
        }
    }
    let want = table(mode, &t, x);
    if want != 0 {
        return refused(c, &mut t, mode, x, want);
    }
    let (before, mut rust) = (t.clone(), as_rust(m, &t));
    call(c, &mut t, &mut rust, m, x, &before);
    c.input(|| format!("mode {m} {x:?} at {}", say(&before)));
}

pub fn jobs() -> Vec<Job> {
    let fit = |source, inputs, kinds, numbers, cost, one| Job { entry: "fit", source, inputs, kinds, numbers, cost, one };
    let track = |source, inputs, kinds, numbers, cost, one| Job { entry: "tracker", source, inputs, kinds, numbers, cost, one };
    vec![
        fit("random", 400_000, &["0.0", "inside", "at the limit"], &[], 0.002, fit_random),
        fit("damaged", 300_000, &["0.0", "inside", "at the limit"], &[1, 4, 10], 0.002, fit_damaged),
        track("made", 600, DID, &[9], 12.0, made),
        track("random", 600, DID, &[9], 12.0, random),
        track("spoilt", 300, DID, &[1, 8, 9], 12.0, spoilt),
        track("any state", 40_000, DID, &[9], 0.3, any_state),
        track("damaged", 100_000, DID, &[1, 4, 8, 9, 10], 0.01, damaged),
    ]
}
