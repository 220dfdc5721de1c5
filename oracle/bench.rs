// Times of the entries against the Rust's, ours through the C functions of libion.a, the same inputs in one run, taking turns, in CPU time: median
// and spread of the ratios; slips by themselves, and puts on a board against the second board of board.rs; local noise by the number of rows. Then
// soft values by the number of symbols, as a plot. Built and run by bench.sh.
mod board;
mod clock;
#[allow(dead_code)]
mod face;
mod inputs;
mod noisy;
mod slip;

use board::Board;
use clock::{spread, timed};
use face::{Header, Soft};
use inputs::{Dice, board_of, lawful_slip, rows, sample, styled};
use ion::phy_mfsk::hook::{Kind, MfskMode, Tracker, air, code, decode_terms, soft_terms};
use noisy::{ROW, Theirs, drawn};
use slip::Slip;
use std::fmt::Write;
use std::hint::black_box;

/// Pairs (ours, the other side's) in milliseconds: a warm-up that is not counted, then the repeats, the side that begins changing by turns.
fn pairs(repeats: usize, mut one: impl FnMut(u64, bool) -> (f64, f64)) -> Vec<(f64, f64)> {
    one(0, true);
    (1..=repeats as u64).map(|i| one(i, i % 2 == 0)).collect()
}

fn line(name: &str, pairs: &[(f64, f64)]) {
    let [ours, ..] = spread(pairs.iter().map(|p| p.0).collect());
    let [theirs, ..] = spread(pairs.iter().map(|p| p.1).collect());
    let [ratio, least, greatest] = spread(pairs.iter().map(|p| p.0 / p.1).collect());
    println!("{name:34} {ratio:6.2} {least:7.2} {greatest:9.2} {ours:11.3} {theirs:13.3}");
}

/// Both halves, in the order that was asked for.
fn by_turns<A, B>(ours_first: bool, ours: impl FnOnce() -> A, theirs: impl FnOnce() -> B) -> ((f64, A), (f64, B)) {
    if ours_first {
        let a = timed(ours);
        (a, timed(theirs))
    } else {
        let b = timed(theirs);
        (timed(ours), b)
    }
}

/// Headers of 64 symbols in R0. The Rust's table of labels is made beforehand, the areas are cleared before both. The Rust works out no ceiling.
fn headers(repeats: usize, name: &str, style: usize) {
    let c = code();
    let [a, b, _, e] = Header::lengths(64);
    let done = pairs(repeats, |i, first| {
        let t = styled(style, MfskMode::R0, Kind::Data, &mut Dice(1 << 50 | i << 20));
        let r = rows(&t);
        let scores = [vec![0.0; a], vec![0.0; b], vec![0.0; a]];
        let mut h = Header { scores, decisions: vec![0; e], word: 0, outcome: 0, pass: 0, score: 0.0, ceiling: 0.0 };
        let ((ours, k), (theirs, (bits, score))) = by_turns(first, || h.read(0, 1, &t), || decode_terms(&c, MfskMode::R0, Kind::Data, &r));
        assert!(k == 0 && score.to_bits() == h.score.to_bits() && bits == inputs::bits_of(h.word, 64));
        (ours, theirs)
    });
    line(name, &done);
}

/// Bursts of n symbols in R0: one strong tone a symbol in noise, one symbol in 50 erased.
fn soft(repeats: usize, n: usize, symbols: bool) -> Vec<(f64, f64)> {
    let bits = 5 * n;
    let blanked: Vec<u32> = (0..n).map(|i| if i % 50 == 3 { 700 } else { 0 }).collect();
    let fractions: Vec<f32> = blanked.iter().map(|&c| c as f32 / 1120.0).collect();
    pairs(repeats, |i, first| {
        let noise = |j: usize| (air::mix64(i << 32 | j as u64) >> 40) as f32 / 16_777_216.0 * 4.0 - 2.0;
        let terms: Vec<f32> = (0..260 * n).map(|j| noise(j) + if j % 263 == 7 { 12.0 } else { 0.0 }).collect();
        let theirs = rows(&terms);
        let (work, metrics, soft) = (vec![0.0; 32 * n], vec![0.0; 32 * n], vec![0.0; bits]);
        let mut b = Soft { mode: 0, kind: 1, layout: 1, symbols: symbols as u8, window: 160, bits: bits as u32, terms, blanked: blanked.clone(), work, metrics, soft };
        let ((ours, k), (theirs, r)) = by_turns(first, || b.values(), || soft_terms(MfskMode::R0, symbols, 64, bits, &theirs, &fractions));
        assert!(k == 0 && r.llrs == b.soft && r.metrics == b.metrics);
        (ours, theirs)
    })
}

/// A whole series of 2,048 calls from a fresh tracker, a drift of 100 ppm in noise.
fn tracker(repeats: usize, name: &str, mode: u8) {
    let (m, sym) = ([MfskMode::R0, MfskMode::R1][mode as usize], [224.0, 112.0][mode as usize]);
    let done = pairs(repeats, |i, first| {
        let mut d = Dice(3 << 50 | i << 20);
        let calls: Vec<_> = (1..=2048).map(|c| sample(&mut d, 2, 100.0, sym, c, (100e-6 * sym * c as f64) as i32).unwrap()).collect();
        let mut t = face::Tracker { n: 0, shift: 0, tnum: 0.0, tden: 0.0, drift: 0.0, blocks: 0, shifts: vec![0; 2048], places: vec![0; 64], timings: vec![0.0; 64] };
        let mut r = Tracker::new(m);
        let ((ours, k), (theirs, ())) =
            by_turns(first, || calls.iter().map(|&(e, l, n)| t.track(mode, 1, e, l, n)).max(), || calls.iter().for_each(|&x| r.symbol(Some(x))));
        assert!(k == Some(0) && r.state().5.to_bits() == t.drift.to_bits() && r.shifts() == &t.shifts[..] && t.drift != 0.0);
        (ours, theirs)
    });
    line(name, &done);
}

/// Data sent, the longest message of bits and of symbols, 50 times a repeat. The Rust packs five slots to a tone besides.
fn sending(repeats: usize, name: &str, symbols: bool) {
    let (n, below) = if symbols { (2_048, 32) } else { (10_240, 2) };
    let done = pairs(repeats, |i, first| {
        let mut d = Dice(5 << 50 | i << 20);
        let message: Vec<u8> = (0..n).map(|_| d.below(below) as u8).collect();
        let mut sent = vec![0u8; n];
        let ours = || (0..50).map(|_| if symbols { face::interleave_sym(black_box(&message), &mut sent) } else { face::interleave(black_box(&message), &mut sent) }).max();
        let theirs = || (0..50).map(|_| if symbols { air::data_values_sym(MfskMode::R0, black_box(&message)) } else { air::data_values(MfskMode::R0, black_box(&message)) }).last().unwrap();
        let ((ours, k), (theirs, tones)) = by_turns(first, ours, theirs);
        let slots = |v: &[u16; 3]| (0..5).map(|k| (air::gray(v[0] as usize) >> k & 1) as u8).collect::<Vec<u8>>();
        let told: Vec<u8> = if symbols { tones.iter().map(|v| v[0] as u8).collect() } else { tones.iter().flat_map(slots).collect() };
        assert!(k == Some(0) && told == sent);
        (ours / 50.0, theirs / 50.0)
    });
    line(name, &done);
}

/// Slips written and read, 10,000 of each a repeat, in nanoseconds a call: median, least, greatest. The Rust has none to take turns with.
fn slips(repeats: usize) {
    let mut d = Dice(6 << 50);
    let slips: Vec<Slip> = (0..10_000).map(|_| lawful_slip(&mut d)).collect();
    let strings: Vec<Vec<u8>> = slips.iter().map(|s| s.written(44).unwrap()).collect();
    let (mut bytes, mut back) = ([0; 44], slips[0]);
    let (mut writes, mut reads) = (Vec::new(), Vec::new());
    for _ in 0..repeats {
        let (ms, k) = timed(|| slips.iter().map(|s| face::write_slip(black_box(s), &mut bytes)).max());
        assert!(k == Some(0) && bytes[..] == strings[9_999][..]);
        writes.push(ms * 1e6 / 1e4);
        let (ms, k) = timed(|| strings.iter().map(|s| face::read_slip(black_box(s), &mut back)).max());
        assert!(k == Some(0) && back == slips[9_999]);
        reads.push(ms * 1e6 / 1e4);
    }
    let told = |times: Vec<f64>| spread(times).map(|t| format!("{t:.0}")).join(", ");
    println!("slip written, slip read, ns a call: {}; {} (median, least, greatest)", told(writes), told(reads));
}

/// Puts on a board with so many listed, 100 a repeat, in microseconds a put: against the second board of board.rs, the Rust has none. Each finds
/// as many listed: the count is set back, so that one more at the front lets the last one fall away. `shown`: whether the board then shows the
/// last one put.
fn puts(repeats: usize, name: &str, listed: u16, number: u32, shown: bool, slip_at: impl Fn(u16, Slip) -> Slip) {
    let done = pairs(repeats, |i, first| {
        let mut d = Dice(7 << 50 | i << 20);
        let mut bytes = board_of(&mut d, &(0..listed).map(|i| 1000 + 2 * i).collect::<Vec<u16>>());
        bytes[44 * 256 + 31..44 * 256 + 39].fill(0); // the start of segment 1512
        let slips: Vec<Vec<u8>> = (0..100).map(|j| slip_at(j, lawful_slip(&mut d)).written(44).unwrap()).collect();
        let (mut ours, mut second) = (bytes.clone(), Board { bytes, count: 0 });
        let by_us = |s: &Vec<u8>| face::put_slip(&mut ours, &mut (listed as u32), black_box(s));
        let by_second = |s: &Vec<u8>| {
            second.count = listed as u32;
            second.put(black_box(s))
        };
        let ((us, k), (theirs, l)) = by_turns(first, || slips.iter().map(by_us).max(), || slips.iter().map(by_second).max());
        assert!(k == Some(number) && l == k && ours == second.bytes && ours.chunks(44).any(|place| place == slips[99]) == shown);
        (us * 10.0, theirs * 10.0)
    });
    line(name, &done);
}

/// Local noise factors of bursts of so many rows, some of their bins raised for part of them, in nanoseconds a row. Every repeat has some 4,096
/// rows, each once: all sizes find their rows as cold, and no call learns from one before it. Returns our least time: what other work on the
/// machine adds is no part of the growth.
fn local_noise(repeats: usize, rows: u32, mode: u8) -> f64 {
    let calls = (4_096 / rows) as usize;
    let done = pairs(repeats, |i, first| {
        let mut d = Dice(8 << 50 | i << 20);
        let bursts: Vec<_> = (0..calls).map(|_| drawn(&mut d, 1, mode, 1, rows)).collect();
        let rust: Vec<_> = bursts.iter().map(Theirs::new).collect();
        // each call has its own factors, not the ones that the call before has warmed, as the Rust's are made anew
        let mut factors = vec![vec![2f32; ROW * rows as usize]; calls];
        let ours = || bursts.iter().zip(&mut factors).map(|(b, f)| black_box(b).factors(f)).max();
        let theirs = || rust.iter().map(|b| black_box(b).factors()).collect::<Vec<_>>();
        let ((ours, k), (theirs, all)) = by_turns(first, ours, theirs);
        assert!(k == Some(0) && all == factors);
        let a_row = 1e6 / (calls * rows as usize) as f64;
        (ours * a_row, theirs * a_row)
    });
    line(&format!("local noise in R{mode}, rows {rows}"), &done);
    spread(done.iter().map(|p| p.0).collect())[1]
}

const SIZES: [usize; 9] = [64, 128, 256, 512, 768, 1024, 1280, 1536, 2048];
/// Name and colour of a line of the plot.
const LINES: [(&str, &str); 4] = [("ours, bit form", "#0b5cad"), ("ours, symbol form", "#58a6e8"), ("the Rust, bit form", "#a33b00"), ("the Rust, symbol form", "#ee8a4a")];

/// Time of soft values by the number of symbols; `lines` holds the milliseconds at each of SIZES.
fn plot(lines: &[Vec<f64>; 4], repeats: usize) -> String {
    let (left, top, wide, high) = (62.0, 42.0, 550.0, 300.0);
    let most = lines.iter().flatten().fold(0f64, |a, &b| a.max(b));
    // steps of 1, 2 or 5 times a power of ten, at most eight
    let step = (-3..6).flat_map(|p| [1.0, 2.0, 5.0].map(|k| k * 10f64.powi(p))).find(|s| most / s <= 8.0).unwrap_or(most);
    let ceiling = (most / step).ceil() * step;
    let (x, y) = (|n: f64| left + wide * n / 2048.0, |ms: f64| top + high * (1.0 - ms / ceiling));
    let mut s = String::from("<svg xmlns=\"http://www.w3.org/2000/svg\" width=\"640\" height=\"400\" viewBox=\"0 0 640 400\" font-family=\"sans-serif\" font-size=\"12\">\n<rect width=\"640\" height=\"400\" fill=\"white\"/>\n");
    let mut put = |text: String| writeln!(s, "{text}").unwrap();
    put(format!("<text x=\"{}\" y=\"22\" text-anchor=\"middle\" font-size=\"14\">Time of soft values against the symbols of a burst (mode R0, least of {repeats} bursts)</text>", left + wide / 2.0));
    for i in 0..=(ceiling / step).round() as usize {
        let ms = i as f64 * step;
        put(format!("<path d=\"M{left} {y:.1}H{:.1}\" stroke=\"#ddd\"/><text x=\"{:.1}\" y=\"{:.1}\" text-anchor=\"end\">{}</text>", left + wide, left - 7.0, y(ms) + 4.0, (ms * 1000.0).round() / 1000.0, y = y(ms)));
    }
    for n in (0..=2048).step_by(256) {
        put(format!("<path d=\"M{x:.1} {:.1}v5\" stroke=\"black\"/><text x=\"{x:.1}\" y=\"{:.1}\" text-anchor=\"middle\">{n}</text>", top + high, top + high + 19.0, x = x(n as f64)));
    }
    put(format!("<path d=\"M{left} {top}V{}H{}\" fill=\"none\" stroke=\"black\"/>", top + high, left + wide));
    put(format!("<text x=\"{}\" y=\"{}\" text-anchor=\"middle\">symbols</text>", left + wide / 2.0, top + high + 40.0));
    put(format!("<text transform=\"translate(18 {}) rotate(-90)\" text-anchor=\"middle\">milliseconds a burst</text>", top + high / 2.0));
    put("<rect x=\"72\" y=\"46\" width=\"200\" height=\"86\" fill=\"white\" stroke=\"#bbb\"/>".into());
    for (i, ((name, colour), ms)) in LINES.iter().zip(lines).enumerate() {
        // the Rust's lines are broken and its points squares, so that no line depends on its colour
        let rust = i >= 2;
        let points: Vec<String> = SIZES.iter().zip(ms).map(|(&n, &t)| format!("{:.1},{:.1}", x(n as f64), y(t))).collect();
        let dash = if rust { " stroke-dasharray=\"7 4\"" } else { "" };
        put(format!("<polyline points=\"{}\" fill=\"none\" stroke=\"{colour}\" stroke-width=\"2\"{dash}/>", points.join(" ")));
        let at = top + 16.0 + 20.0 * i as f64;
        put(format!("<path d=\"M80 {at}h34\" stroke=\"{colour}\" stroke-width=\"2\"{dash}/><text x=\"122\" y=\"{}\">{name}</text>", at + 4.0));
        for (px, py) in SIZES.iter().zip(ms).map(|(&n, &t)| (x(n as f64), y(t))).chain([(97.0, at)]) {
            put(match rust {
                true => format!("<rect x=\"{:.1}\" y=\"{:.1}\" width=\"6\" height=\"6\" fill=\"{colour}\"/>", px - 3.0, py - 3.0),
                false => format!("<circle cx=\"{px:.1}\" cy=\"{py:.1}\" r=\"3.2\" fill=\"{colour}\"/>"),
            });
        }
    }
    s + "</svg>\n"
}

fn stop(why: &str) -> ! {
    eprintln!("bench: {why} (oracle/bench.sh --help)");
    std::process::exit(2)
}

fn main() {
    let word = |i: usize| std::env::args().nth(i);
    if word(1).as_deref() == Some("once") && word(2).as_deref() == Some("noise") {
        // local noise factors of one burst, to count its instructions
        let number = |i| word(i).and_then(|n| n.parse().ok()).unwrap_or_else(|| stop("once noise needs a mode and a number of rows"));
        let (mode, rows) = (number(3), number(4));
        let b = drawn(&mut Dice(8 << 50), 1, mode as u8, 1, rows);
        assert!(b.factors(&mut vec![2f32; ROW * rows as usize]) == 0);
        return;
    }
    if word(1).as_deref() == Some("once") {
        // one burst of each form, to count its instructions
        let n = word(2).and_then(|n| n.parse().ok()).unwrap_or_else(|| stop("once needs a number of symbols"));
        return [false, true].iter().for_each(|&form| drop(soft(0, n, form)));
    }
    let repeats = word(1).map_or(100, |n| n.parse().unwrap_or_else(|_| stop("the repeats are no number"))).max(1);
    println!("ours / the Rust, {repeats} repeats      median   least  greatest   ours, ms  the Rust, ms");
    headers(repeats, "header read, clean", 0);
    headers(repeats, "header read, noisy", 1);
    headers(repeats, "header read, random", 2);
    line("soft values, bit form, 512", &soft(repeats, 512, false));
    line("soft values, symbol form, 512", &soft(repeats, 512, true));
    tracker(repeats, "tracker, 2,048 calls in R0", 0);
    tracker(repeats, "tracker, 2,048 calls in R1", 1);
    sending(repeats, "bits sent, 10,240", false);
    sending(repeats, "symbols sent, 2,048", true);
    slips(repeats);
    println!("ours / a map, {repeats} repeats         median   least  greatest   ours, µs     a map, µs");
    // a listed segment's start rises from put to put, all Sure; an unlisted one lies between listed ones; a new one before all, falling from
    // put to put
    puts(repeats, "slip put, replaces one of 512", 512, 0, true, |j, s| Slip { start: 1 + j as u64, outcome: 0, pass: 1, segment: 1512, ..s });
    puts(repeats, "slip put, one of 512 remains", 512, 0, false, |_, s| Slip { start: 0, outcome: 2, pass: 0, segment: 1512, ..s });
    puts(repeats, "slip put, refused with 14", 512, 14, false, |_, s| Slip { segment: 1513, ..s });
    puts(repeats, "slip put, in front of 511", 511, 0, true, |j, s| Slip { segment: 999 - j, ..s });
    println!("ours / the Rust, {repeats} repeats      median   least  greatest   ours, ns  the Rust, ns  (a row)");
    for mode in 0..2 {
        let a_row = [1, 25, 256, 1_024, 2_048].map(|rows| local_noise(repeats, rows, mode));
        println!("local noise in R{mode}, ours, least ns a row: of 2,048 rows {:.3} of what it is of 256", a_row[4] / a_row[2]);
    }
    let (few, mut lines): (usize, [Vec<f64>; 4]) = (repeats.div_ceil(4), Default::default());
    for n in SIZES {
        for form in 0..2 {
            // the least: what other work on the machine adds is no part of the growth
            let done = soft(few, n, form == 1);
            lines[form].push(spread(done.iter().map(|p| p.0).collect())[1]);
            lines[2 + form].push(spread(done.iter().map(|p| p.1).collect())[1]);
        }
    }
    for ((name, _), ms) in LINES.iter().zip(&lines) {
        let parts: Vec<String> = SIZES.iter().zip(ms).map(|(n, t)| format!("{n}: {t:.2}")).collect();
        println!("{name}, least ms by symbols: {}", parts.join(", "));
    }
    std::fs::write("target/bench.svg", plot(&lines, few)).expect("target/bench.svg");
    println!("target/bench.svg has the plot of them");
}
