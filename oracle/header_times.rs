// Times of the header read, with labels filled in advance and by parity, against the Rust's `decode_tb` on the same headers of 64 in one run, the three
// sides taking turns; and of three headers together. The tables of labels, ours and the Rust's, are made before, and each side's areas are cleared before:
// ours finds them as the call before left them, as zeros, and clears them in its own time; the Rust makes its own. All that ours refuses by is in its time.
// Built and run by header_times.sh.
mod clock;
#[allow(dead_code)]
mod face;
mod inputs;
mod slip;

use clock::{spread, timed};
use face::Header;
use inputs::{Dice, bits_of, rows, styled};
use ion::fec::conv::ConvCode;
use ion::phy_mfsk::hook::{Kind, MfskMode, Terms, code, decode_terms};
use std::time::Instant;

/// Areas for a header of 64 symbols.
fn lent() -> Header {
    let [a, b, c, d] = Header::lengths(64);
    Header { scores: [vec![0.0; a], vec![0.0; b], vec![0.0; c]], decisions: vec![0; d], word: 0, outcome: 0, pass: 0, score: 0.0, ceiling: 0.0 }
}

struct Sides {
    code: ConvCode,
    labels: Vec<u16>,
}

const ORDERS: [[usize; 3]; 6] = [[0, 1, 2], [1, 0, 2], [2, 0, 1], [2, 1, 0], [0, 2, 1], [1, 2, 0]];

/// Word and score of a header by one side: with the table, by parity, the Rust.
fn told(o: &Sides, side: usize, h: &mut Header, terms: &[f32], rust: &[Terms]) -> (Vec<u8>, u32) {
    let number = match side {
        0 => h.read_with(0, 1, terms, &o.labels),
        1 => h.read(0, 1, terms),
        _ => {
            let (bits, score) = decode_terms(&o.code, MfskMode::R0, Kind::Data, rust);
            return (bits, score.to_bits());
        }
    };
    assert_eq!(number, 0);
    (bits_of(h.word, 64), h.score.to_bits())
}

type Burst = (Vec<f32>, Vec<Terms>);

fn burst(style: usize, i: u64) -> Burst {
    let t = styled(style, MfskMode::R0, Kind::Data, &mut Dice(1 << 50 | i << 20));
    let r = rows(&t);
    (t, r)
}

fn line(name: &str, times: &[Vec<f64>; 3]) {
    let sum = times.each_ref().map(|list| list.iter().sum::<f64>());
    let by = |side: usize| spread(times[side].iter().zip(&times[2]).map(|(a, b)| a / b).collect());
    let ([with, least, greatest], [plain, ..]) = (by(0), by(1));
    println!(
        "{name:26} {:8.3} {:8.3} {:8.3}    {:6.3}   {with:6.3} ({least:.2} to {greatest:.2})     {:6.3}   {plain:6.3}",
        sum[0] / 1e3, sum[1] / 1e3, sum[2] / 1e3, sum[0] / sum[2], sum[1] / sum[2]
    );
}

/// Batches of so many headers, one after another in one thread, by CPU time: one batch to warm up, which is not counted, then all.
fn one_after_another(o: &Sides, name: &str, style: usize, headers: u64, batch: u64) {
    let (mut areas, mut times): (_, [Vec<f64>; 3]) = (lent(), Default::default());
    for b in 0..=headers / batch {
        let bursts: Vec<Burst> = (0..batch).map(|i| burst(style, b * batch + i)).collect();
        let (mut ms, mut answers) = ([0.0; 3], [const { Vec::new() }; 3]);
        for side in ORDERS[b as usize % 6] {
            (ms[side], answers[side]) = timed(|| bursts.iter().map(|(t, r)| told(o, side, &mut areas, t, r)).collect::<Vec<_>>());
        }
        assert!(answers[0] == answers[2] && answers[1] == answers[2], "{name}, batch {b}");
        if b > 0 {
            times.iter_mut().zip(ms).for_each(|(list, ms)| list.push(ms));
        }
    }
    line(name, &times);
}

/// Three headers in three threads that begin at once, by the clock on the wall.
fn at_once(o: &Sides, name: &str, style: usize, headers: u64) {
    let (mut areas, mut times): (_, [Vec<f64>; 3]) = ([lent(), lent(), lent()], Default::default());
    for b in 0..=headers / 3 {
        let bursts: Vec<Burst> = (0..3).map(|i| burst(style, b * 3 + i)).collect();
        let (mut ms, mut answers) = ([0.0; 3], [const { Vec::new() }; 3]);
        for side in ORDERS[b as usize % 6] {
            let begun = Instant::now();
            answers[side] = std::thread::scope(|s| {
                let threads: Vec<_> = areas.iter_mut().zip(&bursts).map(|(h, (t, r))| s.spawn(move || told(o, side, h, t, r))).collect();
                threads.into_iter().map(|t| t.join().expect("a thread ends")).collect::<Vec<_>>()
            });
            ms[side] = begun.elapsed().as_secs_f64() * 1e3;
        }
        assert!(answers[0] == answers[2] && answers[1] == answers[2], "{name}, batch {b}");
        if b > 0 {
            times.iter_mut().zip(ms).for_each(|(list, ms)| list.push(ms));
        }
    }
    line(name, &times);
}

/// Microseconds of a call, median, least and greatest of 1,000 batches of 20.
fn alone(name: &str, mut call: impl FnMut()) {
    let [middle, least, greatest] = spread((0..1_000).map(|_| timed(|| (0..20).for_each(|_| call())).0 * 1e3 / 20.0).collect());
    println!("{name}: {middle:.2} µs ({least:.2} to {greatest:.2})");
}

fn main() {
    let n = std::env::args().nth(1).map_or(Ok(1000), |n| n.parse()).unwrap_or_else(|_| {
        eprintln!("header_times: the headers are no number (oracle/header_times.sh --help)");
        std::process::exit(2)
    });
    let mut o = Sides { code: code(), labels: vec![0; 32_768] };
    assert_eq!(face::fill_labels(&mut o.labels), 0);
    println!("{n} headers of 64 of each style, answers alike; seconds in all; the ratio to the Rust of the sums, and its median (least to greatest) by batch");
    println!("                              with   parity     Rust  with/Rust   by batch               parity/Rust   by batch");
    for (style, name) in ["clean", "noisy", "random"].into_iter().enumerate() {
        one_after_another(&o, name, style, n, 1);
    }
    for (style, name) in ["clean", "noisy", "random"].into_iter().enumerate() {
        one_after_another(&o, &format!("{name}, three in a row"), style, n, 3);
        at_once(&o, &format!("{name}, three at once"), style, n);
    }
    let (mut labels, mut h, (terms, _)) = (o.labels.clone(), lent(), burst(0, 0));
    alone("a table filled", || assert_eq!(face::fill_labels(&mut labels), 0));
    labels[32_767] ^= 1;
    alone("a read refused by 16: names, lengths and the table's test", || assert_eq!(h.read_with(0, 1, &terms, &labels), 16));
}
