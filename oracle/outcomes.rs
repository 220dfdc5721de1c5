// How often each outcome comes on bursts made by the channel, how often its word is the one sent, and how often rounding alone has made it. Every
// header is read by ours, through the C function, and by the second search of second.rs at f32, which must say the same. One that is not out in the
// first pass is searched once more over whole numbers, without rounding, and the outcome that document 02's table gives there (#107) is set
// beside ours.
// Built and run by outcomes.sh.
#[allow(dead_code)]
mod face;
mod inputs;
mod made;
mod second;
#[allow(dead_code)]
mod slip;

use face::Header;
use inputs::{Dice, bits_of};
use ion::phy_mfsk::hook::{air, windows};
use made::{How, KINDS, MODES, made};
use second::{Found, Outcome, Way, closed, metrics, search};
use std::collections::BTreeMap;
use std::sync::Mutex;
use std::sync::atomic::{AtomicU64, Ordering::Relaxed};

/// Terms as whole numbers of 2^-80: none of a burst's is finer, and 320 of them stay within 2^127.
fn whole(t: f32) -> i128 {
    let x = t as f64 * f64::powi(2.0, 80);
    assert!(x.fract() == 0.0 && x.abs() < f64::powi(2.0, 110), "a term of {t:e} is no whole number of 2^-80");
    x as i128
}

/// The channels: Doppler spread in Hz, 0 for one steady path, and the second path's delay in ms.
const CHANNELS: [(&str, f64, f64); 3] = [("steady", 0.0, 0.0), ("fading 0.5 Hz, 1 ms", 0.5, 1.0), ("fading 2 Hz, 4 ms", 2.0, 4.0)];
/// Signal over noise, dB in 3,000 Hz.
const LEVELS: [f64; 9] = [-18.0, -15.0, -12.0, -9.0, -6.0, -3.0, 0.0, 6.0, 12.0];

/// How a read came out: the outcome, the pass of a Sure or a Likely, and whether its word was a candidate.
type Reading = (Outcome, usize, bool);

fn reading<T: second::Score>(f: &Found<T>) -> Reading {
    let outcome = f.outcome();
    let passes = if matches!(outcome, Outcome::Sure | Outcome::Likely) { f.passes } else { 0 };
    (outcome, passes, f.way == Way::Candidate)
}

fn named((outcome, pass, candidate): Reading) -> String {
    match outcome {
        Outcome::Sure if candidate => format!("Sure {pass}, candidate"),
        Outcome::Sure | Outcome::Likely => format!("{outcome:?} {pass}"),
        Outcome::Kept | Outcome::Open => format!("{outcome:?}"),
    }
}

#[derive(Default)]
struct Tally {
    /// By channel and level, and by reading: how many, and how many of them with the word sent.
    met: BTreeMap<(usize, usize), BTreeMap<Reading, [u64; 2]>>,
    /// Of those not out in the first pass, by our reading and by that without rounding, and whether both have one word: how many, and by how many
    /// units in the last place the score is off the ceiling at most.
    beside: BTreeMap<(Reading, Reading, bool), (u64, u64)>,
    /// By outcome: words that are not the one sent and have a good CRC; and, of those not out in the first pass, words that the one sent beats in
    /// exact scores.
    passed: BTreeMap<Outcome, u64>,
    beaten: BTreeMap<Outcome, u64>,
    /// By the least a with all terms within ±2^a.
    within: BTreeMap<i32, u64>,
    differ: Vec<String>,
}

/// A number's place among the f32s.
fn place(x: f32) -> i64 {
    let bits = x.to_bits() as i32 as i64;
    if bits < 0 { i32::MIN as i64 - bits } else { bits }
}

fn one(t: &Mutex<Tally>, areas: &mut Header, i: u64) {
    let mut d = Dice(i << 20 ^ 107 << 48);
    let (level, channel) = (i as usize % LEVELS.len(), i as usize / LEVELS.len() % CHANNELS.len());
    let (mode, kind) = (d.below(2) as u8, d.below(3) as u8);
    let window = windows(MODES[mode as usize])[d.below(3) as usize] as u32;
    let how = How { mode, kind, bits: 0, window, snr: LEVELS[level], doppler: CHANNELS[channel].1, delay: CHANNELS[channel].2, ..How::default() };
    let burst = made(d.word(), &how);
    let terms = &burst.header_terms;
    // as many words of decisions as the kind has
    areas.decisions.resize(Header::lengths(terms.len() / 260)[3], 0);
    let refused = areas.read(mode, kind, terms);
    let found = search(&metrics(mode, terms, |t| t));
    let ours = reading(&found);
    let mut t_own = Tally::default();
    let number = [Outcome::Sure, Outcome::Kept, Outcome::Open, Outcome::Likely].iter().position(|&o| o == ours.0).unwrap();
    let want = (0, found.word, number as u8, ours.1 as u8, found.score.to_bits(), found.ceiling.to_bits());
    let is = (refused, areas.word, areas.outcome, areas.pass, areas.score.to_bits(), areas.ceiling.to_bits());
    if is != want {
        t_own.differ.push(format!("burst {i}: ours {is:x?}, the second search {want:x?}"));
    }
    let most = terms.iter().fold(0f32, |m, t| m.max(t.abs()));
    t_own.within.insert((0..=20).find(|&a| most <= f32::powi(2.0, a)).expect("terms are within ±1,000,000"), 1);
    t_own.met.entry((channel, level)).or_default().insert(ours, [1, (found.word == burst.word) as u64]);
    let (bits, crc) = (bits_of(found.word, terms.len() / 260), air::crc_start(1, MODES[mode as usize], KINDS[kind as usize]));
    let (own, last) = bits.split_at(bits.len() - 16);
    t_own.passed.insert(ours.0, (found.word != burst.word && air::crc16(own, crc) as u32 == air::read_bits(last, 16)) as u64);
    if ours != (Outcome::Sure, 1, false) {
        let steps = metrics(mode, terms, whole);
        let exact = search(&steps);
        let units = (place(found.score) - place(found.ceiling)).unsigned_abs();
        t_own.beside.insert((ours, reading(&exact), exact.word == found.word), (1, units));
        t_own.beaten.insert(ours.0, (closed(&steps, burst.word) > closed(&steps, found.word)) as u64);
    }
    t.lock().unwrap().join(t_own);
}

impl Tally {
    fn join(&mut self, o: Tally) {
        for (key, all) in o.met {
            for (reading, [n, sent]) in all {
                let at = self.met.entry(key).or_default().entry(reading).or_default();
                *at = [at[0] + n, at[1] + sent];
            }
        }
        for (key, (n, units)) in o.beside {
            let at = self.beside.entry(key).or_default();
            *at = (at.0 + n, at.1.max(units));
        }
        o.passed.into_iter().for_each(|(k, n)| *self.passed.entry(k).or_default() += n);
        o.beaten.into_iter().for_each(|(k, n)| *self.beaten.entry(k).or_default() += n);
        o.within.into_iter().for_each(|(a, n)| *self.within.entry(a).or_default() += n);
        self.differ.extend(o.differ);
    }

    fn print(&self) {
        println!("outcomes, and of each how many words are the one sent:");
        let mut all: BTreeMap<Reading, [u64; 2]> = BTreeMap::new();
        let line = |name: &str, met: &BTreeMap<Reading, [u64; 2]>| {
            let parts: Vec<String> = met.iter().map(|(r, [n, sent])| format!("{} {n} ({sent})", named(*r))).collect();
            println!("  {name:32} {}", parts.join(", "));
        };
        for (&(channel, level), met) in &self.met {
            line(&format!("{}, {} dB", CHANNELS[channel].0, LEVELS[level]), met);
            for (r, [n, sent]) in met {
                let at = all.entry(*r).or_default();
                *at = [at[0] + n, at[1] + sent];
            }
        }
        line("all", &all);
        println!("not out in the first pass, ours and without rounding:");
        for ((ours, exact, same), (n, units)) in &self.beside {
            let word = if *same { "" } else { ", another word" };
            let by = match (ours.0, exact.0) {
                (a, b) if a == b && ours.2 == exact.2 => "alike".into(),
                _ if (ours.2, ours.0 == Outcome::Open) != (exact.2, exact.0 == Outcome::Open) => "the search went another way".into(),
                (Outcome::Sure, _) => format!("at or above the ceiling by rounding alone, by {units} units in the last place at most"),
                _ => format!("below the ceiling by rounding alone, by {units} units in the last place at most"),
            };
            println!("  {:18} {:18} {n:6} {by}{word}", named(*ours), named(*exact));
        }
        println!("of these the word sent has a greater exact score than {:?}", self.beaten);
        println!("of all, words with a good CRC that are not the one sent: {:?}; the least a with all terms within ±2^a: {:?}", self.passed, self.within);
        self.differ.iter().take(5).for_each(|w| println!("DIFFERS {w}"));
    }
}

fn main() {
    let bursts: u64 = std::env::args().nth(1).map_or(Ok(5400), |n| n.parse()).unwrap_or_else(|_| {
        eprintln!("outcomes: the bursts are no number (oracle/outcomes.sh --help)");
        std::process::exit(2)
    });
    let (next, tally) = (AtomicU64::new(0), Mutex::new(Tally::default()));
    std::thread::scope(|s| {
        for _ in 0..std::thread::available_parallelism().map_or(1, |n| n.get()) {
            s.spawn(|| {
                let [a, b, c, d] = Header::lengths(64);
                let mut areas =
                    Header { scores: [vec![0.0; a], vec![0.0; b], vec![0.0; c]], decisions: vec![0; d], word: 0, outcome: 0, pass: 0, score: 0.0, ceiling: 0.0 };
                loop {
                    let i = next.fetch_add(1, Relaxed);
                    if i >= bursts {
                        break;
                    }
                    one(&tally, &mut areas, i);
                }
            });
        }
    });
    let tally = tally.into_inner().unwrap();
    tally.print();
    println!("{bursts} bursts, {} differ", tally.differ.len());
    std::process::exit(!tally.differ.is_empty() as i32)
}
