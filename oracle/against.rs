// Times of the header read in this checkout, in another one and in the Rust: the same headers in one run, in every order by turns, in CPU time.
// Built and run by against.sh.
mod clock;
#[allow(dead_code)]
mod face;
#[allow(dead_code)]
mod inputs;
#[allow(dead_code)]
mod slip;

use clock::{spread, timed};
use face::Header;
use inputs::{Dice, bits_of, rows, styled};
use ion::phy_mfsk::hook::{Kind, MfskMode, code, decode_terms};

unsafe extern "C" {
    fn other_read_header(
        mode: u8, kind: u8, terms: *const f32, terms_len: usize, scores: *mut f32, scores_len: usize, next: *mut f32, next_len: usize, start: *mut f32, start_len: usize,
        decisions: *mut u64, decisions_len: usize, word: *mut u64, outcome: *mut u8, pass: *mut u8, score: *mut f32, ceiling: *mut f32,
    ) -> u32;
}

fn other(h: &mut Header, mode: u8, kind: u8, terms: &[f32]) -> u32 {
    let [scores, next, start] = &mut h.scores;
    unsafe {
        other_read_header(
            mode, kind, terms.as_ptr(), terms.len(), scores.as_mut_ptr(), scores.len(), next.as_mut_ptr(), next.len(), start.as_mut_ptr(), start.len(),
            h.decisions.as_mut_ptr(), h.decisions.len(), &mut h.word, &mut h.outcome, &mut h.pass, &mut h.score, &mut h.ceiling,
        )
    }
}

/// Areas for a header of 64 symbols. Each side has its own, and finds them as zeros, as the call before left them.
fn lent() -> Header {
    let [a, b, c, d] = Header::lengths(64);
    Header { scores: [vec![0.0; a], vec![0.0; b], vec![0.0; c]], decisions: vec![0; d], word: 0, outcome: 0, pass: 0, score: 0.0, ceiling: 0.0 }
}

/// All that a read answers and leaves, but the areas; the outcome only where both sides give it by one rule.
fn answer(h: &Header, one_rule: bool) -> (u64, Option<(u8, u8)>, u32, u32) {
    (h.word, one_rule.then_some((h.outcome, h.pass)), h.score.to_bits(), h.ceiling.to_bits())
}

fn zeros(h: &Header) -> bool {
    h.scores.iter().flatten().all(|x| x.to_bits() == 0) && h.decisions.iter().all(|&x| x == 0)
}

const ORDERS: [[usize; 3]; 6] = [[0, 1, 2], [1, 0, 2], [2, 0, 1], [2, 1, 0], [0, 2, 1], [1, 2, 0]];

/// Headers of 64 symbols in R0, of one style: one warm-up that is not counted, then n.
fn headers(n: u64, one_rule: bool, name: &str, style: usize) {
    let (c, mut ours, mut theirs) = (code(), lent(), lent());
    let mut times: [Vec<f64>; 3] = Default::default();
    for i in 0..=n {
        let t = styled(style, MfskMode::R0, Kind::Data, &mut Dice(1 << 50 | i << 20));
        let r = rows(&t);
        let (mut ms, mut told) = ([0.0; 3], None);
        for side in ORDERS[i as usize % 6] {
            ms[side] = match side {
                0 => timed(|| assert_eq!(other(&mut theirs, 0, 1, &t), 0)).0,
                1 => timed(|| assert_eq!(ours.read(0, 1, &t), 0)).0,
                _ => {
                    let (ms, found) = timed(|| decode_terms(&c, MfskMode::R0, Kind::Data, &r));
                    told = Some(found);
                    ms
                }
            };
        }
        let (bits, score) = told.expect("every side has its turn");
        assert!(answer(&ours, one_rule) == answer(&theirs, one_rule) && score.to_bits() == ours.score.to_bits() && bits == bits_of(ours.word, 64), "{name}, header {i}");
        assert!(zeros(&ours) && zeros(&theirs), "{name}, header {i}: an area is left");
        if i > 0 {
            times.iter_mut().zip(ms).for_each(|(list, ms)| list.push(ms));
        }
    }
    let all = times.each_ref().map(|list| list.iter().sum::<f64>() / 1e3);
    let [middle, least, greatest] = spread(times[1].iter().zip(&times[0]).map(|(b, a)| b / a).collect());
    println!(
        "{name:8} {:9.3} {:9.3} {:9.3}   {:6.4}   {middle:6.4} ({least:.2} to {greatest:.2})   {:5.3} {:5.3}",
        all[0], all[1], all[2], all[1] / all[0], all[0] / all[2], all[1] / all[2]
    );
}

fn main() {
    let n = std::env::args().nth(1).map_or(Ok(1000), |n| n.parse()).unwrap_or_else(|_| {
        eprintln!("against: the headers are no number (oracle/against.sh --help)");
        std::process::exit(2)
    });
    // since #107 the outcome is given by score and ceiling
    let one_rule = std::env::args().nth(2).is_none_or(|rule| rule != "another-rule");
    let alike = if one_rule { "all answers alike" } else { "word, score and ceiling alike, outcomes by another rule" };
    println!("{n} headers of each style, {alike}, seconds of CPU in all; this / other by header: median (least to greatest); both / the Rust");
    println!("             other      this  the Rust  this/other   by header                other/ this/");
    headers(n, one_rule, "clean", 0);
    headers(n, one_rule, "noisy", 1);
    headers(n, one_rule, "random", 2);
}
