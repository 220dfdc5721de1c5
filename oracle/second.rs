// A second search for a header's word, over any kind of number: at f32 it must be the receiver's own, at whole numbers it rounds nothing. Written
// from documents 01 and 02 alone, it shares no line with either receiver but the Rust's `mix64`.
#![allow(dead_code)] // not every program asks for all of it
use ion::phy_mfsk::hook::air;
use std::ops::{Add, Sub};
use std::sync::OnceLock;

pub const STATES: usize = 16_384;
const GENERATORS: [u32; 5] = [0o42101, 0o77127, 0o60225, 0o42073, 0o64667];

/// What scores are: the default is 0.
pub trait Score: Copy + Default + PartialOrd + Add<Output = Self> + Sub<Output = Self> {}
impl<T: Copy + Default + PartialOrd + Add<Output = T> + Sub<Output = T>> Score for T {}

/// Output bit i is the parity of the ones in generator i AND register.
fn labels() -> &'static [u8] {
    static ALL: OnceLock<Vec<u8>> = OnceLock::new();
    ALL.get_or_init(|| (0..2 * STATES as u32).map(|r| (0..5).map(|i| (((GENERATORS[i] & r).count_ones() & 1) as u8) << i).sum()).collect())
}

/// The 32 metrics of each of a header's steps, added in the order of the rows.
pub fn metrics<T: Score>(mode: u8, terms: &[f32], of: impl Fn(f32) -> T) -> Vec<[T; 32]> {
    let (n, bins) = (terms.len() / 260, if mode == 0 { 48 } else { 32 });
    let a = if n == 48 { 31 } else { 41 };
    (0..n)
        .map(|j| {
            let slot = a * j % n;
            let hop = (air::mix64(slot as u64 ^ 0x4D46_534B_484F_5000) % bins as u64) as usize;
            std::array::from_fn(|v| {
                let place = (hop + v) % bins + 2;
                (0..5).fold(T::default(), |sum, row| sum + of(terms[260 * slot + 52 * row + place + row - 2]))
            })
        })
        .collect()
}

/// The score of the closed word: from the state made of its last 14 bits, the last one lowest.
pub fn closed<T: Score>(steps: &[[T; 32]], word: u64) -> T {
    let (n, bit) = (steps.len(), |j: usize| (word >> j & 1) as usize);
    let (mut state, mut score) = ((n - 14..n).fold(0, |s, j| 2 * s + bit(j)), T::default());
    for (j, m) in steps.iter().enumerate() {
        let register = 2 * state + bit(j);
        score = score + m[labels()[register] as usize];
        state = register % STATES;
    }
    score
}

/// The first of the greatest.
fn greatest<T: Score>(all: impl Iterator<Item = T>) -> (usize, T) {
    all.enumerate().reduce(|best, x| if x.1 > best.1 { x } else { best }).expect("some state")
}

/// One pass from its start scores.
pub struct Pass<T> {
    start: Vec<T>,
    ends: Vec<T>,
    /// For each step and each state whether the upper register won.
    upper: Vec<Vec<bool>>,
}

impl<T: Score> Pass<T> {
    pub fn run(steps: &[[T; 32]], start: Vec<T>) -> Self {
        let (label, mut from, mut upper) = (labels(), start.clone(), Vec::new());
        for m in steps {
            let brings = |r: usize| from[r / 2] + m[label[r] as usize];
            let won: Vec<bool> = (0..STATES).map(|s| brings(s + STATES) > brings(s)).collect();
            from = (0..STATES).map(|s| brings(s + if won[s] { STATES } else { 0 })).collect();
            upper.push(won);
        }
        Pass { start, ends: from, upper }
    }
    /// The state with the greatest end score, the lowest of them, and that score.
    pub fn best(&self) -> (usize, T) {
        greatest(self.ends.iter().copied())
    }
    /// The greatest of what a state ends with above what the same state started with.
    pub fn top(&self) -> T {
        greatest((0..STATES).map(|s| self.ends[s] - self.start[s])).1
    }
    /// The word that leads to a state, and the state it comes from.
    fn traced(&self, end: usize) -> (u64, usize) {
        self.upper.iter().enumerate().rev().fold((0, end), |(word, s), (j, won)| (word | (s as u64 & 1) << j, s / 2 + if won[s] { STATES / 2 } else { 0 }))
    }
    /// The start scores of the next pass.
    pub fn lowered(self) -> Vec<T> {
        let best = self.best().1;
        self.ends.into_iter().map(|end| end - best).collect()
    }
}

/// How a search ended.
#[derive(Clone, Copy, Debug, PartialEq)]
pub enum Way {
    Closing,
    Candidate,
    Neither,
}

/// What a search of up to three passes finds.
#[derive(Clone, Copy, Debug)]
pub struct Found<T> {
    pub way: Way,
    pub word: u64,
    pub score: T,
    pub ceiling: T,
    pub passes: usize,
}

pub fn search<T: Score>(steps: &[[T; 32]]) -> Found<T> {
    let (mut start, mut ceiling, mut candidate) = (vec![T::default(); STATES], None, None::<(u64, T)>);
    for passes in 1.. {
        let pass = Pass::run(steps, start);
        let top = pass.top();
        let least = ceiling.map_or(top, |c| if c > top { top } else { c });
        ceiling = Some(least);
        let (end, score) = pass.best();
        let (word, from) = pass.traced(end);
        let gain = score - pass.start[from];
        let found = |way, word, score| Found { way, word, score, ceiling: least, passes };
        if from == end {
            return found(Way::Closing, word, gain);
        }
        for s in 0..STATES {
            let (word, from) = pass.traced(s);
            let gain = pass.ends[s] - pass.start[s];
            if from == s && candidate.is_none_or(|(_, most)| gain > most) {
                candidate = Some((word, gain));
            }
        }
        if passes == 3 {
            return candidate.map_or(found(Way::Neither, word, gain), |(word, gain)| found(Way::Candidate, word, gain));
        }
        start = pass.lowered();
    }
    unreachable!("the third pass ends it")
}

/// Document 02, #107.
#[derive(Clone, Copy, Debug, PartialEq, Eq, PartialOrd, Ord)]
pub enum Outcome {
    Sure,
    Likely,
    Kept,
    Open,
}

impl<T: Score> Found<T> {
    pub fn outcome(&self) -> Outcome {
        match self.way {
            Way::Neither => Outcome::Open,
            _ if self.score >= self.ceiling => Outcome::Sure,
            Way::Closing => Outcome::Likely,
            Way::Candidate => Outcome::Kept,
        }
    }
}
