// A header read against `decode_tb` over the same terms. Most inputs close in the first pass, which is what a receiver meets and what
// costs least; the rest are chosen so that every outcome is met often. Ceiling and outcome, which the Rust has not, are held to the copy of `decode_tb`'s
// loop to which make.sh adds the passes' tops, and in rivals.rs to a second search.
use crate::check::Check;
use crate::face::{self, Header};
use crate::inputs::{Dice, dirty, rows, sent_places, styled};
use crate::jobs::{Job, Oracle};
use crate::made::{How, KINDS, MODES, made};
use crate::rivals;
use crate::small::{bad_name, header_bits, layout};
use ion::fec::conv::Told;
use ion::phy_mfsk::hook::{Fmt, decode_terms_told, windows};

/// By outcome and pass; that a Sure of pass 3 was a candidate is told apart.
pub const OUTCOMES: &[&str] = &["Sure 1", "Sure 2", "Sure 3", "Sure candidate", "Likely 2", "Likely 3", "Kept", "Open"];

/// Over all headers answered: how many were searched in 1, 2, 3 passes; of how many the ceiling is not the first pass's top, not the last one's,
/// not the score (each must be met in a whole run, else one of these would pass for the least top); and of how many the score is above it.
#[derive(Default, Clone, Copy)]
pub struct Tops {
    pub passes: [u64; 3],
    pub not_first: u64,
    pub not_last: u64,
    pub not_score: u64,
    pub score_above: u64,
}

impl Tops {
    fn of(tops: &[f32], ceiling: f32, score: f32) -> Tops {
        let mut passes = [0; 3];
        passes[tops.len() - 1] = 1;
        let other = |top: f32| (top != ceiling) as u64;
        Tops { passes, not_first: other(tops[0]), not_last: other(tops[tops.len() - 1]), not_score: other(score), score_above: (score > ceiling) as u64 }
    }
    pub fn join(&mut self, o: &Tops) {
        (0..3).for_each(|i| self.passes[i] += o.passes[i]);
        self.not_first += o.not_first;
        self.not_last += o.not_last;
        self.not_score += o.not_score;
        self.score_above += o.score_above;
    }
    pub fn line(&self) -> String {
        format!(
            "ceilings: {} after one pass, {} after two, {} after three; not the first top {}, not the last {}, not the score {}, below the score {}",
            self.passes[0], self.passes[1], self.passes[2], self.not_first, self.not_last, self.not_score, self.score_above
        )
    }
}

/// What is answered of a header, as the Rust and the copy of its loop say it.
pub struct Answered {
    pub word: u64,
    pub score: f32,
    pub ceiling: f32,
    pub passes: usize,
    pub is_sure: bool,
    /// Handed out as closed: anything but Open.
    pub is_closed: bool,
    /// Out by closing in the first pass.
    pub is_first: bool,
}

/// What is lent, with other bits in every place of it.
fn lent(d: &mut Dice, lengths: [usize; 4]) -> Header {
    let mut list = |n| dirty(n, || d.word());
    let scores = [list(lengths[0]), list(lengths[1]), list(lengths[2])];
    let decisions = (0..lengths[3]).map(|_| d.word()).collect();
    Header { scores, decisions, word: d.word(), outcome: 0xA5, pass: 0x5A, score: f32::from_bits(0x7f80_0001), ceiling: f32::from_bits(0xffc1_2345) }
}

/// Of several causes the first in the papers' order; with a lent table of labels the Rust's are asked for.
fn table(o: &Oracle, mode: u8, kind: u8, terms: &[f32], labels: Option<&[u16]>, lengths: [usize; 4]) -> u32 {
    let n = header_bits(kind);
    match () {
        _ if mode > 1 || kind > 2 => 1,
        _ if terms.len() != 260 * n || lengths != Header::lengths(n) || labels.is_some_and(|l| l.len() != 32_768) => 4,
        _ if labels.is_some_and(|l| l != o.labels) => 16,
        _ if terms.iter().any(|t| !(t.abs() <= 1_000_000.0)) => 6,
        _ => 0,
    }
}

/// What the Rust and the copy of its loop say of accepted terms, and which kind of answer that is.
struct Theirs {
    word: u64,
    score: f32,
    outcome: u8,
    pass: u8,
    copy: Told,
}

impl Theirs {
    fn of(o: &Oracle, mode: u8, kind: u8, terms: &[f32]) -> Theirs {
        let (bits, score, copy) = decode_terms_told(&o.code, MODES[mode as usize], KINDS[kind as usize], &rows(terms));
        let (outcome, pass) = copy.outcome(score);
        Theirs { word: bits.iter().rev().fold(0, |w, &b| w << 1 | b as u64), score, outcome, pass, copy }
    }
    fn is_first(&self) -> bool {
        (self.copy.kind, self.copy.pass) == (0, 1)
    }
    fn kind(&self) -> usize {
        match (self.outcome, self.copy.kind) {
            (0, 1) => 3,
            (0, _) => self.pass as usize - 1,
            (3, _) => 2 + self.pass as usize,
            (1, _) => 6,
            _ => 7,
        }
    }
}

/// One way of reading: the number, the answer, every lent byte. What is lent holds any bits before. Returns the ceiling that was told.
fn one_way(c: &mut Check, d: &mut Dice, lengths: [usize; 4], want: u32, theirs: Option<&Theirs>, call: impl FnOnce(&mut Header) -> u32) -> f32 {
    let mut ours = lent(d, lengths);
    let left = (want != 0).then(|| (ours.scores.clone(), ours.decisions.clone(), ours.word));
    c.one("number", &mut call(&mut ours), want);
    if let Some((scores, decisions, word)) = left {
        (0..3).for_each(|i| c.list(["scores", "next", "start"][i], &mut ours.scores[i], &scores[i]));
        c.list("decisions", &mut ours.decisions, &decisions);
        c.one("word's place", &mut ours.word, word);
        c.one("outcome's place", &mut ours.outcome, 0xA5);
        c.one("pass's place", &mut ours.pass, 0x5A);
        c.one("score's place", &mut ours.score, f32::from_bits(0x7f80_0001));
        c.one("ceiling's place", &mut ours.ceiling, f32::from_bits(0xffc1_2345));
    }
    if let Some(t) = theirs {
        c.one("word", &mut ours.word, t.word);
        c.one("outcome", &mut ours.outcome, t.outcome);
        c.one("pass", &mut ours.pass, t.pass);
        c.one("score", &mut ours.score, t.score);
        c.one("ceiling", &mut ours.ceiling, t.copy.ceiling());
        if t.is_first() {
            c.one("ceiling of the first pass, as its score", &mut ours.ceiling, t.score);
        }
        (0..3).for_each(|i| c.all(["scores", "next", "start"][i], &mut ours.scores[i], 0.0));
        c.all("decisions", &mut ours.decisions, 0);
    }
    ours.ceiling
}

/// One header on both sides, with areas of these lengths, by parity and with the Rust's labels lent. Returns what was answered.
pub fn read(o: &Oracle, c: &mut Check, d: &mut Dice, mode: u8, kind: u8, mut terms: Vec<f32>, lengths: [usize; 4]) -> Option<Answered> {
    let (before, want) = (terms.clone(), table(o, mode, kind, &terms, None, lengths));
    let theirs = (want == 0).then(|| Theirs::of(o, mode, kind, &before));
    let ceiling = one_way(c, d, lengths, want, theirs.as_ref(), |h| h.read(mode, kind, &terms));
    let mut labels = o.labels.clone();
    one_way(c, d, lengths, want, theirs.as_ref(), |h| h.read_with(mode, kind, &terms, &labels));
    c.list("the terms", &mut terms, &before);
    c.list("the labels", &mut labels, &o.labels);
    c.input(|| format!("mode {mode} kind {kind}, {} terms, areas of {lengths:?}, first terms {:?}", before.len(), &before[..before.len().min(6)]));
    let Some(t) = theirs else {
        c.refused(want);
        return None;
    };
    c.answered(t.kind());
    c.tops.join(&Tops::of(&t.copy.tops, t.copy.ceiling(), t.score));
    Some(Answered { word: t.word, score: t.score, ceiling, passes: t.copy.tops.len(), is_sure: t.outcome == 0, is_closed: t.outcome != 2, is_first: t.is_first() })
}

/// Mode and kind: seven of eight headers have 48 symbols, which cost less.
fn named(d: &mut Dice, i: u64) -> (u8, u8) {
    (d.below(2) as u8, [0, 2, 0, 2, 0, 2, 0, 1][i as usize % 8])
}

/// How a burst is sent and what the channel does to it: from clean to fading under a carrier.
pub fn channel(d: &mut Dice, mode: u8, kind: u8, bits: u32) -> How {
    let mut how = How { mode, kind, layout: layout(d), bits, symbols: d.below(2) == 1, window: windows(MODES[mode as usize])[d.below(3) as usize] as u32, ..How::default() };
    (how.snr, how.doppler, how.delay) = match d.below(4) {
        0 => (20.0, 0.0, 0.0),
        1 => (3.0 + 9.0 * d.unit(), 0.0, 0.0),
        2 => (9.0 + 12.0 * d.unit(), 0.1 + d.unit(), 2.0 * d.unit()),
        _ => (6.0 + 12.0 * d.unit(), 0.5 + 2.0 * d.unit(), 4.0 * d.unit()),
    };
    how.carrier = (d.below(4) == 0).then(|| 20.0 * d.unit() - 6.0);
    how.blanked = if d.below(3) == 0 { d.unit() } else { 0.0 };
    how
}

fn by_channel(o: &Oracle, d: &mut Dice, i: u64, c: &mut Check) {
    let (mode, kind) = named(d, i);
    let how = channel(d, mode, kind, 0);
    let burst = made(d.word(), &how);
    read_and_rank(o, c, d, mode, kind, burst.header_terms, Some(burst.word))
}

/// The same with areas as they should be, against the search in f64: the ceiling, and a word that is handed out as closed.
fn read_and_rank(o: &Oracle, c: &mut Check, d: &mut Dice, mode: u8, kind: u8, terms: Vec<f32>, sent: Option<u64>) {
    if let Some(answered) = read(o, c, d, mode, kind, terms.clone(), Header::lengths(header_bits(kind))) {
        rivals::hold(c, mode, &terms, answered, sent);
    }
}

/// Near a normal number of spread 1, from one word.
fn noise(d: &mut Dice) -> f32 {
    let w = d.word();
    ((w & 0xFFFF) + (w >> 16 & 0xFFFF) + (w >> 32 & 0xFFFF) + (w >> 48)) as f32 * (1.0 / 37_837.0) - 3.464
}

/// Terms made without a channel: clean, noisy, faded, under a carrier, with crashes, of whole numbers.
fn by_terms(o: &Oracle, d: &mut Dice, i: u64, c: &mut Check) {
    let (mode, kind) = named(d, i / 6);
    let (m, k, n, word) = (MODES[mode as usize], KINDS[kind as usize], header_bits(kind), d.word());
    let strong = 7.0 + 20.0 * d.unit() as f32;
    let mut t = match i % 6 {
        0 => vec![0.0; 260 * n],
        5 => (0..260 * n).map(|_| d.below(5) as f32 - 2.0).collect(),
        _ => (0..260 * n).map(|_| noise(d)).collect::<Vec<f32>>(),
    };
    let (pace, from, crash) = (0.3 * d.unit(), 6.3 * d.unit(), 1 + d.below(n as u64 / 8));
    for (s, at) in sent_places(m, k, word).into_iter().enumerate() {
        t[at] += match i % 6 {
            2 => strong * (0.2 + 2.0 * (pace * s as f64 + from).sin().abs() as f32),
            5 => strong.round() + 3.0,
            _ => strong,
        };
    }
    match i % 6 {
        3 => {
            // a carrier, keyed on somewhere, that reaches the places beside its bin as well
            let (bin, first, level) = (d.below(Fmt::of(m).nbins as u64) as usize, d.below(n as u64) as usize, 0.3 * strong);
            for s in first..n {
                for row in 0..5 {
                    t[260 * s + 52 * row + bin + row] += level * (0.5 + 0.5 * d.unit() as f32);
                }
            }
        }
        4 => {
            for _ in 0..crash {
                let s = d.below(n as u64) as usize;
                t[260 * s..260 * (s + 1)].iter_mut().for_each(|x| *x = 4.0 * noise(d));
            }
        }
        _ => (),
    }
    read(o, c, d, mode, kind, t, Header::lengths(n));
}

/// No header, or one that ties: noise, equal and whole terms, the range's ends, subnormal numbers, any bits within the range, and
/// another header's symbols in every other slot.
fn random(o: &Oracle, d: &mut Dice, i: u64, c: &mut Check) {
    let (mode, kind) = named(d, i / 10);
    let (m, k, n) = (MODES[mode as usize], KINDS[kind as usize], header_bits(kind));
    let t = match i % 10 {
        style @ 0..=7 => styled(style as usize + 1, m, k, d),
        8 => (0..260 * n)
            .map(|_| {
                let x = f32::from_bits(d.word() as u32);
                if x.abs() <= 1e6 { x } else { f32::from_bits(x.to_bits() & 0xbfff_ffff) }
            })
            .map(|x| if x.abs() <= 1e6 { x } else { -0.0 })
            .collect(),
        _ => {
            let (a, b, s) = (d.word(), d.word(), 4.0 + d.below(8) as f32);
            let mut t: Vec<f32> = (0..260 * n).map(|_| noise(d)).collect();
            let (a, b) = (sent_places(m, k, a), sent_places(m, k, b));
            (0..n).for_each(|j| t[if j % 2 == 0 { a[j] } else { b[j] }] += s);
            t
        }
    };
    read_and_rank(o, c, d, mode, kind, t, None)
}

/// A header that may be damaged: names, five lengths, terms.
struct Lent {
    mode: u8,
    kind: u8,
    terms: Vec<f32>,
    lengths: [usize; 4],
}

/// A good header, and one to three damages of it, as `which` says of each. Some are harmless.
fn damages(d: &mut Dice, which: impl Fn(&mut Dice) -> u64) -> Lent {
    let (mut mode, mut kind) = (d.below(2) as u8, d.below(3) as u8);
    let n = header_bits(kind);
    let mut lengths = Header::lengths(n);
    let mut t: Vec<f32> = (0..260 * n).map(|_| noise(d)).collect();
    sent_places(MODES[mode as usize], KINDS[kind as usize], d.word()).into_iter().for_each(|at| t[at] += 9.0);
    for _ in 0..1 + d.below(3) {
        match which(d) {
            0 => mode = bad_name(d, 2),
            1 => kind = bad_name(d, 3),
            2 => kind = [1, 0, 1][kind as usize % 3],
            3..=6 => t.resize(d.of(&[0, 1, 259, 260, 260 * n - 1, 260 * n + 1, 260 * (n - 1), 260 * (n + 1), 260 * (112 - n)]), 0.5),
            7..=14 => {
                let which = d.below(4) as usize;
                let right = Header::lengths(n)[which];
                lengths[which] = d.of(&[0, 1, right - 1, right + 1, right / 2, right - 256, right + 256, 256 * (112 - n)]);
            }
            15..=22 if !t.is_empty() => {
                let at = match d.below(3) { 0 => 0, 1 => t.len() - 1, _ => d.below(t.len() as u64) as usize };
                t[at] = d.of(&BAD_TERMS);
            }
            _ => {
                // at the limit and no further
                let at = d.below(t.len().max(1) as u64) as usize;
                t.get_mut(at).into_iter().for_each(|x| *x = d.of(&[1e6, -1e6, -0.0, 1e-45]));
            }
        }
    }
    Lent { mode, kind, terms: t, lengths }
}

/// Damaged, and lent to both ways of reading with the Rust's labels.
fn damaged(o: &Oracle, d: &mut Dice, _: u64, c: &mut Check) {
    let l = damages(d, |d| d.below(24));
    read(o, c, d, l.mode, l.kind, l.terms, l.lengths);
}

/// Lent a table of labels that may be off or of another length, with terms that may be out of range; a name or an area is damaged seldom.
fn damaged_table(o: &Oracle, d: &mut Dice, _: u64, c: &mut Check) {
    let l = damages(d, |d| if d.below(8) == 0 { d.below(15) } else { 15 + d.below(16) });
    let mut labels = o.labels.clone();
    for _ in 0..d.below(3) {
        let at = d.below(labels.len().max(1) as u64) as usize;
        match d.below(8) {
            // one entry by one bit, by any, to another entry's
            0 | 1 => labels.get_mut(at).into_iter().for_each(|x| *x ^= 1 << d.below(16)),
            2 => labels.get_mut(at).into_iter().for_each(|x| *x = d.word() as u16),
            3 => labels.get_mut(at).into_iter().for_each(|x| *x = o.labels[(at ^ 1 << d.below(15)) % 32_768]),
            // a bit of some block, so that it goes on as it began
            4 => {
                let (from, to) = (d.below(15), d.below(5));
                labels.iter_mut().enumerate().filter(|(r, _)| r >> from & 1 == 1).for_each(|(_, x)| *x ^= 1 << to);
            }
            5 => labels.resize(d.of(&[0, 1, 16_384, 32_767, 32_769, 65_536]), 0),
            _ => (),
        }
    }
    let want = table(o, l.mode, l.kind, &l.terms, Some(&labels), l.lengths);
    let theirs = (want == 0).then(|| Theirs::of(o, l.mode, l.kind, &l.terms));
    let before = labels.clone();
    one_way(c, d, l.lengths, want, theirs.as_ref(), |h| h.read_with(l.mode, l.kind, &l.terms, &labels));
    c.list("the labels", &mut labels, &before);
    c.input(|| format!("mode {} kind {}, {} terms, {} labels, areas of {:?}", l.mode, l.kind, l.terms.len(), before.len(), l.lengths));
    match theirs {
        Some(t) => c.answered(t.kind()),
        None => c.refused(want),
    }
}

/// A table of any length filled, over any entries.
fn filled(o: &Oracle, d: &mut Dice, i: u64, c: &mut Check) {
    let length = if i % 2 == 0 { 32_768 } else { d.of(&[0, 1, 2, 16_384, 32_767, 32_769, 65_536]) };
    let mut ours: Vec<u16> = (0..length).map(|_| d.word() as u16).collect();
    let before = ours.clone();
    let right = length == 32_768;
    c.one("number", &mut face::fill_labels(&mut ours), if right { 0 } else { 4 });
    c.list("the table", &mut ours, if right { &o.labels } else { &before });
    if right { c.answered(0) } else { c.refused(4) }
}

/// Not finite, or just beyond ±1,000,000: NaNs quiet and signalling and of both signs.
pub const BAD_TERMS: [f32; 9] = [
    f32::NAN, f32::from_bits(0x7f80_0001), f32::from_bits(0xffc1_2345), f32::INFINITY, f32::NEG_INFINITY, 1_000_000.06, -1_000_000.06, 1_000_001.0, f32::MAX,
];

pub fn jobs() -> Vec<Job> {
    let job = |source, inputs, kinds, numbers, cost, one| Job { entry: "header read", source, inputs, kinds, numbers, cost, one };
    vec![
        Job { entry: "labels filled", source: "random", inputs: 4_000, kinds: &["filled"], numbers: &[4], cost: 0.2, one: filled },
        Job { entry: "header read with", source: "damaged", inputs: 20_000, kinds: &OUTCOMES[..1], numbers: &[1, 4, 16, 6], cost: 0.7, one: damaged_table },
        job("damaged", 40_000, &OUTCOMES[..1], &[1, 4, 6], 0.7, damaged),
        job("random", 3_500, OUTCOMES, &[], 42.0, random),
        job("by channel", 5_000, OUTCOMES, &[], 25.0, by_channel),
        job("by terms", 92_000, OUTCOMES, &[], 15.0, by_terms),
    ]
}
