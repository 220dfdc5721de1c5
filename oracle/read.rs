// A header read: the entry against the Rust's `decode_tb` over the same terms, its refusals against document 01's table, and demand 3 by
// counting every walk of small codes of the same shape. The Rust has no ceiling (document 02, #106) and no outcome (#107): ours are held to the copy
// of `decode_tb`'s loop to which make.sh adds the tops, and what is promised of them to exact sums.
use super::exact::{self, Exact};
use super::inputs::{self, Dice, STYLES, rows, sent_places, styled};
use super::face::Header;
use super::labels;
use super::{KINDS, MODES, REFUSED, Section, told};
use ion::fec::conv::{ConvCode, Told};
use ion::phy_mfsk::hook::{Fmt, Kind, air, code, decode_terms, decode_terms_told};

/// The outcomes by their numbers.
const SURE: u8 = 0;
const KEPT: u8 = 1;
const OPEN: u8 = 2;
const LIKELY: u8 = 3;

pub const PATTERN: u32 = 0x7F80_0001;
pub const WORD: u64 = 0xA5A5_A5A5_A5A5_A5A5;

/// What is lent. The areas and the places start with patterns of bits that are no zero: signalling NaNs in the scores and the ceiling.
pub fn lent(lengths: [usize; 4]) -> Header {
    let scores = |n| vec![f32::from_bits(PATTERN); n];
    let scores = [scores(lengths[0]), scores(lengths[1]), scores(lengths[2])];
    let (score, ceiling) = (f32::from_bits(PATTERN), f32::from_bits(PATTERN + 1));
    Header { scores, decisions: vec![WORD; lengths[3]], word: WORD, outcome: 0xA5, pass: 0x5A, score, ceiling }
}

/// The five places of the answer, by their bits.
pub fn places(h: &Header) -> [u64; 5] {
    [h.word, h.outcome as u64, h.pass as u64, h.score.to_bits() as u64, h.ceiling.to_bits() as u64]
}

/// How many places of the areas do not hold these bits.
pub fn other(h: &Header, score: u32, decision: u64) -> u64 {
    let scores: usize = h.scores.iter().map(|a| a.iter().filter(|x| x.to_bits() != score).count()).sum();
    (scores + h.decisions.iter().filter(|&&d| d != decision).count()) as u64
}

fn how(h: &Header) -> u64 {
    16 * h.outcome as u64 + h.pass as u64
}

/// What was met among headers.
#[derive(Default, Clone, Copy)]
struct Met {
    /// Out by closing in pass 1, 2, 3, the best candidate, from pass 1, 2, 3, and neither: at or above the ceiling, and below.
    ways: [[u64; 2]; 7],
    /// Of how many the ceiling is not the top of the first pass, not that of the last, and not the score; and of how many the score is above it.
    not_first: u64,
    not_last: u64,
    not_score: u64,
    score_above: u64,
    /// Words held by exact sums to the ceiling and, under a Sure one, to its own exact score: how many, those above by something, and the greatest
    /// share of what is allowed.
    under_ceiling: Held,
    under_sure: Held,
    /// Of words handed out as closed how many have a score that is not the exact one, and by which share of what is allowed.
    own: Held,
}

#[derive(Default, Clone, Copy)]
struct Held {
    all: u64,
    some: u64,
    share: f64,
}

impl Held {
    /// Whether a number is above 0 by more than is allowed; the number is counted.
    fn exceeds(&mut self, mut x: Exact, allowed: f32) -> bool {
        self.all += 1;
        self.some += x.is_above_zero() as u64;
        self.share = self.share.max(x.near() / f64::max(allowed as f64, f64::MIN_POSITIVE));
        x.sub(allowed);
        x.is_above_zero()
    }
    fn said(&self, of: &str) -> String {
        format!("{} of {} {of}, by {:.4} of what is allowed at most", self.some, self.all, self.share)
    }
}

impl Met {
    fn count(&self) -> u64 {
        self.ways.as_flattened().iter().sum()
    }
    /// Which outcomes there were.
    fn outcomes(&self) -> String {
        let w = self.ways;
        let sum = |ways: &[[u64; 2]], side: usize| ways.iter().map(|w| w[side]).sum::<u64>();
        format!(
            "Sure in pass 1, 2, 3 by closing: {} {} {}, as candidates of pass 1, 2, 3: {} {} {}; Likely in pass 2, 3: {} {}; Kept from pass 1, 2, 3: {} {} {}; Open {}",
            w[0][0], w[1][0], w[2][0], w[3][0], w[4][0], w[5][0], sum(&w[..2], 1), w[2][1], w[3][1], w[4][1], w[5][1], sum(&w[6..], 0) + sum(&w[6..], 1)
        )
    }
    fn said(&self) -> String {
        format!(
            "ceiling not the first top {}, not the last {}, not the score {}, below the score {}; exact scores above the ceiling: {}; above a Sure word's: {}; scores off: {}",
            self.not_first, self.not_last, self.not_score, self.score_above, self.under_ceiling.said("words"), self.under_sure.said("words"), self.own.said("scores")
        )
    }
}

/// The exact score of a closed word: the sum of the terms of its sent values.
fn exactly(m: usize, k: usize, terms: &[f32], word: u64) -> Exact {
    let mut sum = Exact::default();
    sent_places(MODES[m], KINDS[k], word).into_iter().for_each(|at| (0..5).for_each(|row| sum.add(terms[at + 53 * row - 106])));
    sum
}

/// What is promised of an answer beside other closed words, by exact scores. None is above the ceiling, and where the outcome is Sure none is above
/// the word's own; handed out as closed, the score is the word's own: exactly, where all terms are whole and within ±800, else but for 2^(a-9),
/// 2^(a-8) and 2^(a-9), a the least from 0 with all terms within ±2^a.
fn promised(s: &mut Section, m: usize, k: usize, terms: &[f32], words: impl Iterator<Item = u64>, ours: &Header, met: &mut Met, input: &dyn Fn() -> String) {
    // numbers that are none, or beyond any score, are no answer
    if !(ours.ceiling.abs() < 1e9 && ours.score.abs() < 1e9) {
        return s.pair(1, 0, || format!("{}, score {} and ceiling {}", input(), ours.score, ours.ceiling));
    }
    let most = terms.iter().fold(0f32, |m, t| m.max(t.abs()));
    let a = (0..=20).find(|&a| most <= f32::powi(2.0, a)).expect("terms are within ±1,000,000");
    let whole = most <= 800.0 && terms.iter().all(|t| t.fract() == 0.0);
    let (lost, margin) = if whole { (0.0, 0.0) } else { (f32::powi(2.0, a - 9), f32::powi(2.0, a - 8)) };
    let (own, mut score, mut ceiling) = (exactly(m, k, terms, ours.word), Exact::default(), Exact::default());
    score.add(ours.score);
    ceiling.add(ours.ceiling);
    if ours.outcome != OPEN {
        let mut off = score.less(own);
        if !off.is_above_zero() {
            off = own.less(score);
        }
        s.pair(met.own.exceeds(off, lost) as u64, 0, || format!("{}, the score {} is off from the word's own by more than {lost}", input(), ours.score));
    }
    for word in words {
        let exact = exactly(m, k, terms, word);
        s.pair(met.under_ceiling.exceeds(exact.less(ceiling), lost) as u64, 0, || format!("{}, word {word:x} is above the ceiling {} by more than {lost}", input(), ours.ceiling));
        if ours.outcome == SURE {
            s.pair(met.under_sure.exceeds(exact.less(own), margin) as u64, 0, || format!("{}, word {word:x} is above the Sure one by more than {margin}", input()));
        }
    }
}

/// One header: pairs (answered, word, score's bits, outcome and pass, ceiling's bits, areas as zeros; the same number, places and areas with a lent table
/// of labels; of one out in the first pass its ceiling's and its score's bits; and what is promised beside other words: that sent, the answered one, those one bit from it, and some others).
fn header(s: &mut Section, c: &ConvCode, m: usize, k: usize, terms: &[f32], sent: u64, met: &mut Met, input: &dyn Fn() -> String) {
    let n = air::header_info_bits(KINDS[k]);
    let mut ours = lent(Header::lengths(n));
    let before: Vec<u32> = terms.iter().map(|t| t.to_bits()).collect();
    let refused = ours.read(m as u8, k as u8, terms);
    let (bits, score) = decode_terms(c, MODES[m], KINDS[k], &rows(terms));
    let (bits2, score2, copy) = decode_terms_told(c, MODES[m], KINDS[k], &rows(terms));
    assert!(bits == bits2 && score.to_bits() == score2.to_bits(), "the copy of decode_tb's loop");
    let word = bits.iter().rev().fold(0u64, |w, &b| w << 1 | b as u64);
    s.pair(told(refused), 0, input);
    s.pair(ours.word, word, input);
    s.pair(ours.score.to_bits() as u64, score.to_bits() as u64, input);
    let (outcome, pass) = copy.outcome(score);
    s.pair(how(&ours), 16 * outcome as u64 + pass as u64, input);
    s.pair(ours.ceiling.to_bits() as u64, copy.ceiling().to_bits() as u64, input);
    s.pair(other(&ours, 0, 0), 0, input);
    let mut with = lent(Header::lengths(n));
    s.pair(told(with.read_with(m as u8, k as u8, terms, labels::table())), 0, || format!("{}, with a table", input()));
    places(&with).into_iter().zip(places(&ours)).for_each(|(with, plain)| s.pair(with, plain, || format!("{}, with a table and by parity", input())));
    s.pair(other(&with, 0, 0), 0, || format!("{}, areas with a table", input()));
    if (copy.kind, copy.pass) == (0, 1) {
        s.pair(ours.ceiling.to_bits() as u64, score.to_bits() as u64, input);
    }
    assert!(before.iter().zip(terms).all(|(b, t)| *b == t.to_bits()));
    let mut d = Dice(sent);
    let words = [sent, word].into_iter().chain((0..n).map(|j| word ^ 1 << j)).chain((0..8).map(|_| d.word()));
    promised(s, m, k, terms, words, &ours, met, input);
    met.ways[match copy.kind { 0 => copy.pass as usize - 1, 1 => 2 + copy.from as usize, _ => 6 }][(score < copy.ceiling()) as usize] += 1;
    met.not_first += (copy.ceiling() != copy.tops[0]) as u64;
    met.not_last += (copy.ceiling() != copy.tops[copy.tops.len() - 1]) as u64;
    met.not_score += (copy.ceiling() != score) as u64;
    met.score_above += (copy.ceiling() < score) as u64;
}

fn headers(wrong: &mut bool, count: u64) {
    let c = code();
    for (style, name) in STYLES.iter().enumerate() {
        let mut s = Section::new("header read");
        let mut met = Met::default();
        for i in 0..count {
            let (m, k) = (i as usize % 2, i as usize / 2 % 3);
            let seed = (style as u64) << 40 | i << 20;
            let t = styled(style, MODES[m], KINDS[k], &mut Dice(seed));
            header(&mut s, &c, m, k, &t, Dice(seed).word(), &mut met, &|| format!("style {style} number {i}"));
        }
        print!("{name}: {count} headers, {}; {}; ", met.outcomes(), met.said());
        s.end(wrong);
    }
}

/// Headers of whole metrics given as step:value=metric, with what the search makes of them: word, score, outcome, pass, ceiling.
fn named(wrong: &mut bool) {
    let mut s = Section::new("header read, named headers");
    let c = code();
    let mut met = Met::default();
    for (text, word, score, outcome, pass, ceiling) in [
        // candidates of pass 1 and of pass 2 that reach the ceiling, with the last pass run
        ("2:16=1", 0xc000000000, 1.0, SURE, 3, 1.0),
        ("26:20=1 28:29=1 31:7=1 40:2=1 45:20=1", 0x253d0fc000, 5.0, SURE, 3, 5.0),
        ("42:20=1 43:16=1 45:11=1 47:17=1", 0x5e8430000000, 4.0, SURE, 2, 4.0),
        ("11:1=1 13:10=1 16:10=1 22:22=1 23:10=1 27:20=1 38:4=1 45:10=1 46:30=1 47:5=1", 0x9d498a106ebe, 9.0, LIKELY, 2, 10.0),
        ("5:27=1 10:9=1 18:16=1 22:25=1 24:17=1 34:3=1 37:19=1 41:22=1 43:20=1 46:11=1", 0x45a17400c559, 9.0, KEPT, 0, 10.0),
        // Open, its score above the ceiling
        ("1:14=3 2:8=1 5:14=2 13:2=3 15:30=3 17:30=2 19:3=3 24:1=3 27:29=3 28:26=3 32:21=2 33:8=3 36:24=3", 0xb1e44d468, 30.0, OPEN, 0, 29.0),
        ("6:30=3 9:21=2 10:19=3 11:13=2 12:27=3 13:14=1 20:24=3 23:7=1 25:5=3 29:0=1 32:19=1 36:18=3 37:24=1 39:16=3 45:3=3 46:7=2 47:13=3", 0xe39e09e12ece, 29.0, LIKELY, 3, 30.0),
        ("0:20=3 3:12=1 5:15=1 19:2=1 21:17=1 28:12=3 29:30=3 37:2=3 40:25=3 41:28=3 44:12=3 45:27=3", 0xb75cc20b8241, 19.0, KEPT, 0, 23.0),
        ("4:1=3 9:7=3 10:19=3 13:12=1 13:15=2 15:0=3 16:7=2 17:0=3 19:29=1 25:3=3 25:17=2 26:18=2 28:26=2 30:23=2 32:8=3 37:29=3 38:3=1 40:14=3 41:0=3 42:25=2 44:30=2 47:29=1", 0x4465be44fd4e, 32.0, SURE, 3, 32.0),
        ("0:22=3 1:9=1 3:29=1 4:20=1 11:31=2 14:25=2 15:9=1 16:29=1 20:23=1 21:13=1 26:9=3 27:18=3 29:20=3 35:7=3 37:8=2 39:23=2 40:0=3 41:11=2 42:15=3 45:6=3 46:13=1", 0xf747be8fc9ab, 28.0, SURE, 3, 28.0),
        // out in pass 2 and in pass 3 with less than a candidate met before had
        ("0:2=1 1:18=1 3:16=3 4:28=3 7:19=2 8:6=2 11:11=3 13:12=2 14:4=1 15:2=3 17:15=3 18:13=3 20:27=1 22:25=1 24:14=1 25:29=1 27:3=1 28:15=3 29:13=3 34:28=1 38:3=3 39:13=2 39:30=2 41:10=2 42:25=1 43:11=1 43:20=2 44:27=3 45:6=3 46:4=3 47:26=2", 0x3d0577389556, 35.0, LIKELY, 2, 38.0),
        ("0:10=2 2:3=3 2:29=3 4:19=3 4:21=3 8:11=3 9:7=3 11:10=3 11:26=3 12:13=2 14:27=3 21:12=3 23:1=1 23:15=3 24:0=1 25:17=3 25:18=1 27:22=1 29:31=2 30:21=2 31:10=3 31:24=3 35:8=3 36:2=3 37:10=3 37:18=2 39:23=3 42:25=3 45:12=2 46:20=2 47:3=2", 0xe74a36257021, 38.0, LIKELY, 3, 40.0),
    ] {
        for m in 0..2 {
            let fmt = Fmt::of(MODES[m]);
            let mut t = vec![0f32; 48 * 260];
            for part in text.split(' ') {
                let (step, rest) = part.split_once(':').unwrap();
                let (value, metric) = rest.split_once('=').unwrap();
                let slot = air::header_slot(fmt, Kind::HeaderOnly, step.parse().unwrap());
                t[260 * slot + 104 + fmt.tone_bin(fmt.hop(slot), 0, value.parse().unwrap()) + 2] = metric.parse().unwrap();
            }
            let input = || format!("mode {m} {text}");
            let mut ours = lent(Header::lengths(48));
            s.pair(told(ours.read(m as u8, 0, &t)), 0, input);
            s.pair(ours.word, word, input);
            s.pair(ours.score.to_bits() as u64, f32::to_bits(score) as u64, input);
            s.pair(how(&ours), 16 * outcome as u64 + pass, input);
            s.pair(ours.ceiling.to_bits() as u64, f32::to_bits(ceiling) as u64, input);
            header(&mut s, &c, m, 0, &t, word, &mut met, &input);
        }
    }
    // every row of the table but the first pass's, which the clean headers below are of: out in pass 2 and 3, candidates of pass 1 and 2, at or above
    // the ceiling and below; a candidate of pass 3; and an Open word above it
    for (way, side) in [(1, 0), (1, 1), (2, 0), (2, 1), (3, 0), (3, 1), (4, 0), (4, 1), (5, 0), (6, 0)] {
        s.pair((met.ways[way][side] > 0) as u64, 1, || format!("way {way}, below the ceiling {side}"));
    }
    print!("{}; {}; ", met.outcomes(), met.said());
    s.end(wrong);
}

/// Clean headers whose walks end in the first state, in the last one, and in those with one bit or all but one: each state counts for the top.
fn states(wrong: &mut bool) {
    let c = code();
    let mut s = Section::new("header read, clean ones by their end state");
    let mut met = Met::default();
    for m in 0..2 {
        for (k, n) in [(0, 48), (1, 64)] {
            for bit in 0..16 {
                for word in [1u64 << n - 1 - bit, !(1 << n - 1 - bit)] {
                    // beyond the last 14 bits they end in state 0 and in state 16,383
                    let t = inputs::terms(MODES[m], KINDS[k], word, 8.0, || 0.0);
                    header(&mut s, &c, m, k, &t, word, &mut met, &|| format!("mode {m} kind {k} word {word:x}"));
                }
            }
        }
    }
    s.pair(met.ways[0][0], 128, || "headers out in the first pass".into());
    print!("{} headers; ", met.count());
    s.end(wrong);
}

/// Headers that tell one rule from another and are few: of each of these styles the first ones that are as wanted by the copy, FOUND of them.
fn looked_for(wrong: &mut bool, name: &'static str, styles: &[usize], wanted: fn(&Told, f32) -> bool) {
    const FOUND: u64 = 3;
    let c = code();
    let mut s = Section::new(name);
    let (mut met, mut looked) = (Met::default(), 0);
    for &style in styles {
        let before = met.count();
        for i in 0..1000u64 {
            let (m, k, seed) = (i as usize % 2, [0, 2][i as usize / 2 % 2], 1 << 50 | (style as u64) << 40 | i << 20);
            let t = styled(style, MODES[m], KINDS[k], &mut Dice(seed));
            let (_, score, copy) = decode_terms_told(&c, MODES[m], KINDS[k], &rows(&t));
            looked += 1;
            if wanted(&copy, score) {
                header(&mut s, &c, m, k, &t, Dice(seed).word(), &mut met, &|| format!("style {style} seed {seed} tops {:?}", copy.tops));
            }
            if met.count() == before + FOUND {
                break;
            }
        }
        s.pair(met.count() - before, FOUND, || format!("such headers of style {style}"));
    }
    print!("of {looked} looked at {}, {}; {}; ", met.count(), met.outcomes(), met.said());
    s.end(wrong);
}

/// The least top and the last one: of whole terms tops never rise from a pass to the next, so that no ceiling of them tells; by rounding they can. And
/// a word that is not below the ceiling from one that is at it: by rounding a late one can lie above.
fn tellers(wrong: &mut bool) {
    looked_for(wrong, "header read, headers whose ceiling is not the last top", &[2, 6, 7], |copy, _| copy.ceiling() != copy.tops[copy.tops.len() - 1]);
    looked_for(wrong, "header read, headers whose closed word is above the ceiling", &[1], |copy, score| copy.kind != 2 && score > copy.ceiling());
}

/// Terms close to one number near 2^a or -2^a, a from 0 to 20: of such sums most is lost, and words lie above the ceiling by rounding.
fn lossy(wrong: &mut bool) {
    let c = code();
    let mut s = Section::new("header read, terms close to ±2^a");
    let mut met = Met::default();
    // how far they lie apart, and by how much a sent value's term is raised, as shares of 2^a
    let apart = [(0.0, 4e-6), (1e-6, 4e-6), (1e-6, 1e-5), (1e-5, 3e-5), (1e-4, 4e-4)];
    for (i, (apart, raised)) in (0..=20u64).flat_map(|a| apart.map(|x| (a, x))) {
        for sign in [1.0, -1.0] {
            let (a, m, k) = (i as i32, i as usize % 2, (i as usize + (sign > 0.0) as usize) % 3);
            let mut d = Dice(1 << 51 | i << 30 | ((raised * 1e6) as u64) << 20 | (sign > 0.0) as u64);
            let (sent, most) = (d.word(), f64::powi(2.0, a));
            let about = sign * most * (1.0 - d.unit() / 8.0);
            let within = |x: f64| x.clamp(-most.min(1e6), most.min(1e6)) as f32;
            let mut t: Vec<f32> = (0..260 * air::header_info_bits(KINDS[k])).map(|_| within(about + most * apart * d.normal() as f64)).collect();
            sent_places(MODES[m], KINDS[k], sent).into_iter().for_each(|at| t[at] = within(t[at] as f64 + most * raised));
            header(&mut s, &c, m, k, &t, sent, &mut met, &|| format!("terms near {about}, {apart} of 2^{a} apart, raised by {raised} of it"));
        }
    }
    // by rounding there are words above the ceiling, words above a Sure one, and scores that are off
    for (held, what) in [(met.under_ceiling, "above the ceiling"), (met.under_sure, "above a Sure word"), (met.own, "off")] {
        s.pair((held.some > 0) as u64, 1, || format!("a score {what} by rounding"));
    }
    print!("{} headers, {}; {}; ", met.count(), met.outcomes(), met.said());
    s.end(wrong);
}

/// README's two Data headers of terms far beyond ±800, 999,004 at the sent values and 999,000 elsewhere: both are Sure, and their exact scores are below
/// those of the words sent. The pass, the score, and what the word read and the word sent earn.
fn far_beyond(wrong: &mut bool) {
    let c = code();
    let mut s = Section::new("header read, README's headers of terms near 999,000");
    let mut met = Met::default();
    for (sent, pass, score, earned, by_sent) in
        [(0x0123_4567_89AB_CDEF, 3, 319_680_448.0, 319_680_112.0, 319_680_256.0), (0x1234_5678_90AB, 1, 319_680_448.0, 319_680_136.0, 319_680_256.0)]
    {
        for m in 0..2 {
            let t = inputs::terms(MODES[m], KINDS[1], sent, 4.0, || 999_000.0);
            let mut ours = lent(Header::lengths(64));
            let input = || format!("mode {m} header {sent:x}");
            s.pair(told(ours.read(m as u8, 1, &t)), 0, input);
            s.pair(how(&ours), 16 * SURE as u64 + pass, input);
            s.pair(ours.score.to_bits() as u64, f32::to_bits(score) as u64, input);
            for (word, earned) in [(ours.word, earned), (sent, by_sent)] {
                s.pair(exactly(m, 1, &t, word).near().to_bits(), f64::to_bits(earned), input);
            }
            header(&mut s, &c, m, 1, &t, sent, &mut met, &input);
        }
    }
    print!("{}; ", met.said());
    s.end(wrong);
}

/// The first number that the papers' order gives, worked out here from their table; a refusal leaves every bit of every area and of the five places.
fn refused(s: &mut Section, mode: u8, kind: u8, terms: &[f32], lengths: [usize; 4]) {
    let n = if kind == 1 { 64 } else { 48 };
    let want = if mode > 1 || kind > 2 {
        REFUSED + 1
    } else if terms.len() != 260 * n || lengths != [16_384, 16_384, 16_384, 256 * n] {
        REFUSED + 4
    } else if terms.iter().any(|t| !(t.abs() <= 1e6)) {
        REFUSED + 6
    } else {
        0
    };
    let mut ours = lent(lengths);
    let k = ours.read(mode, kind, terms);
    let input = || format!("mode {mode} kind {kind} terms {} areas {lengths:?}", terms.len());
    s.pair(told(k), want, input);
    s.pair(if want == 0 { other(&ours, 0, 0) } else { other(&ours, PATTERN, WORD) }, 0, input);
    if want != 0 {
        places(&ours).into_iter().zip(places(&lent([0; 4]))).for_each(|(now, was)| s.pair(now, was, input));
    }
}

fn refusals(wrong: &mut bool) {
    let mut s = Section::new("header read, refusals 1, 4, 6, untouched areas and places");
    let mut d = Dice(7);
    for mode in 0..=3u8 {
        for kind in 0..=3u8 {
            let n = if kind == 1 { 64 } else { 48 };
            let right = [16_384, 16_384, 16_384, 256 * n];
            let mut t = vec![0.5f32; 260 * n];
            for which in 0..5 {
                for length in [0, 1, 259, 260 * n - 1, 260 * n + 1, 16_383, 16_385, 256 * n - 1, 256 * n + 1, 260 * (112 - n), 256 * (112 - n)] {
                    let mut lengths = right;
                    let other = vec![f32::NAN; if which == 4 { length } else { 260 * n }];
                    if which < 4 {
                        lengths[which] = length;
                    }
                    refused(&mut s, mode, kind, if which == 4 { &other } else { &t }, lengths);
                    refused(&mut s, mode, kind, &other, lengths);
                }
            }
            for bad in [f32::NAN, f32::from_bits(0x7F80_0001), f32::INFINITY, f32::NEG_INFINITY, 1_000_000.06, -1_000_000.06, f32::MAX] {
                for at in [0, 260 * n - 1, d.below(260 * n as u64) as usize, d.below(260 * n as u64) as usize] {
                    t[at] = bad;
                    refused(&mut s, mode, kind, &t, right);
                    refused(&mut s, mode, kind, &t, [16_384, 16_384, 16_383, 256 * n]);
                    t[at] = 0.5;
                }
            }
            t[3] = 1e6;
            t[4] = -1e6;
            refused(&mut s, mode, kind, &t, right);
        }
    }
    s.end(wrong);
}

/// Demand 3, the ceiling's promise and what Sure means, by counting every walk of small codes of the same shape, on whole metrics: how often each
/// premise was met. By the number of passes run: how many codes, of how many some closed word reaches the ceiling, and of how many an Open word is
/// above it. By the pass how many are Sure; and, of those that are not, how many some closed word beats, and how many none.
fn every_walk(wrong: &mut bool) {
    let mut s = Section::new("demand 3, the ceiling and Sure, every walk of small codes counted");
    let mut met = [0u64; 4];
    let (mut run, mut reached, mut open_above, mut rising) = ([0u64; 3], [0u64; 3], 0, 0);
    let (mut sure, mut sure_candidates, mut likely, mut kept) = ([0u64; 3], 0, [0u64; 2], [0u64; 2]);
    let mut d = Dice(11);
    for i in 0..20_000u64 {
        let (k, n) = (3 + i as usize % 2, 5 + i as usize % 3);
        let states = 1usize << (k - 1);
        let gens: Vec<u32> = (0..2).map(|_| (d.below(1 << k) as u32) | 1 | 1 << (k - 1)).collect();
        let c = ConvCode::new(k, &gens);
        let spread = 1 + d.below(4);
        let metrics: Vec<f32> = (0..4 * n).map(|_| d.below(2 * spread + 1) as f32 - spread as f32).collect();
        let label = |r: usize| (0..2).fold(0, |l, g| l | (((gens[g] as usize & r).count_ones() & 1) as usize) << g);
        let walk = |p: usize, w: usize| {
            (0..n).fold((0f32, p), |(x, p), j| {
                let r = 2 * p + (w >> j & 1);
                (x + metrics[4 * j + label(r)], r % states)
            })
        };
        let closed = |w: usize| (0..k - 1).fold(0, |p, i| 2 * p + (w >> (n - (k - 1) + i) & 1));
        let (bits, score, copy) = c.decode_tb_told(n, 3, &mut |j, m| m.copy_from_slice(&metrics[4 * j..4 * j + 4]));
        let (kind, pass, ceiling, passes) = (copy.kind, copy.pass, copy.ceiling(), copy.tops.len() - 1);
        let word = bits.iter().rev().fold(0usize, |w, &b| w << 1 | b as usize);
        let input = || format!("code {gens:?} of {k} bits, {n} steps, metrics {metrics:?}");
        if kind != 2 {
            met[0] += 1;
            s.pair((walk(closed(word), word).0 == score) as u64, 1, input);
        }
        let most = (0..1usize << n).map(|w| walk(closed(w), w).0).fold(f32::MIN, f32::max);
        s.pair((most <= ceiling) as u64, 1, input);
        match copy.outcome(score) {
            (SURE, q) => {
                s.pair((most <= score && q as usize == passes + 1) as u64, 1, input);
                sure[passes] += 1;
                sure_candidates += (kind == 1) as u64;
            }
            (LIKELY, q) => {
                s.pair((score < ceiling && kind == 0 && q as usize == passes + 1 && q > 1) as u64, 1, input);
                likely[(most <= score) as usize] += 1;
            }
            (KEPT, _) => {
                s.pair((score < ceiling && kind == 1 && passes == 2) as u64, 1, input);
                kept[(most <= score) as usize] += 1;
            }
            _ => s.pair((kind == 2 && passes == 2) as u64, 1, input),
        }
        run[passes] += 1;
        reached[passes] += (most == ceiling) as u64;
        open_above += (kind == 2 && score > ceiling) as u64;
        rising += copy.tops.windows(2).any(|t| t[1] > t[0]) as u64;
        let all = || (0..states).flat_map(|p| (0..1usize << n).map(move |w| (p, w)));
        let greatest = all().map(|(p, w)| walk(p, w).0).fold(f32::MIN, f32::max);
        if kind == 0 && pass == 1 {
            met[1] += 1;
            s.pair((greatest <= score) as u64, 1, input);
            s.pair(ceiling.to_bits() as u64, score.to_bits() as u64, input);
        }
        let best: Vec<_> = all().filter(|&(p, w)| walk(p, w).0 == greatest).collect();
        if let [(p, w)] = best[..] {
            if closed(w) == p {
                met[2] += 1;
                s.pair((word == w && kind == 0 && pass == 1) as u64, 1, input);
            }
        }
        met[3] += (kind == 2) as u64;
    }
    // a ceiling lower by anything is found only where some word reaches it
    (0..3).for_each(|p| s.pair((reached[p] > 0) as u64, 1, || format!("a ceiling that is reached after {} passes", p + 1)));
    // and a Sure given too often only where words of either kind are beaten
    [sure[0], sure[1], sure[2], sure_candidates, likely[0], kept[0]].into_iter().for_each(|n| s.pair((n > 0) as u64, 1, || "a kind of outcome was never met".into()));
    print!("handed out as closed {}, out in pass 1 {}, a closed word beats every other walk {}, Open {}; ", met[0], met[1], met[2], met[3]);
    print!("1, 2, 3 passes run {run:?}, the ceiling reached by a closed word {reached:?}, below an Open score {open_above}, tops that rise {rising}; ");
    print!("Sure in pass 1, 2, 3 {sure:?}, {sure_candidates} of them candidates; beaten and not: Likely {likely:?}, Kept {kept:?}; ");
    s.end(wrong);
}

fn exact_sums(wrong: &mut bool) {
    let mut s = Section::new("exact sums");
    exact::tried().into_iter().enumerate().for_each(|(i, (is, must))| s.pair(is as u64, must as u64, || format!("sum {i}")));
    s.end(wrong);
}

pub fn all(wrong: &mut bool, count: u64) {
    exact_sums(wrong);
    refusals(wrong);
    every_walk(wrong);
    named(wrong);
    states(wrong);
    tellers(wrong);
    lossy(wrong);
    far_beyond(wrong);
    headers(wrong, count);
}
