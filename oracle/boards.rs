// The segment board: our put against the second one of board.rs, the count and every byte after every put, what lies around them too; and
// document 02's sentence on a series, held apart from both.
use super::board::{BYTES, Board, PLACES};
use super::face;
use super::inputs::{Dice, SEGMENTS, board_of, break_board, damage_slip, lawful_slip, left_over, segment_near, segments, slip_for};
use super::slip::{Slip, read};
use super::{Section, told};
use std::cmp::Ordering;

/// What lies on either side of the bytes lent, and of the count.
const GUARD: [u8; 64] = [0xA5; 64];
const COUNT_GUARD: u32 = 0xA5A5_A5A5;

/// A board of ours between two guards, and the second one.
struct Both {
    around: Vec<u8>,
    counts: [u32; 3],
    second: Board,
}

impl Both {
    fn new(bytes: Vec<u8>, count: u32) -> Self {
        Both { around: [&GUARD[..], &bytes, &GUARD].concat(), counts: [COUNT_GUARD, count, COUNT_GUARD], second: Board { bytes, count } }
    }

    /// One put by both: the number, the count and every byte.
    fn put(&mut self, s: &mut Section, string: &[u8], at: impl Fn() -> String) -> u32 {
        let (end, before) = (self.around.len() - GUARD.len(), self.second.count);
        let ours = face::put_slip(&mut self.around[GUARD.len()..end], &mut self.counts[1], string);
        let theirs = self.second.put(string);
        let input = || format!("{}, a count of {before} before, {string:02x?}", at());
        s.pair(told(ours), told(theirs), input);
        s.pair((self.counts != [COUNT_GUARD, self.second.count, COUNT_GUARD]) as u64, 0, || format!("counts {:?}, {}", self.counts, input()));
        let want = [&GUARD[..], &self.second.bytes, &GUARD].concat();
        s.pair(self.around.iter().zip(&want).filter(|(a, b)| a != b).count() as u64, 0, || format!("bytes that differ, {}", input()));
        ours
    }

    /// What our board shows.
    fn shown(&self) -> &[u8] {
        &self.around[GUARD.len()..][..44 * (self.counts[1] as usize).min(PLACES)]
    }
}

/// How a reading is to another: Less where it is the worse.
fn reading(a: &Slip, b: &Slip) -> Ordering {
    let (sure, likely, kept, open) = (0, 3, 1, 2);
    let better = [(sure, likely), (sure, kept), (sure, open), (likely, kept), (likely, open), (kept, open)];
    better.contains(&(a.outcome, b.outcome)).cmp(&better.contains(&(b.outcome, a.outcome)))
}

/// Document 02, #110, on two slips of one segment: reading first, start between equal readings, listed slip if both are equal.
fn judged(listed: Slip, new: Slip) -> Slip {
    match reading(&new, &listed) {
        Ordering::Greater => new,
        Ordering::Equal if new.start > listed.start => new,
        _ => listed,
    }
}

/// The same by #105, before #110: the start first, the reading between equal starts.
fn judged_before(listed: Slip, new: Slip) -> Slip {
    match new.start.cmp(&listed.start) {
        Ordering::Greater => new,
        Ordering::Equal if reading(&new, &listed) == Ordering::Greater => new,
        _ => listed,
    }
}

/// What a segment must show of its own slips, in order of arrival: what the two rules leave of them one after another; which is the first of
/// those that read best and of these are the latest; and, where none of them is later than another but reads worse, what #105's order left.
fn shows(s: &mut Section, own: &[Slip], place: &[u8], input: impl Fn() -> String) {
    let is_other = |slip: Slip| (place != slip.written(44).unwrap()) as u64;
    let left = own.iter().copied().reduce(judged).unwrap();
    s.pair(is_other(left), 0, || format!("what is shown after {}", input()));
    let first_of_best = own.iter().rev().max_by(|a, b| reading(a, b).then(a.start.cmp(&b.start))).unwrap();
    s.pair(is_other(*first_of_best), 0, || format!("the first of the best of {}", input()));
    if !own.iter().any(|a| own.iter().any(|b| a.start > b.start && reading(a, b) == Ordering::Less)) {
        let before = own.iter().copied().reduce(judged_before).unwrap();
        s.pair(is_other(before), 0, || format!("none at odds in {}", input()));
    }
}

/// Document 02's sentence on our answers alone. The first 512 different segments of the lawful slips are listed, and each shows what it must
/// of all its own slips; any other lawful slip got 14, and a string that is no slip 13.
fn sentence(s: &mut Section, strings: &[Vec<u8>], numbers: &[u32], shown: &[u8], input: impl Fn() -> String) {
    let slips: Vec<Slip> = strings.iter().filter_map(|x| read(x).ok()).collect();
    let mut first: Vec<u16> = Vec::new();
    for slip in &slips {
        if first.len() < PLACES && !first.contains(&slip.segment) {
            first.push(slip.segment);
        }
    }
    for (i, (string, &number)) in strings.iter().zip(numbers).enumerate() {
        let want = read(string).map_or_else(|k| k, |slip| if first.contains(&slip.segment) { 0 } else { 14 });
        s.pair(told(number), told(want), || format!("the sentence on put {i} of {}", input()));
    }
    first.sort();
    s.pair(shown.len() as u64, 44 * first.len() as u64, || format!("how much is shown after {}", input()));
    for (&g, place) in first.iter().zip(shown.chunks(44)) {
        let own: Vec<Slip> = slips.iter().filter(|x| x.segment == g).copied().collect();
        shows(s, &own, place, || format!("segment {g} of {}", input()));
    }
}

/// A series from an empty board over what is left in its places: the numbers, and what is shown at the end.
fn series(s: &mut Section, which: u64, strings: &[Vec<u8>], left: Vec<u8>) -> (Vec<u32>, Vec<u8>) {
    let mut b = Both::new(left, 0);
    let numbers: Vec<u32> = strings.iter().enumerate().map(|(i, x)| b.put(s, x, || format!("series {which}, put {i}"))).collect();
    sentence(s, strings, &numbers, b.shown(), || format!("series {which}"));
    (numbers, b.shown().to_vec())
}

/// Strings of these segments: slips, one in three damaged where that is asked for.
fn drawn(d: &mut Dice, n: u64, segments: &[u16], damaged: bool) -> Vec<Vec<u8>> {
    let mut one = || {
        let segment = d.of(segments);
        let mut bytes = slip_for(d, segment);
        if damaged && d.below(3) == 0 {
            let i = d.below(16);
            damage_slip(d, i, &mut bytes);
        }
        bytes
    };
    (0..n).map(|_| one()).collect()
}

/// Series over one to nine segments, each over two kinds of bytes left in the places: the answers and what is shown must not tell them apart.
fn few_segments(wrong: &mut bool) {
    let mut d = Dice(105);
    for (name, damaged) in [
        ("boards, series of slips of few segments and starts, each over two kinds of left bytes", false),
        ("boards, such series with damaged slips and strings of other lengths", true),
    ] {
        let mut s = Section::new(name);
        for which in 0..1000 {
            let (puts, few) = (d.below(120), 1 + d.below(9) as usize);
            let strings = drawn(&mut d, puts, &SEGMENTS[9 - few..], damaged);
            let [a, b] = [(); 2].map(|_| series(&mut s, which, &strings, left_over(&mut d)));
            s.pair((a != b) as u64, 0, || format!("series {which} over other bytes"));
        }
        s.end(wrong);
    }
}

/// One slip listed, and a new one for its segment: every two of ten starts, every two of seven readings, either score the greater. Against
/// #105's order two judgements are others and no more: a later but worse slip no longer replaces, an earlier but better one now does.
fn judgements(wrong: &mut bool) {
    let mut d = Dice(1105);
    let mut s = Section::new("boards, every judgement of ten starts and seven readings");
    let starts = [0, 1, 2, 0xFF, 0x100, 0xFFFF_FFFF, 1 << 32, (1 << 63) - 1, 1 << 63, u64::MAX];
    let readings = [(0, 1), (0, 2), (0, 3), (3, 2), (3, 3), (1, 0), (2, 0)];
    let (start_pairs, reading_pairs) = (starts.map(|a| starts.map(|b| (a, b))), readings.map(|a| readings.map(|b| (a, b))));
    let mut changed = [0, 0];
    for &(old, new) in start_pairs.as_flattened() {
        for &((was, was_pass), (is, is_pass)) in reading_pairs.as_flattened() {
            for scores in [[1f32, 2.0], [2.0, 1.0]].map(|x| x.map(f32::to_bits)) {
                let listed = Slip { start: old, outcome: was, pass: was_pass, score: scores[0], segment: 7, ..lawful_slip(&mut d) };
                let slip = Slip { start: new, outcome: is, pass: is_pass, score: scores[1], segment: 7, ..lawful_slip(&mut d) };
                let (strings, which) = ([listed, slip].map(|x| x.written(44).unwrap()), s.all);
                let (_, shown) = series(&mut s, which, &strings, vec![0x5A; BYTES]);
                let replaced = (judged_before(listed, slip) == slip, shown == strings[1]);
                let met = (new.cmp(&old), reading(&slip, &listed));
                s.pair((replaced == (true, false)) as u64, (met == (Ordering::Greater, Ordering::Less)) as u64, || format!("later but worse, {which}"));
                s.pair((replaced == (false, true)) as u64, (met == (Ordering::Less, Ordering::Greater)) as u64, || format!("earlier but better, {which}"));
                changed[0] += (replaced == (true, false)) as u64;
                changed[1] += (replaced == (false, true)) as u64;
            }
        }
    }
    // 45 of the 100 pairs of starts, 17 of the 49 of readings, either score
    changed.iter().for_each(|&n| s.pair(n, 45 * 17 * 2, || "judgements that are others".into()));
    s.end(wrong);
}

/// A segment put before, between and behind the listed ones, at every place, and every listed one judged.
fn every_place(wrong: &mut bool) {
    let mut d = Dice(2105);
    let mut s = Section::new("boards of 0 to 6, 511 and 512: every place put at, and every listed one judged");
    for n in (0..=6).chain([511, 512]) {
        let odd: Vec<u16> = (0..n).map(|i| 2 * i + 1).collect();
        let board = board_of(&mut d, &odd);
        for segment in 0..=2 * n {
            let mut b = Both::new(board.clone(), n as u32);
            b.put(&mut s, &slip_for(&mut d, segment), || format!("segment {segment} on {n} odd ones"));
        }
    }
    s.end(wrong);
    let mut s = Section::new("boards of 510, 511 and 512, with segments 0 and 65,535 and without: three puts each");
    for &(n, ends) in [510, 511, 512].map(|n| [(n, false), (n, true)]).as_flattened() {
        let mut listed: Vec<u16> = (0..n).map(|i| 1000 + 2 * i).collect();
        if ends {
            (listed[0], listed[n as usize - 1]) = (0, 65_535);
        }
        for three in [[0, 65_535, 1], [65_535, 0, 65_534], [1001, 1002, 65_535], [1200, 0, 1], [999, 1200, 65_535]] {
            let mut b = Both::new(board_of(&mut d, &listed), n as u32);
            for segment in three {
                b.put(&mut s, &slip_for(&mut d, segment), || format!("segment {segment} of {three:?} on {n} listed"));
            }
        }
    }
    s.end(wrong);
}

/// A lent board that is broken or has another length, or is good after all.
fn broken(wrong: &mut bool) {
    let mut d = Dice(3105);
    let mut s = Section::new("boards that are broken in up to two ways, and of other lengths");
    let mut met = [0u32; 15];
    for i in 0..20_000 {
        let n = d.of(&[0, 1, 2, 3, 8, 100, 511, 512]);
        let listed = segments(&mut d, n);
        let (mut bytes, mut count) = (board_of(&mut d, &listed), n as u32);
        (0..d.below(3)).for_each(|_| break_board(&mut d, &mut bytes, &mut count));
        if i % 8 == 0 {
            let length = d.of(&[0, 44, BYTES - 44, BYTES - 1, BYTES + 1, BYTES + 44, 2 * BYTES]);
            bytes.resize_with(length, || d.word() as u8);
        }
        let segment = segment_near(&mut d, &listed);
        let string = drawn(&mut d, 1, &[segment], i % 4 == 0).remove(0);
        met[Both::new(bytes, count).put(&mut s, &string, || format!("board {i} of {n}")) as usize % 15] += 1;
    }
    s.pair([0, 4, 13, 14].iter().filter(|&&k| met[k] < 100).count() as u64, 0, || format!("numbers hardly met: {met:?}"));
    s.end(wrong);
}

/// Every length with every count, broken place and broken slip: of several causes the first in the order 4, 13, 14.
fn causes_together(wrong: &mut bool) {
    let mut d = Dice(4105);
    let mut s = Section::new("boards, causes met together: lengths, counts, broken places and broken slips");
    let listed: Vec<u16> = (0..512).map(|i| 100 + 3 * i).collect();
    let good = board_of(&mut d, &listed);
    let changed = |change: fn(&mut [u8])| {
        let mut bytes = good.clone();
        change(&mut bytes);
        bytes
    };
    // at either end of the board: a byte that no slip has, two places exchanged, a segment twice
    let boards = [
        good.clone(),
        changed(|b| b[0] = 2),
        changed(|b| b[44 * 511 + 22] = 4),
        changed(|b| b[..88].rotate_left(44)),
        changed(|b| b[44 * 510..].rotate_left(44)),
        changed(|b| b.copy_within(..44, 44)),
        changed(|b| b.copy_within(44 * 510..44 * 511, 44 * 511)),
    ];
    // listed segments and others; no slip at all, one cut off, gone on, of an outcome that none has, and two
    let mut strings: Vec<Vec<u8>> = [0, 100, 101, 103, 1633, 65_535].into_iter().map(|g| slip_for(&mut d, g)).collect();
    let (listed, mut other) = (slip_for(&mut d, 100), slip_for(&mut d, 101));
    other[22] = 4;
    strings.extend([vec![], listed[..43].to_vec(), [&listed[..], &[0]].concat(), other, [&listed[..], &listed].concat()]);
    for length in [0, 44, BYTES - 1, BYTES, BYTES + 1] {
        for count in [0, 1, 2, 510, 511, 512, 513, 1 << 16, 1 << 31, u32::MAX] {
            for (i, board) in boards.iter().enumerate() {
                for string in &strings {
                    let mut bytes = board.clone();
                    bytes.resize(length, 0xA5);
                    Both::new(bytes, count).put(&mut s, string, || format!("board {i} of {length} bytes"));
                }
            }
        }
    }
    s.end(wrong);
}

/// 512 segments in any order, then those and others: from there on the first are judged, and the others get 14.
fn full(wrong: &mut bool) {
    let mut d = Dice(5105);
    let mut s = Section::new("boards filled in any order, then listed segments and others");
    for which in 0..24 {
        let mut all = segments(&mut d, 700);
        for i in 0..700 {
            all.swap(i, d.below(700) as usize);
        }
        let mut strings: Vec<Vec<u8>> = all[..512].iter().map(|&g| slip_for(&mut d, g)).collect();
        strings.extend(drawn(&mut d, 600, &all, which % 2 == 1));
        // some with the others between the first 512 from the start
        if which % 3 == 0 {
            let more = drawn(&mut d, 300, &all, true);
            strings.splice(200..200, more);
        }
        series(&mut s, which, &strings, left_over(&mut d));
    }
    s.end(wrong);
}

pub fn all(wrong: &mut bool) {
    judgements(wrong);
    few_segments(wrong);
    every_place(wrong);
    broken(wrong);
    causes_together(wrong);
    full(wrong);
}
