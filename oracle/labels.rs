// Labels filled in advance (document 02, #111): the table against the Rust's labels and against document 01's parities; tables that are off, each refused
// by 16; and the refusals of the header read with a lent table by the papers' order. That both ways of reading agree is part of every header in read.rs.
use super::face::{self, Header};
use super::inputs::{self, Dice};
use super::read::{PATTERN, WORD, lent, other, places};
use super::{REFUSED, Section, told};
use ion::phy_mfsk::hook::code;
use std::sync::OnceLock;

/// The generators as document 01 has them.
const GENERATORS: [u32; 5] = [0o42101, 0o77127, 0o60225, 0o42073, 0o64667];

/// The table that every header of read.rs is read with: filled once, over other bits.
pub fn table() -> &'static [u16] {
    static TABLE: OnceLock<Vec<u16>> = OnceLock::new();
    TABLE.get_or_init(|| {
        let mut table: Vec<u16> = (0..32_768u32).map(|r| !r as u16).collect();
        assert_eq!(face::fill_labels(&mut table), 0);
        table
    })
}

fn filled(wrong: &mut bool) {
    let mut s = Section::new("labels filled, every entry by the Rust's encoder and by parities; refusal 4, untouched tables");
    let (theirs, by_words) = (inputs::labels(&code()), inputs::labels_by(GENERATORS));
    for r in 0..32_768 {
        s.pair(table()[r] as u64, theirs[r] as u64, || format!("entry {r}"));
        s.pair(table()[r] as u64, by_words[r] as u64, || format!("entry {r}, by parities"));
    }
    let mut d = Dice(111);
    for length in [0, 1, 2, 16_384, 32_766, 32_767, 32_769, 65_535, 65_536].into_iter().chain((0..300).map(|_| d.below(70_000) as usize)) {
        let mut ours: Vec<u16> = (0..length).map(|i| i as u16 ^ 0xA5A5).collect();
        let k = face::fill_labels(&mut ours);
        let want = if length == 32_768 { 0 } else { REFUSED + 4 };
        s.pair(told(k), want, || format!("length {length}"));
        let changed = ours.iter().enumerate().filter(|&(i, &x)| x != if want == 0 { theirs[i] } else { i as u16 ^ 0xA5A5 }).count();
        s.pair(changed as u64, 0, || format!("length {length}"));
    }
    s.end(wrong);
}

/// A call with terms of 0.5 and a table that is off: 16, and nothing written.
struct Refused {
    terms: Vec<f32>,
    ours: Header,
}

impl Refused {
    fn new() -> Self {
        Refused { terms: vec![0.5; 260 * 48], ours: lent(Header::lengths(48)) }
    }
    fn by_sixteen(&mut self, s: &mut Section, labels: &[u16], input: &dyn Fn() -> String) {
        s.pair(told(self.ours.read_with(1, 2, &self.terms, labels)), REFUSED + 16, input);
        let written = other(&self.ours, PATTERN, WORD) + (places(&self.ours) != places(&lent([0; 4]))) as u64;
        s.pair(written, 0, input);
        if written != 0 {
            // so that it is told of this call alone
            self.ours = lent(Header::lengths(48));
        }
    }
}

/// Each of the 32,768 entries with four other values: with one of its five bits turned, with one above them, and twice any other.
fn one_entry_off(wrong: &mut bool) {
    let mut s = Section::new("header read with a table, one entry off, four ways at every place, all refused by 16");
    let (mut labels, mut call, mut d) = (table().to_vec(), Refused::new(), Dice(112));
    for r in 0..32_768 {
        let right = labels[r];
        let any = |d: &mut Dice| right.wrapping_add(1 + d.below(65_535) as u16);
        for value in [right ^ 1 << (r % 5), right ^ 0x20 << (r % 11), any(&mut d), any(&mut d)] {
            assert_ne!(value, right);
            labels[r] = value;
            call.by_sixteen(&mut s, &labels, &|| format!("entry {r} is {value}, not {right}"));
        }
        labels[r] = right;
    }
    s.pair(told(call.ours.read_with(1, 2, &call.terms, &labels)), 0, || "the table with nothing off".into());
    s.end(wrong);
}

/// Tables that are linear too, or near to the right one in another way.
fn other_rules(wrong: &mut bool) {
    let mut s = Section::new("header read with a table of another rule, refused by 16");
    let mut call = Refused::new();
    for i in 0..5 {
        for bit in 0..15 {
            let mut gens = GENERATORS;
            gens[i] ^= 1 << bit;
            call.by_sixteen(&mut s, &inputs::labels_by(gens), &|| format!("bit {bit} of generator {i}"));
        }
        for k in 0..i {
            let mut gens = GENERATORS;
            gens.swap(i, k);
            call.by_sixteen(&mut s, &inputs::labels_by(gens), &|| format!("generators {i} and {k} exchanged"));
        }
    }
    let right = table();
    let by = |f: &dyn Fn(usize) -> u16| (0..32_768).map(f).collect::<Vec<u16>>();
    let others: [(&str, Vec<u16>); 12] = [
        ("the oldest bit lowest", by(&|r| right[(r as u16).reverse_bits() as usize >> 1])),
        ("read at r xor 1", by(&|r| right[r ^ 1])),
        ("one place further", by(&|r| right[(r + 1) % 32_768])),
        ("both halves exchanged", by(&|r| right[r ^ 16_384])),
        ("twice the lower half", by(&|r| right[r % 16_384])),
        ("the lowest bit highest", by(&|r| (right[r] as u8).reverse_bits() as u16 >> 3)),
        ("twice as large", by(&|r| 2 * right[r])),
        ("256 more", by(&|r| right[r] + 256)),
        ("in the upper byte", by(&|r| right[r] << 8)),
        ("all zeros", vec![0; 32_768]),
        ("all ones", vec![0xFFFF; 32_768]),
        ("registers", by(&|r| r as u16)),
    ];
    for (name, labels) in &others {
        call.by_sixteen(&mut s, labels, &|| name.to_string());
    }
    s.end(wrong);
}

/// The first number that the papers' order gives, worked out here from their table; a refusal leaves every bit of every area and of the five places.
fn refused(s: &mut Section, mode: u8, kind: u8, terms: &[f32], labels: &[u16], lengths: [usize; 4]) {
    let n = if kind == 1 { 64 } else { 48 };
    let want = if mode > 1 || kind > 2 {
        REFUSED + 1
    } else if terms.len() != 260 * n || lengths != [16_384, 16_384, 16_384, 256 * n] || labels.len() != 32_768 {
        REFUSED + 4
    } else if labels != table() {
        REFUSED + 16
    } else if terms.iter().any(|t| !(t.abs() <= 1e6)) {
        REFUSED + 6
    } else {
        0
    };
    let (mut ours, before) = (lent(lengths), labels.to_vec());
    let k = ours.read_with(mode, kind, terms, labels);
    let off = labels.len() == 32_768 && labels != table();
    let input = || format!("mode {mode} kind {kind} terms {} labels {}, off {off}, areas {lengths:?}", terms.len(), labels.len());
    s.pair(told(k), want, input);
    s.pair(if want == 0 { other(&ours, 0, 0) } else { other(&ours, PATTERN, WORD) }, 0, input);
    s.pair((before != labels) as u64, 0, input);
    if want != 0 {
        places(&ours).into_iter().zip(places(&lent([0; 4]))).for_each(|(now, was)| s.pair(now, was, input));
    }
}

fn refusals(wrong: &mut bool) {
    let mut s = Section::new("header read with a table, refusals 1, 4, 16, 6, untouched areas and places");
    let mut off = table().to_vec();
    off[32_767] ^= 16;
    let tables: [&[u16]; 7] = [table(), &off, &table()[..32_767], &[&off[..], &[0]].concat(), &[], &table()[..16_384], &off[1..]];
    for mode in 0..=3u8 {
        for kind in 0..=3u8 {
            let n = if kind == 1 { 64 } else { 48 };
            let right = [16_384, 16_384, 16_384, 256 * n];
            let mut t = vec![0.5f32; 260 * n];
            for labels in tables {
                for bad in [None, Some(f32::NAN), Some(1_000_000.06), Some(f32::NEG_INFINITY), Some(1e6)] {
                    for at in [0, 260 * n - 1] {
                        t[at] = bad.unwrap_or(0.5);
                        refused(&mut s, mode, kind, &t, labels, right);
                        refused(&mut s, mode, kind, &t[1..], labels, right);
                        for which in 0..4 {
                            let mut lengths = right;
                            lengths[which] -= 1;
                            refused(&mut s, mode, kind, &t, labels, lengths);
                        }
                        t[at] = 0.5;
                    }
                }
            }
        }
    }
    s.end(wrong);
}

pub fn all(wrong: &mut bool) {
    filled(wrong);
    one_entry_off(wrong);
    other_rules(wrong);
    refusals(wrong);
}

/// After every read: the table that was lent to all of them.
pub fn unchanged(wrong: &mut bool) {
    let mut s = Section::new("labels lent to every header above, unchanged");
    s.pair((table() != inputs::labels(&code())) as u64, 0, || "the table".into());
    s.end(wrong);
}
