// Slips: our writer and reader against the second ones of slip.rs, bytes, values and refusals, and what must not have changed.
use super::face;
use super::inputs::{Dice, lawful_slip, spoil_slip};
use super::slip::{Slip, read, read_before};
use super::{Section, told};

/// What a place holds before a call, on either side of a lent buffer too.
const UNTOUCHED: u8 = 0xA5;
/// What the eight places hold before a call: no slip's values.
const PLACES: Slip = Slip { mode: 9, kind: 9, word: 0xA5A5, outcome: 9, pass: 9, score: 0x7FA5_A5A5, start: 0xA5A5, segment: 0xA5A5 };

/// One slip written into a buffer of so many bytes between two others.
fn write(s: &mut Section, slip: &Slip, room: usize) {
    let input = || format!("{slip:x?} into {room} bytes");
    let mut around = vec![UNTOUCHED; room + 16];
    let theirs = slip.written(room);
    let k = face::write_slip(slip, &mut around[8..8 + room]);
    s.pair(told(k), told(theirs.as_ref().err().copied().unwrap_or(0)), input);
    // what is no Likely is written, or refused, as before there was one
    if slip.outcome != 3 && room == 44 {
        s.pair((k == 0) as u64, slip.was_lawful() as u64, input);
    }
    let mut whole = vec![UNTOUCHED; room + 16];
    if let Ok(bytes) = theirs {
        whole[8..52].copy_from_slice(&bytes);
    }
    s.pair((0..room + 16).filter(|&i| around[i] != whole[i]).count() as u64, 0, input);
}

/// One string read: the number, and the eight places; and by #103's reader, but for an outcome byte of 3.
fn string(s: &mut Section, bytes: &[u8]) {
    let (mut ours, theirs) = (PLACES, read(bytes));
    let k = face::read_slip(bytes, &mut ours);
    let input = || format!("{bytes:02x?}");
    s.pair(told(k), told(theirs.err().unwrap_or(0)), input);
    s.pair((ours != theirs.unwrap_or(PLACES)) as u64, 0, input);
    if bytes.get(22) != Some(&3) {
        s.pair((ours != read_before(bytes).unwrap_or(PLACES)) as u64, 0, input);
    }
}

/// One to three values that a slip does not hold, or not with the others.
fn spoilt(d: &mut Dice) -> Slip {
    let mut slip = lawful_slip(d);
    spoil_slip(d, &mut slip);
    slip
}

fn writing(wrong: &mut bool) {
    let mut d = Dice(103);
    let mut s = Section::new("slips written, lawful ones, and read back");
    for _ in 0..100_000 {
        let slip = lawful_slip(&mut d);
        assert!(slip.is_lawful());
        write(&mut s, &slip, 44);
        let bytes = slip.written(44).unwrap();
        string(&mut s, &bytes);
        s.pair((read(&bytes) != Ok(slip)) as u64, 0, || format!("{slip:x?}"));
    }
    s.end(wrong);
    let mut s = Section::new("slips refused by the writer: values, and buffers of every length to 100");
    for i in 0..100_000 {
        write(&mut s, &spoilt(&mut d), if i % 4 == 0 { d.below(101) as usize } else { 44 });
    }
    for room in 0..=100 {
        write(&mut s, &lawful_slip(&mut d), room);
        write(&mut s, &spoilt(&mut d), room);
    }
    s.end(wrong);
    let mut s = Section::new("slips, every mode, kind, outcome and pass byte, written and read");
    let base = Slip { mode: 0, kind: 1, word: 7, outcome: 1, pass: 0, score: 0x3F80_0000, start: 48_000, segment: 7 };
    for byte in 0..=255 {
        for slip in [Slip { mode: byte, ..base }, Slip { kind: byte, ..base }] {
            write(&mut s, &slip, 44);
            string(&mut s, &raw(&slip));
        }
        for pass in 0..=255 {
            let slip = Slip { outcome: byte, pass, ..base };
            write(&mut s, &slip, 44);
            string(&mut s, &raw(&slip));
        }
    }
    s.end(wrong);
    let mut s = Section::new("slips, scores: every upper half of a pattern with five lower ones, written and read");
    for upper in 0..=0xFFFFu32 {
        for lower in [0, 1, 0x7FFF, 0x8000, 0xFFFF] {
            let slip = Slip { score: upper << 16 | lower, ..base };
            write(&mut s, &slip, 44);
            string(&mut s, &raw(&slip));
        }
    }
    s.end(wrong);
}

/// The bytes of any values, lawful or not, at a slip's places.
fn raw(s: &Slip) -> Vec<u8> {
    let lawful = Slip { mode: 0, kind: 1, word: s.word, outcome: 1, pass: 0, score: 0, start: s.start, segment: s.segment };
    let mut bytes = lawful.written(44).unwrap();
    (bytes[3], bytes[7], bytes[22], bytes[23]) = (s.mode, s.kind, s.outcome, s.pass);
    bytes[24..28].copy_from_slice(&s.score.to_be_bytes());
    bytes
}

fn reading(wrong: &mut bool) {
    let mut d = Dice(1103);
    let mut s = Section::new("the sample: R0, HeaderOnly, Kept 1.0 and Likely 9.0 in pass 2, start 48,000, segment 7");
    let sample = Slip { mode: 0, kind: 0, word: 0xC0_0000_0000, outcome: 1, pass: 0, score: 0x3F80_0000, start: 48_000, segment: 7 };
    let spelt = "0100010002000100030008000000c00000000004000601003f800000050008000000000000bb800600020007";
    let bytes: Vec<u8> = (0..44).map(|i| u8::from_str_radix(&spelt[2 * i..2 * i + 2], 16).unwrap()).collect();
    write(&mut s, &sample, 44);
    string(&mut s, &bytes);
    s.pair((read(&bytes) != Ok(sample)) as u64, 0, || spelt.into());
    // the same of a Likely, out in pass 2 with a score of 9
    let likely = Slip { outcome: 3, pass: 2, score: 0x4110_0000, ..sample };
    let spelt = "0100010002000100030008000000c000000000040006030241100000050008000000000000bb800600020007";
    let bytes: Vec<u8> = (0..44).map(|i| u8::from_str_radix(&spelt[2 * i..2 * i + 2], 16).unwrap()).collect();
    write(&mut s, &likely, 44);
    string(&mut s, &bytes);
    s.pair((read(&bytes) != Ok(likely)) as u64, 0, || spelt.into());
    s.pair((read_before(&bytes) != Err(13)) as u64, 0, || spelt.into());
    s.end(wrong);
    let mut s = Section::new("strings of every length to 100: slips cut off, gone on, and anything else");
    for length in 0..=100 {
        for i in 0..200 {
            let mut bytes = lawful_slip(&mut d).written(44).unwrap();
            bytes.resize_with(length, || if i % 2 == 0 { 0 } else { d.word() as u8 });
            if i % 10 == 9 {
                bytes.fill_with(|| d.word() as u8);
            }
            string(&mut s, &bytes);
        }
    }
    s.end(wrong);
    let mut s = Section::new("every single-byte damage of 1,000 slips");
    for _ in 0..1000 {
        let mut bytes = lawful_slip(&mut d).written(44).unwrap();
        for at in 0..44 {
            let own = bytes[at];
            for other in (0..=255).filter(|&b| b != own) {
                bytes[at] = other;
                string(&mut s, &bytes);
            }
            bytes[at] = own;
        }
    }
    s.end(wrong);
    let mut s = Section::new("fields exchanged, repeated, left out, and lengths that lie");
    for _ in 0..2000 {
        let bytes = lawful_slip(&mut d).written(44).unwrap();
        let cuts = [0, 4, 8, 19, 28, 39, 44];
        let part = |i: usize| &bytes[cuts[i]..cuts[i + 1]];
        let mut order: Vec<usize> = (0..6).collect();
        match d.below(4) {
            0 => order.swap(d.below(6) as usize, d.below(6) as usize),
            1 => order.insert(d.below(7) as usize, d.below(6) as usize),
            2 => drop(order.remove(d.below(6) as usize)),
            _ => (),
        }
        let mut string_of: Vec<u8> = order.iter().flat_map(|&i| part(i)).copied().collect();
        if d.below(2) == 0 {
            let at = cuts[d.below(6) as usize] + 1 + d.below(2) as usize;
            if at < string_of.len() {
                string_of[at] = string_of[at].wrapping_add(d.of(&[0, 1, 255, 2]));
            }
        }
        string(&mut s, &string_of);
    }
    s.end(wrong);
}

pub fn all(wrong: &mut bool) {
    writing(wrong);
    reading(wrong);
}
