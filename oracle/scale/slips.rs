// Slips: the writer and the reader, against the second ones of slip.rs.
use crate::check::Check;
use crate::face;
use crate::inputs::{Dice, damage_slip, lawful_slip, spoil_slip};
use crate::jobs::{Job, Oracle};
use crate::slip::{Slip, read};

/// What a place holds before a call.
const BEFORE: u8 = 0xA5;
/// What the eight places hold before a call: no slip's values.
const PLACES: Slip = Slip { mode: 9, kind: 9, word: 0xA5A5, outcome: 9, pass: 9, score: 0x7FA5_A5A5, start: 0xA5A5, segment: 0xA5A5 };

fn write(c: &mut Check, slip: &Slip, room: usize) {
    let mut bytes = vec![BEFORE; room];
    let theirs = slip.written(room);
    c.one("number", &mut face::write_slip(slip, &mut bytes), theirs.as_ref().err().copied().unwrap_or(0));
    match theirs {
        Ok(theirs) => {
            c.list("bytes", &mut bytes, &theirs);
            c.answered(slip.outcome as usize);
        }
        Err(k) => {
            c.all("the buffer's bytes", &mut bytes, BEFORE);
            c.refused(k);
        }
    }
    c.input(|| format!("{slip:x?} into {room} bytes"));
}

fn string(c: &mut Check, bytes: &mut [u8]) {
    let (mut ours, theirs, before) = (PLACES, read(bytes), bytes.to_vec());
    c.one("number", &mut face::read_slip(bytes, &mut ours), theirs.err().unwrap_or(0));
    let want = theirs.unwrap_or(PLACES);
    c.one("mode", &mut ours.mode, want.mode);
    c.one("kind", &mut ours.kind, want.kind);
    c.one("word", &mut ours.word, want.word);
    c.one("outcome", &mut ours.outcome, want.outcome);
    c.one("pass", &mut ours.pass, want.pass);
    c.one("score", &mut ours.score, want.score);
    c.one("start", &mut ours.start, want.start);
    c.one("segment", &mut ours.segment, want.segment);
    c.list("the string", bytes, &before);
    match theirs {
        Ok(s) => c.answered(s.outcome as usize),
        Err(k) => c.refused(k),
    }
    c.input(|| format!("{before:02x?}"));
}

fn written_random(_: &Oracle, d: &mut Dice, _: u64, c: &mut Check) {
    write(c, &lawful_slip(d), 44)
}

fn written_damaged(_: &Oracle, d: &mut Dice, i: u64, c: &mut Check) {
    let mut slip = lawful_slip(d);
    let room = if i % 3 == 0 { d.of(&[0, 1, 43, 45, 88, 4096]) } else { 44 };
    if i % 3 > 0 || d.below(2) == 0 {
        spoil_slip(d, &mut slip);
    }
    write(c, &slip, room)
}

fn read_random(_: &Oracle, d: &mut Dice, _: u64, c: &mut Check) {
    string(c, &mut lawful_slip(d).written(44).unwrap())
}

fn read_damaged(_: &Oracle, d: &mut Dice, i: u64, c: &mut Check) {
    let mut bytes = lawful_slip(d).written(44).unwrap();
    damage_slip(d, i, &mut bytes);
    string(c, &mut bytes)
}

pub fn jobs() -> Vec<Job> {
    let job = |entry, source, inputs, numbers, one| Job { entry, source, inputs, kinds: &["Sure", "Kept", "Open", "Likely"], numbers, cost: 0.001, one };
    vec![
        job("slip written", "random", 500_000, &[], written_random),
        job("slip written", "damaged", 500_000, &[4, 13], written_damaged),
        job("slip read", "random", 500_000, &[], read_random),
        job("slip read", "damaged", 1_000_000, &[13], read_damaged),
    ]
}
