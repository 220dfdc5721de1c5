// Slips put on a segment board, against the second board of board.rs: the count and every byte of board and slip after every put.
use crate::board::Board;
use crate::check::Check;
use crate::face;
use crate::inputs::{Dice, SEGMENTS, board_of, break_board, damage_slip, left_over, segment_near, segments, slip_for};
use crate::jobs::{Job, Oracle};
use std::cmp::Ordering;

/// One put by both, ours over the bytes and the count lent.
fn put(c: &mut Check, bytes: &mut [u8], count: &mut u32, second: &mut Board, mut slip: Vec<u8>) {
    let (was, string) = (second.clone(), slip.clone());
    let theirs = second.put(&slip);
    c.one("number", &mut face::put_slip(bytes, count, &slip), theirs);
    c.one("count", count, second.count);
    c.list("the board", bytes, &second.bytes);
    c.list("the slip", &mut slip, &string);
    // a slip's start and segment
    let (start, segment) = (31..39, 42..44);
    let listed = was.bytes.chunks(44).take(was.count as usize).find(|place| theirs == 0 && place[segment.clone()] == string[segment.clone()]);
    match (theirs, listed.map(|place| string[start.clone()].cmp(&place[start]))) {
        (0, None) => c.answered(0),
        (0, Some(by_start)) => match (second.bytes != was.bytes, by_start) {
            (true, Ordering::Less) => c.answered(3),
            (false, Ordering::Greater) => c.answered(4),
            (true, _) => c.answered(1),
            (false, _) => c.answered(2),
        },
        (k, _) => c.refused(k),
    }
    c.input(|| format!("{string:02x?} on a board of {} bytes with a count of {}", was.bytes.len(), was.count));
}

/// One put on a board of its own.
fn alone(c: &mut Check, bytes: Vec<u8>, count: u32, slip: Vec<u8>) {
    put(c, &mut bytes.clone(), &mut count.clone(), &mut Board { bytes, count }, slip)
}

/// A series from an empty board: few segments and few starts, one string in eight damaged.
fn random(_: &Oracle, d: &mut Dice, _: u64, c: &mut Check) {
    let mut second = Board { bytes: left_over(d), count: 0 };
    let (mut bytes, mut count, few) = (second.bytes.clone(), 0, 1 + d.below(9) as usize);
    for i in 0..48 {
        let segment = d.of(&SEGMENTS[..few]);
        let mut slip = slip_for(d, segment);
        if d.below(8) == 0 {
            damage_slip(d, i, &mut slip);
        }
        put(c, &mut bytes, &mut count, &mut second, slip);
        if c.bad.is_some() {
            return;
        }
    }
}

/// The board broken, of another length, the slip damaged, or two or three of these.
fn damaged(_: &Oracle, d: &mut Dice, i: u64, c: &mut Check) {
    let n = d.of(&[0, 1, 2, 8, 60, 511, 512]);
    let listed = segments(d, n);
    let (mut bytes, mut count, segment) = (board_of(d, &listed), n as u32, segment_near(d, &listed));
    let mut slip = slip_for(d, segment);
    if i % 4 > 0 {
        break_board(d, &mut bytes, &mut count);
    }
    if i % 4 == 0 || d.below(8) == 0 {
        damage_slip(d, i / 4, &mut slip);
    }
    if d.below(8) == 0 {
        let length = d.of(&[0, 44, 22_484, 22_527, 22_529, 22_572, 45_056]);
        bytes.resize_with(length, || d.word() as u8);
    }
    alone(c, bytes, count, slip)
}

/// 511 or 512 listed, and a slip for one of them or for another segment.
fn full(_: &Oracle, d: &mut Dice, i: u64, c: &mut Check) {
    let n = 512 - (i % 2) as usize;
    let listed = segments(d, n);
    let (bytes, segment) = (board_of(d, &listed), segment_near(d, &listed));
    alone(c, bytes, n as u32, slip_for(d, segment))
}

pub fn jobs() -> Vec<Job> {
    let job = |source, inputs, numbers, cost, one| {
        let kinds = &["listed", "replaced", "remained", "replaced by an earlier", "remained before a later"];
        Job { entry: "slip put", source, inputs, kinds, numbers, cost, one }
    };
    vec![
        job("random", 10_000, &[13], 0.8, random),
        job("damaged", 60_000, &[4, 13, 14], 0.35, damaged),
        job("full", 50_000, &[14], 0.65, full),
    ]
}
