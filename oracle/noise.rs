// Local noise factors: the entry against the Rust's `local_noise`, bit for bit; what must hold of any factors, and where a raised row is seen,
// apart from the Rust; refusals against document 02's table; and what must not have changed.
use super::face::Noise;
use super::inputs::{Dice, dirty};
use super::noisy::{ENERGY, EPS, MOST, NOISE, R, ROW, STYLES, Theirs, WRAPPED, damage, drawn, in_use, near, number, resized};
use super::{Section, told};

/// Floats on either side of the factors that are lent.
const GUARD: usize = 64;

fn patterns(list: &[f32]) -> Vec<u32> {
    list.iter().map(|x| x.to_bits()).collect()
}

fn say(b: &Noise, room: usize) -> String {
    let Noise { mode, kind, rows, energies, noise, eps, r } = b;
    format!("mode {mode} kind {kind} rows {rows} eps {eps} r {r}, {} energies, {} noises, {room} factors", energies.len(), noise.len())
}

/// One call by both, over factors that hold other bits before it: the number, then each factor, or each place as it was; and that
/// energies, noise and what lies around the factors are as they were. Returns the number and the factors.
fn call(s: &mut Section, d: &mut Dice, b: &Noise, room: usize) -> (u32, Vec<f32>) {
    let want = number(b, room);
    let mut lent = dirty(room + 2 * GUARD, || d.word());
    let (before, energies, noise) = (patterns(&lent), patterns(&b.energies), patterns(&b.noise));
    let ours = b.factors(&mut lent[GUARD..GUARD + room]);
    s.pair(told(ours), told(want), || say(b, room));
    let mut expected = before;
    if want == 0 {
        expected[GUARD..GUARD + room].copy_from_slice(&patterns(&Theirs::new(b).factors()));
    }
    let place = |at: usize| match at.checked_sub(GUARD) {
        Some(at) if at < room => format!("row {} bin {}", at / ROW, at % ROW),
        _ => format!("{at} around the factors"),
    };
    for (at, (x, y)) in lent.iter().zip(&expected).enumerate() {
        s.pair(x.to_bits() as u64, *y as u64, || format!("{}, {}", place(at), say(b, room)));
    }
    let changed = patterns(&b.energies) != energies || patterns(&b.noise) != noise;
    s.pair(changed as u64, 0, || format!("what was read has changed, {}", say(b, room)));
    lent.drain(..GUARD);
    lent.truncate(room);
    (ours, lent)
}

/// One burst that is not refused, and what must hold of it whatever the Rust says. Returns how many factors lie above 1.
fn answered(s: &mut Section, d: &mut Dice, b: &Noise) -> u64 {
    let (number, factors) = call(s, d, b, ROW * b.rows as usize);
    s.pair(told(number), 0, || format!("refused, {}", say(b, factors.len())));
    let low = factors.iter().filter(|x| !(x.is_finite() && **x >= 1.0)).count();
    s.pair(low as u64, 0, || format!("not finite or below 1, {}", say(b, factors.len())));
    let beyond = factors.chunks(ROW).flat_map(|row| &row[in_use(b.mode)..]).filter(|x| x.to_bits() != 1f32.to_bits());
    s.pair(beyond.count() as u64, 0, || format!("not 1 beyond the bins in use, {}", say(b, factors.len())));
    factors.iter().filter(|x| **x > 1.0).count() as u64
}

/// Every number of rows about the window's, every mode and kind in every style; then long ones.
fn factors(wrong: &mut bool) {
    let mut d = Dice(108);
    for (style, name) in STYLES.iter().enumerate() {
        let name = format!("local noise, 0 to 60 rows, both modes, every kind: {name}").leak();
        let (mut s, mut above, mut all) = (Section::new(name), 0, 0);
        for rows in 0..=60 {
            for (mode, kind) in [(0, 0), (0, 1), (0, 2), (1, 0), (1, 1), (1, 2)] {
                let b = drawn(&mut d, style, mode, kind, rows);
                above += answered(&mut s, &mut d, &b);
                all += ROW as u64 * rows as u64;
            }
        }
        // one that has hardly any above 1, or hardly one at 1, would not tell a right implementation from a wrong one
        s.pair((above < all / 50 || above > all - all / 50) as u64, 0, || format!("{above} of {all} factors lie above 1"));
        s.end(wrong);
        println!("  {all} factors, {above} above 1");
    }
    let mut s = Section::new("local noise, 2,047 and 2,048 rows and any number, both modes, every kind and style");
    let (mut above, mut all) = (0, 0);
    for i in 0..54 {
        let (mode, kind, style) = ((i % 2) as u8, (i / 2 % 3) as u8, i / 6);
        let rows = [MOST, MOST - 1, 61 + d.below(1_987) as u32][(i / 2 + i / 6) % 3];
        let b = drawn(&mut d, style, mode, kind, rows);
        above += answered(&mut s, &mut d, &b);
        all += ROW as u64 * rows as u64;
    }
    s.end(wrong);
    println!("  {all} factors, {above} above 1");
}

/// Half the noise everywhere, and in every row two strong tones 24 bins apart, at places 5 and 29: of any 32 bins in a row, by which a symbol's
/// values lie, one of the two is among them, so the strongest is one of them, and no bin but those around them is ever missing.
fn quiet(mode: u8, kind: u8, rows: u32) -> Noise {
    let mut energies = vec![0.5; ROW * rows as usize];
    energies.chunks_mut(ROW).for_each(|row| (row[5], row[29]) = (1e6, 1e6));
    Noise { mode, kind, rows, energies, noise: vec![1.0; ROW], eps: 0.0, r: 1.0 }
}

/// One bin raised in one row: its factor is above 1 in the twelve rows before, in that row and in the twelve behind, where a window has six
/// rows at least; every other factor away from the tones is 1. So where each window starts and ends is seen, apart from the Rust.
fn windows(wrong: &mut bool) {
    let mut d = Dice(1108);
    let mut s = Section::new("local noise, one bin raised in one row: in which rows it is seen");
    for rows in [1i64, 2, 5, 6, 7, 11, 12, 13, 14, 18, 24, 25, 26, 27, 40, 63] {
        for at in 0..rows {
            for mode in 0..2 {
                let last = in_use(mode) - 1;
                let bin = [0, 1, 10, 20, 33, 34, last][(at % 7) as usize];
                let mut b = quiet(mode, (at % 3) as u8, rows as u32);
                b.energies[ROW * at as usize + bin] = 1e4;
                let (_, factors) = call(&mut s, &mut d, &b, ROW * rows as usize);
                for (i, row) in factors.chunks(ROW).enumerate() {
                    let i = i as i64;
                    let window = (i - 12).max(0)..=(i + 12).min(rows - 1);
                    let seen = window.contains(&at) && window.clone().count() >= 6;
                    let input = || format!("bin {bin} raised in row {at}, seen in row {i}, {}", say(&b, factors.len()));
                    s.pair((row[bin] > 1.0) as u64, seen as u64, input);
                    let others = (0..ROW).filter(|&x| x != bin && x.abs_diff(5) > 2 && x.abs_diff(29) > 2 && row[x].to_bits() != 1f32.to_bits());
                    s.pair(others.count() as u64, 0, || format!("other bins, {}", input()));
                }
            }
        }
    }
    s.end(wrong);
}

/// What the request is for: three bins a hundred times as loud for part of a burst, in noise with tones above both. In the part their factors
/// are large, away from it they are near 1 as every other bin's.
fn generator(wrong: &mut bool) {
    let mut d = Dice(2108);
    let mut s = Section::new("local noise, three bins raised for part of a burst: large there, small elsewhere");
    for i in 0..60u64 {
        let (mode, kind) = ((i % 2) as u8, (i / 2 % 3) as u8);
        let mut b = quiet(mode, kind, 200);
        let (from, to, first) = (40 + d.below(40) as usize, 100 + d.below(60) as usize, 9 + d.below(14) as usize);
        for (at, e) in b.energies.iter_mut().enumerate().filter(|(_, e)| **e < 1.0) {
            let on = (from..to).contains(&(at / ROW)) && (first..first + 3).contains(&(at % ROW));
            *e = -(1.0 - d.unit()).ln() as f32 * if on { 100.0 } else { 1.0 };
        }
        let (_, factors) = call(&mut s, &mut d, &b, ROW * 200);
        for (at, x) in factors.iter().enumerate() {
            let (row, bin) = (at / ROW, at % ROW);
            let input = || format!("bins {first}.. raised in rows {from} to {to}: row {row} bin {bin} has {x}, {}", say(&b, factors.len()));
            if bin.abs_diff(5) <= 2 || bin.abs_diff(29) <= 2 {
                continue; // of two tones the weaker is no missing one
            }
            if (first..first + 3).contains(&bin) && (from..to).contains(&row) {
                s.pair((*x > 15.0) as u64, 1, input);
            } else if !((first..first + 3).contains(&bin) && (from..to + 24).contains(&(row + 12))) {
                s.pair((*x < 2.5) as u64, 1, input);
            }
        }
    }
    s.end(wrong);
}

/// Every value near both ends of every range, in every bin of the first, a middle and the last row, those that R1 does not read too.
fn ranges(wrong: &mut bool) {
    let mut d = Dice(3108);
    let mut s = Section::new("local noise, values at and around both ends of every range, in every bin");
    for mode in 0..2 {
        for rows in [0u32, 1, 3, 26] {
            let good = drawn(&mut d, 0, mode, (rows % 3) as u8, rows);
            let room = ROW * rows as usize;
            for x in near(EPS) {
                call(&mut s, &mut d, &Noise { eps: x, ..good.clone() }, room);
            }
            for x in near(R) {
                call(&mut s, &mut d, &Noise { r: x, ..good.clone() }, room);
            }
            for bin in 0..ROW {
                for x in near(NOISE).into_iter().chain([0.0, -0.0]) {
                    let mut b = good.clone();
                    b.noise[bin] = x;
                    call(&mut s, &mut d, &b, room);
                }
                for x in near(ENERGY).into_iter().chain([-0.0]) {
                    for row in [0, rows / 2, rows.saturating_sub(1)].into_iter().take(rows as usize) {
                        let mut b = good.clone();
                        b.energies[ROW * row as usize + bin] = x;
                        call(&mut s, &mut d, &b, room);
                    }
                }
            }
        }
    }
    s.end(wrong);
}

/// Names, row counts, lengths and values, each good or bad, every one with every other: of several causes the first in the order 1, 4, 15.
fn causes_together(wrong: &mut bool) {
    let mut d = Dice(4108);
    let mut s = Section::new("local noise, causes met together: names, rows, lengths and values");
    for rows in [0u32, 1, 2, 13] {
        for (mode, kind) in [(0, 1), (1, 0), (2, 0), (0, 3), (255, 255), (1, 2)] {
            let good = drawn(&mut d, 3, mode.min(1), kind.min(2), rows);
            let n = ROW * rows as usize;
            let off = |n: usize| [n, n + 1, n.wrapping_sub(1), n + ROW].into_iter().filter(|x| *x < 1 << 20);
            for energies in off(n) {
                for noise in off(ROW) {
                    for room in off(n) {
                        for bad in 0..6 {
                            let mut b = Noise { mode, kind, ..good.clone() };
                            b.energies.resize(energies, 1.0);
                            b.noise.resize(noise, 1.0);
                            match bad {
                                1 => b.eps = f32::NAN,
                                2 => b.r = 0.5,
                                3 => b.noise[noise - 1] = 0.0,
                                4 => b.energies.iter_mut().rev().take(1).for_each(|e| *e = -1.0),
                                5 => b.rows += 1,
                                _ => (),
                            }
                            call(&mut s, &mut d, &b, room);
                        }
                    }
                }
            }
        }
    }
    s.end(wrong);
    let mut s = Section::new("local noise, 2,048 rows, 2,049 and more, with buffers of that size and of others");
    for rows in [MOST - 1, MOST, MOST + 1, MOST + 2, 2 * MOST] {
        // energies and factors more or fewer than go with the rows, and noises
        for (energies, factors, noise) in [(0, 0, 52), (1, 0, 52), (-1, 0, 52), (0, 1, 52), (0, -1, 52), (0, 0, 51), (0, 0, 53), (-52, -52, 52), (52, 52, 52)] {
            for (mode, kind, last) in [(0, 0, 1.0), (1, 1, 1.0), (2, 0, 1.0), (0, 3, 1.0), (1, 2, f32::INFINITY)] {
                let (mut b, mut room) = (Noise { mode, kind, ..drawn(&mut d, 4, 0, 0, 0) }, 0);
                resized(&mut b, &mut room, rows);
                b.energies.resize(room.saturating_add_signed(energies), 1.0);
                *b.energies.last_mut().unwrap() = last;
                b.noise.resize(noise, 1.0);
                call(&mut s, &mut d, &b, room.saturating_add_signed(factors));
            }
        }
    }
    for (rows, length) in WRAPPED.into_iter().chain([(u32::MAX, 0), (u32::MAX, 52)]) {
        let mut b = drawn(&mut d, 4, 1, 1, 0);
        b.rows = rows;
        b.energies.resize(length, 1.0);
        call(&mut s, &mut d, &b, length);
    }
    s.end(wrong);
}

/// One to three damages.
fn damaged(wrong: &mut bool) {
    let mut d = Dice(5108);
    let mut s = Section::new("local noise, inputs damaged in up to three ways");
    let mut met = [0u32; 16];
    for i in 0..20_000u64 {
        let rows = d.of(&[0, 1, 2, 6, 13, 26]);
        let (mode, kind) = (d.below(2) as u8, d.below(3) as u8);
        let mut b = drawn(&mut d, (i % 9) as usize, mode, kind, rows);
        let mut room = ROW * rows as usize;
        if i % 500 == 0 {
            let rows = d.of(&[MOST, MOST + 1]);
            resized(&mut b, &mut room, rows);
        }
        (0..d.below(4)).for_each(|_| damage(&mut d, &mut b, &mut room));
        met[call(&mut s, &mut d, &b, room).0 as usize % 16] += 1;
    }
    s.pair([0, 1, 4, 15].iter().filter(|&&k| met[k] < 100).count() as u64, 0, || format!("numbers hardly met: {met:?}"));
    s.end(wrong);
}

pub fn all(wrong: &mut bool) {
    factors(wrong);
    windows(wrong);
    generator(wrong);
    ranges(wrong);
    causes_together(wrong);
    damaged(wrong);
}
