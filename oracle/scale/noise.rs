// Local noise factors against the Rust's `local_noise`: every factor by its bits, and of a refusal every place as it was.
use crate::check::Check;
use crate::face::Noise;
use crate::inputs::{Dice, dirty};
use crate::jobs::{Job, Oracle};
use crate::noisy::{MOST, ROW, STYLES, Theirs, damage, drawn, in_use, number, resized};

/// One call with `room` factors lent, which hold other bits before it.
fn factors(c: &mut Check, d: &mut Dice, mut b: Noise, room: usize) {
    let (before, want) = (b.clone(), number(&b, room));
    let mut lent = dirty(room, || d.word());
    let was = lent.clone();
    c.one("number", &mut b.factors(&mut lent), want);
    if want == 0 {
        let theirs = Theirs::new(&before).factors();
        c.list("factors", &mut lent, &theirs);
        // of ours, whatever the Rust says
        let mut low = lent.iter().filter(|x| !(x.is_finite() && **x >= 1.0)).count();
        c.one("factors that are not finite or below 1", &mut low, 0);
        let mut beyond: Vec<f32> = lent.chunks(ROW).flat_map(|row| &row[in_use(before.mode)..]).copied().collect();
        c.all("factors beyond the bins in use", &mut beyond, 1.0);
        c.answered(if theirs.is_empty() { 2 } else { theirs.iter().all(|x| *x == 1.0) as usize });
    } else {
        c.list("the factors' places", &mut lent, &was);
        c.refused(want);
    }
    c.list("the energies", &mut b.energies, &before.energies);
    c.list("the noise", &mut b.noise, &before.noise);
    let Noise { mode, kind, rows, energies, noise, eps, r } = &before;
    let (e, n) = (&energies[..energies.len().min(6)], &noise[..noise.len().min(6)]);
    c.input(|| format!("mode {mode} kind {kind} rows {rows} eps {eps} r {r}, {} energies {e:?}.., {} noises {n:?}.., {room} factors", energies.len(), noise.len()));
}

fn any(d: &mut Dice, i: u64, rows: u32) -> Noise {
    let (mode, kind) = (d.below(2) as u8, d.below(3) as u8);
    drawn(d, i as usize % STYLES.len(), mode, kind, rows)
}

/// Some windows long, about both ends of a window, or none.
fn random(_: &Oracle, d: &mut Dice, i: u64, c: &mut Check) {
    let few = d.below(61) as u32;
    let rows = if i % 4 == 0 { d.of(&[0, 1, 5, 6, 12, 13, 25, 26]) } else { few };
    let b = any(d, i, rows);
    factors(c, d, b, ROW * rows as usize)
}

/// The most rows, one less, or any number.
fn long(_: &Oracle, d: &mut Dice, i: u64, c: &mut Check) {
    let more = 61 + d.below(MOST as u64 - 61) as u32;
    let rows = d.of(&[MOST, MOST - 1, more, more]);
    let b = any(d, i, rows);
    factors(c, d, b, ROW * rows as usize)
}

/// One to three damages: names, rows, three lengths, values out of range; one in 500 about the most rows, with buffers of that size, and often
/// nothing else.
fn damaged(_: &Oracle, d: &mut Dice, i: u64, c: &mut Check) {
    let rows = d.of(&[0, 1, 2, 6, 13, 26]);
    let (mut b, mut room) = (any(d, i, rows), ROW * rows as usize);
    let about = i % 500 == 0;
    if about {
        resized(&mut b, &mut room, d.of(&[MOST, MOST + 1, 2 * MOST]));
    }
    for _ in about as u64..1 + d.below(3) {
        damage(d, &mut b, &mut room);
    }
    factors(c, d, b, room)
}

pub fn jobs() -> Vec<Job> {
    let job = |source, inputs, numbers, cost, one| {
        let kinds = &["some above 1", "all 1", "0 rows"];
        Job { entry: "local noise", source, inputs, kinds, numbers, cost, one }
    };
    vec![
        job("random", 100_000, &[], 0.2, random),
        job("long", 1_000, &[], 10.0, long),
        job("damaged", 100_000, &[1, 4, 15], 0.1, damaged),
    ]
}
