// Data sent: the sending halves of both interleavers against the Rust's `data_values` and `data_values_sym`, against a
// model written from document 02, and back through the receiving halves of both sides; their refusals against the
// papers' table.
use super::inputs::Dice;
use super::{MODES, REFUSED, Section, face, told};
use ion::phy_mfsk::hook::air;

unsafe extern "C" {
    fn probe_deinterleave(slots: *const f32, slots_len: usize, out: *mut f32, out_len: usize) -> u64;
    fn probe_deinterleave_sym(slots: *const f32, slots_len: usize, out: *mut f32, out_len: usize) -> u64;
}

/// What a lent list holds before the call: no bit and no value, so that a slot left out shows.
const UNTOUCHED: u8 = 0xA5;

fn bits_sent(bits: &[u8], slots: &mut [u8]) -> u64 {
    told(face::interleave(bits, slots))
}

fn symbols_sent(symbols: &[u8], values: &mut [u8]) -> u64 {
    told(face::interleave_sym(symbols, values))
}

/// n, the slots of so many bits.
fn slots_of(bits: usize) -> usize {
    5 * bits.div_ceil(5)
}

/// Document 02: bit p goes to slot (a·p) mod n with its scramble bit added modulo 2; slots that no bit reaches carry 0.
fn by_the_paper(bits: &[u8]) -> Vec<u8> {
    let n = slots_of(bits.len());
    let a = air::interleave_mult(n);
    let mut slots = vec![0; n];
    for (p, &bit) in bits.iter().enumerate() {
        slots[a * p % n] = (bit + air::scramble(p)) % 2;
    }
    slots
}

/// The Rust's slots, back from its tones: bit k of a tone's Gray code is slot k of its five.
fn by_the_rust(m: usize, bits: &[u8]) -> Vec<u8> {
    let tones = if bits.is_empty() { Vec::new() } else { air::data_values(MODES[m], bits) };
    tones.iter().flat_map(|v| (0..5).map(|k| (air::gray(v[0] as usize) >> k & 1) as u8)).collect()
}

/// Which slots some bit reaches.
fn reached(bits: usize) -> Vec<bool> {
    let n = slots_of(bits);
    let a = air::interleave_mult(n);
    let mut slots = vec![false; n];
    (0..bits).for_each(|p| slots[a * p % n] = true);
    slots
}

fn differing(ours: &[u8], theirs: &[u8], counts: impl Fn(usize) -> bool) -> u64 {
    ((ours.len() != theirs.len()) as usize + (0..ours.len().min(theirs.len())).filter(|&s| counts(s) && ours[s] != theirs[s]).count()) as u64
}

/// One message: the answer, all slots by the paper, and by the Rust all of them where it has no padding, else those
/// that a bit reaches.
fn message(s: &mut Section, m: usize, bits: &[u8]) {
    let input = || format!("mode {m} bits {bits:?}");
    let (mut slots, before) = (vec![UNTOUCHED; slots_of(bits.len())], bits.to_vec());
    s.pair(bits_sent(bits, &mut slots), 0, input);
    assert_eq!(before, bits);
    s.pair(differing(&slots, &by_the_paper(bits), |_| true), 0, input);
    let (whole, taken) = (bits.len() % 5 == 0, reached(bits.len()));
    s.pair(differing(&slots, &by_the_rust(m, bits), |i| whole || taken[i]), 0, input);
}

fn drawn(d: &mut Dice, n: usize, below: u64) -> Vec<u8> {
    (0..n).map(|_| d.below(below) as u8).collect()
}

fn bits(wrong: &mut bool) {
    let mut d = Dice(101);
    let mut s = Section::new("bits sent, every length to 70, both modes: by the paper, by the Rust on reached slots");
    for n in 0..=70 {
        for m in 0..2 {
            message(&mut s, m, &vec![0; n]);
            message(&mut s, m, &vec![1; n]);
            (0..8).for_each(|_| message(&mut s, m, &drawn(&mut d, n, 2)));
        }
    }
    s.end(wrong);
    let mut s = Section::new("bits sent, every multiple of 5 to 10,240, all slots by the Rust");
    for n in (0..=10_240).step_by(5) {
        message(&mut s, n / 5 % 2, &drawn(&mut d, n, 2));
    }
    s.end(wrong);
    let mut s = Section::new("bits sent, every other length to 10,240");
    for n in (0..=10_240).filter(|n| n % 5 > 0) {
        message(&mut s, n % 2, &drawn(&mut d, n, 2));
    }
    s.end(wrong);
    // the Rust pads before it scrambles (docs/DIFFERENCES.md): the smallest input, and how many lengths show it
    let mut s = Section::new("bits sent, padding: one bit 0, and the lengths 1 to 10,240 at which the Rust's is not 0");
    let mut one = [UNTOUCHED; 5];
    s.pair(bits_sent(&[0], &mut one), 0, || "one bit 0".into());
    s.pair(differing(&one, &[0, 0, 0, 0, 0], |_| true), 0, || "one bit 0, ours".into());
    s.pair(differing(&by_the_rust(0, &[0]), &[0, 0, 1, 1, 0], |_| true), 0, || "one bit 0, the Rust's".into());
    let shown = (1..=10_240).filter(|&n| (n..slots_of(n)).any(|p| air::scramble(p) == 1)).count();
    s.pair(shown as u64, 6_340, || "lengths at which a padding slot of the Rust's is not 0".into());
    s.end(wrong);
}

fn symbols(wrong: &mut bool) {
    let mut d = Dice(1101);
    let mut s = Section::new("symbols sent, every length to 2,048, by the Rust");
    for n in 0..=2048 {
        let symbols = match n % 7 {
            0 => vec![31; n],
            1 => vec![0; n],
            _ => drawn(&mut d, n, 32),
        };
        let input = || format!("symbols {symbols:?}");
        let (mut values, before) = (vec![UNTOUCHED; n], symbols.clone());
        s.pair(symbols_sent(&symbols, &mut values), 0, input);
        assert_eq!(before, symbols);
        let theirs: Vec<u8> = if n == 0 { Vec::new() } else { air::data_values_sym(MODES[n % 2], &symbols).iter().map(|v| v[0] as u8).collect() };
        s.pair(differing(&values, &theirs, |_| true), 0, input);
    }
    s.end(wrong);
}

/// +1 for 0 and -1 for 1.
fn signs(bits: &[u8]) -> Vec<f32> {
    bits.iter().map(|&b| if b == 0 { 1.0 } else { -1.0 }).collect()
}

fn unequal(ours: &[f32], theirs: &[f32]) -> u64 {
    ((ours.len() != theirs.len()) as usize + ours.iter().zip(theirs).filter(|(a, b)| a.to_bits() != b.to_bits()).count()) as u64
}

fn round_trips(wrong: &mut bool) {
    let mut d = Dice(2101);
    let mut s = Section::new("bits there and back through both receiving halves, sent by ours and by the Rust");
    let lengths: Vec<usize> = (0..=70).chain(10_230..=10_240).chain((0..400).map(|_| d.below(10_241) as usize)).collect();
    for n in lengths {
        let bits = drawn(&mut d, n, 2);
        let mut slots = vec![UNTOUCHED; slots_of(n)];
        let input = || format!("{n} bits");
        s.pair(bits_sent(&bits, &mut slots), 0, input);
        for sent in [&slots, &by_the_rust(n % 2, &bits)] {
            let heard = signs(sent);
            let mut out = vec![0.5f32; n];
            let k = unsafe { probe_deinterleave(heard.as_ptr(), heard.len(), out.as_mut_ptr(), n) };
            s.pair(k, 0, input);
            s.pair(unequal(&out, &signs(&bits)), 0, input);
            s.pair(unequal(&air::deinterleave(&heard, n), &signs(&bits)), 0, input);
        }
    }
    s.end(wrong);
    let mut s = Section::new("symbols there and back through both receiving halves: the sent value's metric");
    let lengths: Vec<usize> = (1..=70).chain([2_047, 2_048]).chain((0..100).map(|_| 1 + d.below(2_048) as usize)).collect();
    for n in lengths {
        let symbols = drawn(&mut d, n, 32);
        let mut values = vec![UNTOUCHED; n];
        let input = || format!("{n} symbols");
        s.pair(symbols_sent(&symbols, &mut values), 0, input);
        // every metric another number, so that one that lands elsewhere shows
        let metrics: Vec<f32> = (0..32 * n).map(|i| i as f32).collect();
        let mut ours = vec![-1f32; 32 * n];
        s.pair(unsafe { probe_deinterleave_sym(metrics.as_ptr(), metrics.len(), ours.as_mut_ptr(), ours.len()) }, 0, input);
        let a = air::interleave_mult(n);
        for back in [&ours, &air::deinterleave_sym(&metrics)] {
            let astray = (0..n).filter(|&p| back[32 * p + symbols[p] as usize] != metrics[32 * (a * p % n) + values[a * p % n] as usize]).count();
            s.pair(astray as u64, 0, input);
        }
    }
    s.end(wrong);
}

/// One call with a list of `room` places: the number by the papers' table, and every place untouched on a refusal, none
/// else.
fn refused(s: &mut Section, call: fn(&[u8], &mut [u8]) -> u64, input: &[u8], room: usize, want: u64) {
    let before = input.to_vec();
    let mut lent = vec![UNTOUCHED; room];
    let told = || format!("{} bytes, the first {:?}, {room} places", before.len(), before.first());
    s.pair(call(input, &mut lent), want, told);
    let touched = lent.iter().filter(|&&v| v != UNTOUCHED).count();
    s.pair(touched as u64, if want == 0 { room as u64 } else { 0 }, told);
    assert_eq!(before, input);
}

fn refusals(wrong: &mut bool) {
    let mut s = Section::new("bits and symbols sent, refusals 2, 4, 5, 11 and untouched lists");
    for n in [0usize, 1, 4, 5, 6, 7, 70, 2_047, 2_048, 2_049, 10_235, 10_239, 10_240, 10_241, 10_245, 20_000] {
        let exact = slots_of(n);
        for room in [exact, exact + 1, exact.saturating_sub(1), exact + 5, exact.saturating_sub(5), n, n + 1, n.saturating_sub(1), 0] {
            for byte in [0u8, 1, 2, 3, 30, 31, 32, 33, 128, 255] {
                for at in [0, n / 2, n.wrapping_sub(1)] {
                    let mut input = vec![1u8; n];
                    if at < n {
                        input[at] = byte;
                    }
                    let bad = |most: u8| input.iter().any(|&b| b > most);
                    let want = match () {
                        _ if n > 10_240 => REFUSED + 2,
                        _ if room != exact => REFUSED + 4,
                        _ if bad(1) => REFUSED + 5,
                        _ => 0,
                    };
                    refused(&mut s, bits_sent, &input, room, want);
                    let want = match () {
                        _ if n > 2_048 => REFUSED + 2,
                        _ if room != n => REFUSED + 4,
                        _ if bad(31) => REFUSED + 11,
                        _ => 0,
                    };
                    refused(&mut s, symbols_sent, &input, room, want);
                }
            }
        }
    }
    s.end(wrong);
}

pub fn all(wrong: &mut bool) {
    bits(wrong);
    symbols(wrong);
    round_trips(wrong);
    refusals(wrong);
}
