// A header sent: the entry against the Rust's `encode_tb` and `header_values`, and its refusals against document 01's table.
use super::inputs::bits_of;
use super::{KINDS, MODES, REFUSED, Section, face, told};
use ion::phy_mfsk::hook::{Fmt, air, code};

/// What a lent list holds before the call: no label, so that a slot left out shows.
const UNTOUCHED: u8 = 0xA5;

fn sent(mode: u8, kind: u8, bits: &[u8], values: &mut [u8]) -> u64 {
    told(face::header_values(mode, kind, bits, values))
}

/// One header in both modes, three pairs each: the answer, how many slots differ from `header_values`, how many steps from `encode_tb`.
fn header(s: &mut Section, code: &ion::fec::conv::ConvCode, k: usize, word: u64) {
    let kind = KINDS[k];
    let n = air::header_info_bits(kind);
    let bits = bits_of(word, n);
    let steps = code.encode_tb(&bits);
    for (m, mode) in MODES.into_iter().enumerate() {
        let mut values = vec![UNTOUCHED; n];
        let before = bits.clone();
        let input = || format!("mode {m} kind {k} word {word:#x}");
        s.pair(sent(m as u8, k as u8, &bits, &mut values), 0, input);
        assert_eq!(before, bits);
        let slots = air::header_values(mode, kind, &bits);
        let differ = (0..n).filter(|&i| values[i] as u16 != slots[i][0]).count() + (slots.len() != n) as usize;
        s.pair(differ as u64, 0, input);
        let differ = (0..n).filter(|&j| values[air::header_slot(Fmt::of(mode), kind, j)] as u16 != steps[j]).count();
        s.pair(differ as u64, 0, input);
    }
}

fn headers(wrong: &mut bool) {
    let code = code();
    let mut s = Section::new("header sent, weight 0, 1, 2 and all ones, every kind and mode");
    for k in 0..3 {
        let n = air::header_info_bits(KINDS[k]);
        for word in [0, u64::MAX] {
            header(&mut s, &code, k, word);
        }
        for i in 0..n {
            for j in i..n {
                header(&mut s, &code, k, 1 << i | 1 << j);
            }
        }
    }
    s.end(wrong);
    let mut s = Section::new("header sent, every register at the last step");
    for r in 0..1u64 << 15 {
        // header bit n - 1 is the register's lowest
        for k in 0..3 {
            let n = air::header_info_bits(KINDS[k]);
            header(&mut s, &code, k, r.reverse_bits() >> (64 - n));
        }
    }
    s.end(wrong);
    let mut s = Section::new("header sent, 100,000 random headers, every kind and mode");
    for i in 0..100_000u64 {
        for k in 0..3 {
            header(&mut s, &code, k, air::mix64(3 * i + k as u64));
        }
    }
    s.end(wrong);
}

/// The first number that the papers' order gives, worked out here from their table; a refusal leaves every byte.
fn refused(s: &mut Section, mode: u8, kind: u8, bits: &[u8], room: usize) {
    let n = if kind == 1 { 64 } else { 48 };
    let want = if mode > 1 || kind > 2 {
        REFUSED + 1
    } else if bits.len() != n || room != n {
        REFUSED + 4
    } else if bits.iter().any(|&b| b > 1) {
        REFUSED + 5
    } else {
        0
    };
    let before = bits.to_vec();
    let mut values = vec![UNTOUCHED; room];
    let input = || format!("mode {mode} kind {kind} bits {before:?} room {room}");
    s.pair(sent(mode, kind, bits, &mut values), want, input);
    let touched = values.iter().filter(|&&v| v != UNTOUCHED).count();
    s.pair(touched as u64, if want == 0 { n as u64 } else { 0 }, input);
    assert_eq!(before, bits);
}

fn refusals(wrong: &mut bool) {
    let mut s = Section::new("header sent, refusals 1, 4, 5 and untouched lists");
    for mode in 0..=3u8 {
        for kind in 0..=4u8 {
            let n = if kind == 1 { 64 } else { 48 };
            for len in 0..=2 * n {
                for room in 0..=2 * n {
                    let mut bits = vec![1u8; len];
                    refused(&mut s, mode, kind, &bits, room);
                    if len > 0 && (len + room) % 7 == 0 {
                        bits[room % len] = 2;
                        refused(&mut s, mode, kind, &bits, room);
                    }
                }
            }
            for at in 0..n {
                for byte in [2, 255] {
                    let mut bits = bits_of(air::mix64(at as u64), n);
                    bits[at] = byte;
                    refused(&mut s, mode, kind, &bits, n);
                    refused(&mut s, mode, kind, &bits, n - 1);
                }
            }
        }
    }
    for other in [2, 3, 128, 255] {
        refused(&mut s, other, 0, &[0; 48], 48);
        refused(&mut s, 0, other.max(3), &[2; 48], 47);
    }
    s.end(wrong);
}

pub fn all(wrong: &mut bool) {
    headers(wrong);
    refusals(wrong);
}
