//! Three headers of 64 that arrive together: labels filled in advance, once, and lent to three threads; each header is read by parity too,
//! and both ways agree. Then tables that are refused: one entry off, and too short. From the repository's root:
//!   tools/build.sh ion
//!   cargo run --offline --manifest-path bindings/rust/Cargo.toml --target-dir target/rust --example labels
use ion_proved::{Areas, Header, Kind, Labels, Mode, Outcome, Refusal, TERMS, header_values, read_header, read_header_with};
use std::thread;

const MODE: Mode = Mode::R0;
const KIND: Kind = Kind::Data;

/// SplitMix64, for the hop of a symbol (document 01, 'Modes and air order') and for the noise.
fn mix64(x: u64) -> u64 {
    let z = x.wrapping_add(0x9E37_79B9_7F4A_7C15);
    let z = (z ^ (z >> 30)).wrapping_mul(0xBF58_476D_1CE4_E5B9);
    let z = (z ^ (z >> 27)).wrapping_mul(0x94D0_49BB_1331_11EB);
    z ^ (z >> 31)
}

/// The terms of a header: whole numbers from -2 to 2, and 4 more at each sent value.
fn heard(word: u64, burst: u64) -> Result<Vec<f32>, Refusal> {
    let n = KIND.header();
    let bits: Vec<u8> = (0..n).map(|j| (word >> j & 1) as u8).collect();
    let mut values = vec![0; n];
    header_values(MODE, KIND, &bits, &mut values)?;
    let mut terms: Vec<f32> = (0..(n * TERMS) as u64).map(|i| (mix64(burst << 32 | i) % 5) as f32 - 2.0).collect();
    for (s, &value) in values.iter().enumerate() {
        let bin = (mix64(s as u64 ^ 0x4D46_534B_484F_5000) % 48 + u64::from(value)) % 48;
        terms[TERMS * s + 104 + bin as usize + 2] += 4.0;
    }
    Ok(terms)
}

fn main() -> Result<(), Refusal> {
    let sent = [0x0123_4567_89AB_CDEF, 0xFEDC_BA98_7654_3210, 0x00FF_00FF_1234_5678];
    let bursts = [heard(sent[0], 0)?, heard(sent[1], 1)?, heard(sent[2], 2)?];
    let labels = Labels::new();
    let read: Vec<Result<Header, Refusal>> = thread::scope(|s| {
        let readers = bursts.each_ref().map(|terms| s.spawn(|| read_header_with(MODE, KIND, terms, &labels, &mut Areas::new())));
        readers.into_iter().map(|r| r.join().expect("a reader ends")).collect()
    });
    let mut areas = Areas::new();
    for ((word, terms), with) in sent.into_iter().zip(&bursts).zip(read) {
        let with = with?;
        println!("sent {word:016x}, read {:016x}, {:?}, ceiling {}", with.word, with.outcome, with.ceiling);
        assert!(with.word == word && matches!(with.outcome, Outcome::Sure { .. }));
        assert_eq!(read_header(MODE, KIND, terms, &mut areas), Ok(with));
    }

    let mut table = labels.as_slice().to_vec();
    table[20_000] ^= 1;
    let short = Labels::from(table[..32_767].to_vec());
    for (what, labels, refusal) in [("one entry off", Labels::from(table), Refusal::Labels), ("a table of 32,767", short, Refusal::Length)] {
        let refused = read_header_with(MODE, KIND, &bursts[0], &labels, &mut areas).unwrap_err();
        println!("with {what}: {refused}");
        assert_eq!(refused, refusal);
    }
    Ok(())
}
