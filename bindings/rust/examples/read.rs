//! Sends a header, reads it back from clean terms, reads two that hardly anything was heard of, and shows a refusal. From the repository's root:
//!   tools/build.sh ion
//!   cargo run --offline --manifest-path bindings/rust/Cargo.toml --target-dir target/rust --example read
use ion_proved::{Areas, Kind, Mode, Outcome, Refusal, TERMS, header_values, read_header};

/// SplitMix64, for the hop of a symbol (document 01, 'Modes and air order').
fn mix64(x: u64) -> u64 {
    let z = x.wrapping_add(0x9E37_79B9_7F4A_7C15);
    let z = (z ^ (z >> 30)).wrapping_mul(0xBF58_476D_1CE4_E5B9);
    let z = (z ^ (z >> 27)).wrapping_mul(0x94D0_49BB_1331_11EB);
    z ^ (z >> 31)
}

/// Where symbol s has the term of this value: row 2, at the place of the value's bin.
fn place(s: usize, value: u8) -> usize {
    let bin = (mix64(s as u64 ^ 0x4D46_534B_484F_5000) % 48 + u64::from(value)) % 48;
    TERMS * s + 104 + bin as usize + 2
}

fn main() -> Result<(), Refusal> {
    let (mode, kind, word) = (Mode::R0, Kind::Data, 0x0123_4567_89AB_CDEF_u64);
    let n = kind.header();
    let bits: Vec<u8> = (0..n).map(|j| (word >> j & 1) as u8).collect();
    let mut values = vec![0; n];
    header_values(mode, kind, &bits, &mut values)?;

    let mut terms = vec![0.0; n * TERMS];
    values.iter().enumerate().for_each(|(s, &value)| terms[place(s, value)] = 8.0);
    let mut areas = Areas::new();
    let header = read_header(mode, kind, &terms, &mut areas)?;
    println!("sent {word:016x}, read {:016x}, {:?}, ceiling {}", header.word, header.outcome, header.ceiling);
    assert_eq!((header.word, header.outcome), (word, Outcome::Sure { score: 8.0 * n as f32, pass: 1 }));
    assert_eq!(header.ceiling, 8.0 * n as f32);

    // ten values in as many slots and nothing else: out in the second pass, below the ceiling, so that it may be beaten: Likely
    let mut few = vec![0.0; 48 * TERMS];
    let values = [(5, 1), (19, 10), (16, 10), (10, 22), (41, 10), (21, 20), (26, 4), (3, 10), (34, 30), (17, 5)];
    values.into_iter().for_each(|(s, value)| few[place(s, value)] = 1.0);
    let header = read_header(mode, Kind::HeaderOnly, &few, &mut areas)?;
    println!("of ten values read {:012x}, {:?}, ceiling {}: no closed word scores above that", header.word, header.outcome, header.ceiling);
    assert_eq!((header.word, header.outcome, header.ceiling), (0x9D49_8A10_6EBE, Outcome::Likely { score: 9.0, pass: 2 }, 10.0));

    // one value of one slot: no pass closes, but a candidate reaches the ceiling, so that no closed word beats it: Sure, in the last pass run
    let mut one = vec![0.0; 48 * TERMS];
    one[place(14, 16)] = 1.0;
    let header = read_header(mode, Kind::HeaderOnly, &one, &mut areas)?;
    println!("of one value read {:012x}, {:?}, ceiling {}", header.word, header.outcome, header.ceiling);
    assert_eq!((header.word, header.outcome, header.ceiling), (0xC0_0000_0000, Outcome::Sure { score: 1.0, pass: 3 }, 1.0));

    terms[7] = 1e7;
    let refused = read_header(mode, kind, &terms, &mut areas).unwrap_err();
    println!("with a term of 1e7: {refused}");
    assert_eq!(refused, Refusal::Term);
    Ok(())
}
