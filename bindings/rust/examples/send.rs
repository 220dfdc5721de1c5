//! Sends data bits and code symbols, hears them without a fault, and reads both back. From the repository's root:
//!   tools/build.sh ion
//!   cargo run --offline --manifest-path bindings/rust/Cargo.toml --target-dir target/rust --example send
use ion_proved::{Form, Kind, Layout, Mode, Refusal, TERMS, interleave, interleave_sym, slots_of, soft_values};

/// SplitMix64, for the hop of a symbol (document 01, 'Modes and air order').
fn mix64(x: u64) -> u64 {
    let z = x.wrapping_add(0x9E37_79B9_7F4A_7C15);
    let z = (z ^ (z >> 30)).wrapping_mul(0xBF58_476D_1CE4_E5B9);
    let z = (z ^ (z >> 27)).wrapping_mul(0x94D0_49BB_1331_11EB);
    z ^ (z >> 31)
}

const KIND: Kind = Kind::Cue;

/// Terms of data symbols heard with these values and nothing else: row 2, at the place of each value's bin in R0.
fn heard(values: &[u8]) -> Vec<f32> {
    let mut terms = vec![0.0; values.len() * TERMS];
    for (i, &value) in values.iter().enumerate() {
        let symbol = (KIND.header() + i) as u64;
        let bin = (mix64(symbol ^ 0x4D46_534B_484F_5000) % 48 + u64::from(value)) % 48;
        terms[TERMS * i + 104 + bin as usize + 2] = 8.0;
    }
    terms
}

/// The inverse Gray code of five slots, the last one highest.
fn tone(slots: &[u8]) -> u8 {
    slots.iter().rev().fold(0, |v, s| v << 1 | (v & 1 ^ s))
}

/// Reads the data back: a soft bit above 0 is a 0.
fn read(form: Form, bits: usize, values: &[u8]) -> Result<Vec<u8>, Refusal> {
    let soft = soft_values(Mode::R0, KIND, Layout::FULL, form, 160, bits as u32, &heard(values), &vec![0; values.len()])?;
    Ok(soft.bits.iter().map(|&x| u8::from(x <= 0.0)).collect())
}

fn main() -> Result<(), Refusal> {
    let sent: Vec<u8> = b"the gate answers the shed".iter().flat_map(|c| (0..8).rev().map(move |k| c >> k & 1)).collect();

    let mut slots = vec![0; slots_of(sent.len())];
    interleave(&sent, &mut slots)?;
    let values: Vec<u8> = slots.chunks(5).map(tone).collect();
    let bits = read(Form::Bits, sent.len(), &values)?;
    let text: Vec<u8> = bits.chunks(8).map(|c| c.iter().fold(0, |v, b| v << 1 | b)).collect();
    println!("{} bits in {} symbols, read: {}", sent.len(), values.len(), String::from_utf8_lossy(&text));
    assert_eq!(bits, sent);

    // the same as code symbols, five bits to each, the first one highest
    let symbols: Vec<u8> = sent.chunks(5).map(|c| c.iter().fold(0, |v, b| v << 1 | b)).collect();
    let mut values = vec![0; symbols.len()];
    interleave_sym(&symbols, &mut values)?;
    assert_eq!(read(Form::Symbols, sent.len(), &values)?, sent);

    let refused = interleave_sym(&[32], &mut [0]).unwrap_err();
    println!("a symbol of 32: {refused}");
    assert_eq!(refused, Refusal::Value);
    Ok(())
}
