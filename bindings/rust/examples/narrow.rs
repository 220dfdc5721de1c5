//! A narrow channel: a header sent with its CRC in layout 7, read back, and its CRC tried in every layout; then how many blanked samples
//! erase a data symbol there. From the repository's root:
//!   tools/build.sh ion
//!   cargo run --offline --manifest-path bindings/rust/Cargo.toml --target-dir target/rust --example narrow
use ion_proved::{Areas, Form, Kind, Layout, Mode, Refusal, TERMS, crc, header_values, read_header, soft_values};

/// SplitMix64, for the hop of a symbol (document 01, 'Modes and air order').
fn mix64(x: u64) -> u64 {
    let z = x.wrapping_add(0x9E37_79B9_7F4A_7C15);
    let z = (z ^ (z >> 30)).wrapping_mul(0xBF58_476D_1CE4_E5B9);
    let z = (z ^ (z >> 27)).wrapping_mul(0x94D0_49BB_1331_11EB);
    z ^ (z >> 31)
}

const MODE: Mode = Mode::R1;
const KIND: Kind = Kind::HeaderOnly;
const WINDOW: u32 = 80;

/// The terms of symbol s heard with this value and nothing else: row 2, at the place of the value's bin.
fn heard(s: usize, value: u8) -> Vec<f32> {
    let mut terms = vec![0.0; TERMS];
    let bin = (mix64(s as u64 ^ 0x4D46_534B_484F_5000) % 32 + u64::from(value)) % 32;
    terms[2 * 52 + bin as usize + 2] = 8.0;
    terms
}

/// The 16 bits of a CRC, the first one highest.
fn spelt(crc: u16) -> impl Iterator<Item = u8> {
    (0..16).rev().map(move |j| (crc >> j & 1) as u8)
}

/// Whether one data symbol with so many blanked samples behind it is erased: then no value is above another.
fn is_erased(layout: Layout, blanked: u32) -> Result<bool, Refusal> {
    let soft = soft_values(MODE, KIND, layout, Form::Bits, WINDOW, 5, &heard(KIND.header(), 21), &[blanked])?;
    Ok(soft.metrics.iter().all(|&m| m == 0.0))
}

fn main() -> Result<(), Refusal> {
    let layout = Layout::new(7)?;
    // two fields of 16 bits, the first bit of each highest, and their CRC
    let mut bits: Vec<u8> = (0..32).rev().map(|j| (0x0123_4567_u32 >> j & 1) as u8).collect();
    bits.extend(spelt(crc(MODE, KIND, layout, &bits)?));

    // sent and read: neither asks for a layout
    let mut values = vec![0; bits.len()];
    header_values(MODE, KIND, &bits, &mut values)?;
    let terms: Vec<f32> = values.iter().enumerate().flat_map(|(s, &v)| heard(s, v)).collect();
    let header = read_header(MODE, KIND, &terms, &mut Areas::new())?;
    let read: Vec<u8> = (0..bits.len()).map(|j| (header.word >> j & 1) as u8).collect();
    assert_eq!(read, bits);

    let mut good = Vec::new();
    for k in Layout::all() {
        if spelt(crc(MODE, KIND, k, &read[..32])?).eq(read[32..].iter().copied()) {
            good.push(k);
        }
    }
    println!("read {:012x}, {:?}; CRC good in {good:?}", header.word, header.outcome);
    assert_eq!(good, [layout]);

    // half of the samples behind a symbol are kept, one more erases it
    for k in Layout::all() {
        let half = k.span() * WINDOW / 2;
        assert_eq!((is_erased(k, half)?, is_erased(k, half + 1)?), (false, true));
    }
    println!("a symbol of {WINDOW} is erased by {} blanked samples in the full band, by {} in layout {}",
        Layout::FULL.span() * WINDOW / 2 + 1, layout.span() * WINDOW / 2 + 1, layout.k());

    let refused = Layout::new(9).unwrap_err();
    println!("layout 9: {refused}");
    assert_eq!(refused.number(), 12);
    Ok(())
}
