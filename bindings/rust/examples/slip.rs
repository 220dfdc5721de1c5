//! A slip for the shed computer: a header is read, told with its start sample and segment in 44 bytes, and read back from them; then one
//! byte is damaged. From the repository's root:
//!   tools/build.sh ion
//!   cargo run --offline --manifest-path bindings/rust/Cargo.toml --target-dir target/rust --example slip
use ion_proved::{Areas, Kind, Mode, Outcome, Refusal, Slip, TERMS, read_header};

fn main() -> Result<(), Refusal> {
    let (mode, kind) = (Mode::R0, Kind::Cue);
    // all terms equal: word 0 closes in the first pass
    let header = read_header(mode, kind, &vec![0.0; kind.header() * TERMS], &mut Areas::new())?;
    // of the answer a slip has the word and the outcome, not the ceiling
    let slip = Slip { mode, kind, word: header.word, outcome: header.outcome, start: 48_000, segment: 7 };
    let bytes = slip.to_bytes()?;
    println!("slip {}", bytes.iter().map(|b| format!("{b:02x}")).collect::<String>());
    println!("read back: {:?}", Slip::from_bytes(&bytes)?);
    assert_eq!(Slip::from_bytes(&bytes), Ok(slip));

    // Sure in pass 4 and Likely in pass 1, which no slip holds; Likely in pass 2 is byte 3 with its pass
    for outcome in [Outcome::Sure { score: 0.0, pass: 4 }, Outcome::Likely { score: 0.0, pass: 1 }] {
        assert_eq!(Slip { outcome, ..slip }.to_bytes(), Err(Refusal::Slip));
    }
    let likely = Slip { outcome: Outcome::Likely { score: 0.0, pass: 2 }, ..slip };
    assert_eq!(likely.to_bytes()?[22..24], [3, 2]);
    assert_eq!(Slip::from_bytes(&likely.to_bytes()?), Ok(likely));
    // a byte too few; and every byte damaged in one bit: what is still a slip is another one, written as just these bytes
    assert_eq!(Slip::from_bytes(&bytes[..43]), Err(Refusal::Slip));
    let mut others = 0;
    for (i, bit) in (0..bytes.len()).flat_map(|i| (0..8).map(move |bit| (i, bit))) {
        let mut damaged = bytes;
        damaged[i] ^= 1 << bit;
        match Slip::from_bytes(&damaged) {
            Ok(other) => {
                assert_eq!(other.to_bytes()?, damaged);
                others += 1;
            }
            Err(why) => assert_eq!(why.number(), 13),
        }
    }
    println!("of {} one-bit damages {others} are other slips, {} are refused: {}", 8 * bytes.len(), 8 * bytes.len() - others, Refusal::Slip);
    Ok(())
}
