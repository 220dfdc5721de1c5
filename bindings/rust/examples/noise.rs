//! Local noise factors: a burst in R1 of 70 data symbols, and a generator that raises three places from symbol 20 to 49. Their factors are
//! shown before, about and after it; every other factor is 1. Then inputs that are refused. From the repository's root:
//!   tools/build.sh ion
//!   cargo run --offline --manifest-path bindings/rust/Cargo.toml --target-dir target/rust --example noise
use ion_proved::{Kind, Mode, PLACES, Refusal, local_noise};

fn main() -> Result<(), Refusal> {
    // Where the output comes from: the noise is 1 everywhere, heard as 0.5, and the generator's three places have 8. R1 has as many bins as a
    // symbol has values, so the strongest tone is the greatest of places 2 to 33: here 100, at one of places 4 to 13, and places 2 to 15 are
    // missing by turns. The value in the middle of a row is 0.5, too little for a level above 1. A raised place, with 25 rows about it of
    // which k are raised, has (0.5·(25-k) + 8·k)/25 - 2/5: with 5 of them 2 - 0.4, with 13 4.4 - 0.4, with all of them 8 - 0.4.
    let row = |i: usize| {
        let mut row = [0.5; PLACES];
        row[4 + i % 10] = 100.0;
        if (20..50).contains(&i) {
            row[20..23].fill(8.0);
        }
        row
    };
    let mut energies: Vec<[f32; PLACES]> = (0..70).map(row).collect();
    let mut noise = [1.0; PLACES];
    let factors = local_noise(Mode::R1, Kind::Data, &energies, &noise, 0.0, 1.0)?;

    println!("row: places 19 to 23");
    let want = [(0, 1.0), (7, 1.0), (12, 1.6), (20, 4.0), (32, 7.6), (37, 7.6), (49, 4.0), (57, 1.6), (62, 1.0), (69, 1.0)];
    for (row, factor) in want {
        let shown: Vec<String> = factors[row][19..24].iter().map(|f| format!("{f:.1}")).collect();
        println!("{row:2}: {}", shown.join(" "));
        assert_eq!(factors[row][20..23], [factor; 3]);
    }
    let others = factors.iter().flat_map(|f| f[..20].iter().chain(&f[23..])).filter(|f| **f != 1.0).count();
    println!("other factors that are not 1: {others}");
    assert_eq!(others, 0);

    // no noise at place 7; no number at place 40, which R1 does not have; more of the places disturbed than half
    noise[7] = 0.0;
    let silent = local_noise(Mode::R1, Kind::Data, &energies, &noise, 0.0, 1.0);
    noise[7] = 1.0;
    let disturbed = local_noise(Mode::R1, Kind::Data, &energies, &noise, 0.6, 2.0);
    energies[0][40] = f32::NAN;
    let none = local_noise(Mode::R1, Kind::Data, &energies, &noise, 0.0, 1.0);
    assert_eq!([&silent, &disturbed, &none], [&Err(Refusal::Noise); 3]);
    println!("no noise, no number, eps of 0.6: {}", none.unwrap_err());
    Ok(())
}
