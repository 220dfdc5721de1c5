// Writes one burst file (docs/BURST-FORMAT.md) to standard output, and what was sent to standard error. Header and data
// are sent by the entries of libion.a, or by the Rust's functions.
#[allow(dead_code)] // only what sends
mod face;
mod inputs;
mod made;
mod slip;
use ion::phy_mfsk::hook::{air, windows};
use made::{How, KINDS, MODES, RUST, Sender, made_by, write, write_older};
use std::io::Write;

/// The list of so many places that an entry fills.
fn filled(places: usize, entry: impl FnOnce(&mut [u8]) -> u32) -> Vec<u8> {
    let mut list = vec![0; places];
    match entry(&mut list) {
        0 => list,
        k => panic!("what is to be sent was refused by {k}"),
    }
}

/// The proved entries. A tone carries five slots, the first one lowest, in Gray code.
const OURS: Sender = Sender {
    header: |mode, kind, bits| filled(bits.len(), |values| face::header_values(mode, kind, bits, values)),
    bits: |_, bits| {
        let slots = filled(5 * bits.len().div_ceil(5), |slots| face::interleave(bits, slots));
        slots.chunks(5).map(|c| air::gray_inv(c.iter().rev().fold(0, |v, &b| v << 1 | b as usize)) as u8).collect()
    },
    symbols: |_, symbols| filled(symbols.len(), |values| face::interleave_sym(symbols, values)),
};

const USE: &str = "make_burst [--seed N] [--mode 0|1] [--kind 0|1|2] [--layout K] [--form 0|1] [--window N] [--bits N]
           [--snr DB] [--doppler HZ] [--delay MS] [--carrier DB] [--blanked SHARE] [--damage WHAT] [--sender ours|rust]
           [--version 0|1]
mode 0 R0, 1 R1; kind 0 HeaderOnly, 1 Data, 2 Cue; layout 1 (the full band) to 8; form 0 bits, 1 symbols;
window one of the mode's three; version of the file, 1 or, in layout 1 only, 0;
snr over noise in 3,000 Hz; doppler 0: one steady path; carrier: on one bin, dB over the signal; blanked: 0 to 1;
damage: nan, large, cut, long, magic, version, mode, kind, form, zeros, window, bits, count, layout, older;
sender: ours (the proved library) or the Rust's functions; they differ in slots that no data bit reaches (docs/DIFFERENCES.md)";

fn stop(why: &str) -> ! {
    eprintln!("make_burst: {why}\n{USE}");
    std::process::exit(2)
}

fn number<T: std::str::FromStr>(name: &str, text: Option<String>) -> T {
    text.and_then(|t| t.parse().ok()).unwrap_or_else(|| stop(&format!("{name} needs a number")))
}

fn asked() -> (u64, How, Option<String>, Sender, u8) {
    let (mut seed, mut how, mut damage, mut sender, mut version) = (1, How::default(), None, OURS, 1);
    let mut args = std::env::args().skip(1);
    while let Some(name) = args.next() {
        let mut next = || args.next();
        match name.as_str() {
            "--seed" => seed = number(&name, next()),
            "--mode" => how.mode = number(&name, next()),
            "--kind" => how.kind = number(&name, next()),
            "--layout" => how.layout = number(&name, next()),
            "--version" => version = number(&name, next()),
            "--form" => how.symbols = number::<u8>(&name, next()) == 1,
            "--window" => how.window = number(&name, next()),
            "--bits" => how.bits = number(&name, next()),
            "--snr" => how.snr = number(&name, next()),
            "--doppler" => how.doppler = number(&name, next()),
            "--delay" => how.delay = number(&name, next()),
            "--carrier" => how.carrier = Some(number(&name, next())),
            "--blanked" => how.blanked = number(&name, next()),
            "--damage" => damage = next(),
            "--sender" => {
                sender = match next().as_deref() {
                    Some("ours") => OURS,
                    Some("rust") => RUST,
                    _ => stop("--sender needs 'ours' or 'rust'"),
                }
            }
            "--options" | "--help" | "-h" => {
                println!("{USE}");
                std::process::exit(0)
            }
            _ => stop(&format!("{name} is not known")),
        }
    }
    if how.mode > 1 || how.kind > 2 || !(1..=8).contains(&how.layout) || how.bits > 10_240 {
        stop("mode, kind, layout or bits out of range");
    }
    if version > 1 || version == 0 && how.layout != 1 {
        stop("the version is 1 or, in layout 1, 0");
    }
    for (name, x, most) in [
        ("--snr", how.snr.abs(), 200.0),
        ("--doppler", how.doppler, 100.0),
        ("--delay", how.delay, 100.0),
        ("--carrier", how.carrier.unwrap_or(0.0).abs(), 200.0),
        ("--blanked", how.blanked, 1.0),
    ] {
        if !(0.0..=most).contains(&x) {
            stop(&format!("{name} is out of range"));
        }
    }
    if how.window != 0 && !windows(MODES[how.mode as usize]).contains(&(how.window as usize)) {
        stop("the window is not one of the mode's");
    }
    (seed, how, damage, sender, version)
}

fn main() {
    let (seed, how, damage, sender, version) = asked();
    let b = made_by(&sender, seed, &how);
    let n = air::header_info_bits(KINDS[how.kind as usize]);
    eprintln!(
        "sent: header {:0w$x}, {n} bits with a good CRC in layout {}; {} data bits in {} symbols, window {}",
        b.word, b.layout, b.bits, b.blanked.len(), b.window, w = n / 4
    );
    if b.bits > 0 {
        let bits: String = b.sent.iter().take(60).map(|b| (b'0' + b) as char).collect();
        eprintln!("data: {bits}{}", if b.bits > 60 { ".." } else { "" });
    }
    let mut out = if version == 0 { write_older(&b) } else { write(&b) };
    if let Some(what) = damage {
        made::damage(&mut out, &what).unwrap_or_else(|why| stop(&why));
    }
    if std::io::stdout().write_all(&out).is_err() {
        std::process::exit(1);
    }
}
