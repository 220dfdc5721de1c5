// Holds the program `burst` to the Rust over made bursts: what it prints, bit for bit, and that a damaged file gets one line on standard error,
// an empty standard output, and status 1 from `burst | grep .`; the file by standard input and by name; the usage; a full device. With a file and the words soft and metrics it prints what the Rust says of the file.
mod inputs;
mod made;
mod slip;
use ion::fec::conv::ConvCode;
use ion::phy_mfsk::hook::{air, blanked_frac, code, decode_terms_told, soft_terms, windows};
use inputs::{Dice, rows};
use slip::Slip;
use made::{Burst, DAMAGE, How, KINDS, MODES, made, write, write_older};
use std::fmt::Write as _;
use std::io::Write as _;
use std::process::{Command, Stdio};

/// Three places, half away from zero, and the pattern.
fn float(x: f32) -> String {
    let n = (x.abs() as f64 * 1000.0 + 0.5) as u64;
    format!("{}{}.{:03} ({:08x})", if x.is_sign_negative() { "-" } else { "" }, n / 1000, n % 1000, x.to_bits())
}

/// What the Rust reads: the word, whether its CRC is good, and the lines; the ceiling's by the copy of its loop to which make.sh adds the tops, the
/// slip's by slip.rs, for a start sample and a segment.
fn expected(c: &ConvCode, b: &Burst, soft: bool, metrics: bool, told: Option<(u64, u16)>) -> (u64, bool, String) {
    let (mode, kind) = (MODES[b.mode as usize], KINDS[b.kind as usize]);
    let (bits, score, copy) = decode_terms_told(c, mode, kind, &rows(&b.header_terms));
    let (outcome, pass) = copy.outcome(score);
    let word = bits.iter().rev().fold(0, |w, &b| w << 1 | b as u64);
    let n = bits.len() - 16;
    let good = air::crc16(&bits[..n], air::crc_start(b.layout as usize, mode, kind)) as u32 == air::read_bits(&bits[n..], 16);
    let blanked: Vec<f32> = b.blanked.iter().map(|&c| blanked_frac(c, b.window as usize, b.layout as usize)).collect();
    let out = soft_terms(mode, b.symbols, bits.len(), b.bits as usize, &rows(&b.data_terms), &blanked);
    let mut s = String::new();
    let reading = slip::reading(outcome, pass);
    writeln!(s, "header {word:0w$x}\noutcome {reading}\nscore {}\nceiling {}", float(score), float(copy.ceiling()), w = bits.len() / 4).unwrap();
    writeln!(s, "CRC {}", if good { "good" } else { "bad" }).unwrap();
    writeln!(s, "data symbols {}, erased {}", blanked.len(), blanked.iter().filter(|&&f| f > 0.5).count()).unwrap();
    if let Some((start, segment)) = told {
        let slip = Slip { mode: b.mode, kind: b.kind, word, outcome, pass, score: score.to_bits(), start, segment };
        writeln!(s, "slip {}", slip.written(44).unwrap().iter().map(|b| format!("{b:02x}")).collect::<String>()).unwrap();
    }
    if soft {
        out.llrs.iter().enumerate().for_each(|(i, x)| writeln!(s, "soft {i}: {}", float(*x)).unwrap());
    }
    if metrics {
        out.metrics.iter().enumerate().for_each(|(i, x)| writeln!(s, "metric {} {}: {}", i / 32, i % 32, float(*x)).unwrap());
    }
    (word, good, s)
}

fn stop(why: &str) -> ! {
    eprintln!("burst_check: {why}");
    std::process::exit(2)
}

/// Runs `burst` with `grep .` behind it, the file by standard input: what both wrote, and grep's status.
fn run(file: &[u8], words: &str) -> (String, String, Option<i32>) {
    shell(file, &format!("target/bin/burst {words} | grep ."))
}

/// The same with the file by its name, before or after the words.
fn run_named(file: &[u8], words: &str, is_first: bool) -> (String, String, Option<i32>) {
    const NAME: &str = "target/oracle/soft";
    std::fs::write(NAME, file).unwrap();
    let (before, after) = if is_first { (NAME, words) } else { (words, NAME) };
    shell(b"", &format!("target/bin/burst {before} {after} | grep ."))
}

fn shell(file: &[u8], command: &str) -> (String, String, Option<i32>) {
    let mut p = Command::new("sh").args(["-c", command]).stdin(Stdio::piped()).stdout(Stdio::piped()).stderr(Stdio::piped()).spawn().unwrap();
    let mut input = p.stdin.take().unwrap();
    let file = file.to_vec();
    // a refused file is not read to its end
    let writer = std::thread::spawn(move || input.write_all(&file).ok());
    let out = p.wait_with_output().unwrap();
    writer.join().unwrap();
    (String::from_utf8_lossy(&out.stdout).into(), String::from_utf8_lossy(&out.stderr).into(), out.status.code())
}

/// A burst of every mode, kind, form and window by turns, in any layout, over channels from good to hopeless.
fn how(i: u64, d: &mut Dice) -> How {
    let mode = (i % 2) as u8;
    How {
        mode,
        kind: (i / 2 % 3) as u8,
        layout: 1 + (i * 5 % 8) as u8,
        symbols: i / 6 % 2 == 1,
        window: windows(MODES[mode as usize])[(i / 12 % 3) as usize] as u32,
        bits: if i < 2 { 10_240 } else { [0, 1, 4, 5, 6, 10, 33, 64, 100, 320, 1000][d.below(11) as usize] },
        snr: [20.0, 6.0, 0.0, -6.0, -9.0, -12.0, -15.0, -30.0][d.below(8) as usize],
        doppler: [0.0, 0.5, 2.0, 10.0][d.below(4) as usize],
        delay: [0.0, 1.0, 4.0][d.below(3) as usize],
        carrier: [None, None, Some(0.0), Some(12.0)][d.below(4) as usize],
        blanked: [0.0, 0.0, 0.2, 1.0][d.below(4) as usize],
    }
}

fn main() {
    let c = code();
    let args: Vec<String> = std::env::args().skip(1).collect();
    if let Some(path) = args.first().filter(|a| a.parse::<u64>().is_err()) {
        let b = std::fs::read(path).map_err(|e| e.to_string()).and_then(|s| made::read(&s)).unwrap_or_else(|why| stop(&format!("{path}: {why}")));
        let number = |i: usize| args.get(i).and_then(|a| a.parse::<u64>().ok()).unwrap_or_else(|| stop("slip needs START and SEGMENT"));
        let told = args.iter().position(|a| a == "slip").map(|i| (number(i + 1), number(i + 2) as u16));
        print!("{}", expected(&c, &b, args.contains(&"soft".into()), args.contains(&"metrics".into()), told).2);
        return;
    }
    let all: u64 = args.first().map_or(200, |a| a.parse().unwrap());
    let mut d = Dice(2);
    let (mut differ, mut floats, mut sent, mut wrong_good, mut outcomes, mut bad, mut older, mut slips, mut layouts) = (0, 0, 0, 0, [0; 4], 0, 0u64, 0u64, [0; 8]);
    for i in 0..all {
        let h = how(i, &mut d);
        let b = made(i, &h);
        let start = if d.below(3) == 0 { d.of(&[0, 48_000, u64::MAX]) } else { d.word() };
        let segment = if d.below(3) == 0 { d.of(&[0, 1, u16::MAX]) } else { d.word() as u16 };
        let told = (i % 3 > 0).then_some((start, segment));
        let slip = told.map_or(String::new(), |(start, segment)| format!("slip {start:0w$} {segment}", w = (i % 5) as usize));
        let words = ["{}", "soft {}", "{} metrics", "soft {} metrics"][(i % 4) as usize].replace("{}", &slip);
        let (word, good, want) = expected(&c, &b, words.contains("soft"), words.contains("metrics"), told);
        slips += told.is_some() as u64;
        // what is of layout 1 by turns in a file of either version
        let file = if b.layout == 1 && i % 16 == 0 { write_older(&b) } else { write(&b) };
        older += (file[4] == 0) as u64;
        let (out, err, status) = if i % 3 == 0 { run(&file, &words) } else { run_named(&file, &words, i % 3 == 1) };
        sent += (word == b.word) as u64;
        wrong_good += (word != b.word && good) as u64;
        outcomes[["Sure", "Likely", "Kept", "Open"].iter().position(|o| want.contains(o)).unwrap()] += 1;
        floats += want.matches('(').count();
        layouts[b.layout as usize - 1] += 1;
        if (out.as_str(), err.as_str(), status) != (want.as_str(), "", Some(0)) {
            differ += 1;
            println!("differs: seed {i} {h:?} {words}: {status:?} {err}{}", out.lines().zip(want.lines()).find(|(a, b)| a != b).map_or(String::new(), |(a, b)| format!("{a}, the Rust {b}")));
        }
        let (what, number) = DAMAGE[(i % DAMAGE.len() as u64) as usize];
        let mut file = file;
        if made::damage(&mut file, what).is_err() {
            continue;
        }
        let (out, err, status) = run(&file, &words);
        bad += 1;
        let told = err.starts_with("burst: ") && err.ends_with('\n') && err.lines().count() == 1 && (number == 0) != err.starts_with(&format!("burst: refused: {number}, "));
        if !out.is_empty() || !told || status != Some(1) {
            differ += 1;
            println!("damaged: seed {i} {what}: {status:?} {err}{out}");
        }
    }
    let file = write(&made(0, &How::default()));
    let usage = "usage: burst [soft] [metrics] [slip START SEGMENT] [FILE]\n";
    let numbers = format!("burst: slip wants START, a number to 18446744073709551615, and SEGMENT, one to 65535\n{usage}");
    for words in [
        "slip", "slip 1", "soft slip", "slip x 1", "slip 1 x", "slip 1 65536", "slip 18446744073709551616 1", "slip 99999999999999999999 1", "slip -1 1", "slip +1 1",
        "slip 1 -1", "slip '' 1", "slip 1 ''", "slip 1. 1", "slip 0x1 1", "slip soft 1", "slip 1 2 slip 3", "slip 1 65536 slip 1 2",
    ] {
        let (out, err, _) = shell(&file, &format!("target/bin/burst {words}"));
        if !out.is_empty() || !err.starts_with(&numbers) {
            differ += 1;
            println!("{words}: {err}{out}");
        }
    }
    // of two slips the second is asked for
    let (out, err, _) = shell(&file, "target/bin/burst slip 5 6 slip 007 0012");
    if !err.is_empty() || out.matches("slip ").count() != 1 || !out.ends_with("050008000000000000000706000200 0c\n".replace(' ', "").as_str()) {
        differ += 1;
        println!("two slips: {err}{out}");
    }
    for (what, command, told, is_printed) in [
        ("an unknown word", "target/bin/burst --loud", format!("burst: unknown argument --loud\n{usage}"), false),
        ("a second file", "target/bin/burst loud louder", format!("burst: unknown argument louder\n{usage}"), false),
        ("a missing file", "target/bin/burst loud", "burst: loud: No such file or directory\n".into(), false),
        ("a folder", "target/bin/burst soft oracle", "burst: the input: Is a directory\n".into(), false),
        ("a full device", "target/bin/burst soft >/dev/full", "burst: standard output: No space left on device\n".into(), false),
        ("help on a full device", "target/bin/burst -h >/dev/full", "burst: standard output: No space left on device\n".into(), false),
        ("help", "target/bin/burst soft --help", "".into(), true),
        ("help, short", "target/bin/burst -h", "".into(), true),
    ] {
        let (out, err, _) = shell(&file, command);
        if !err.starts_with(&told) || is_printed != out.starts_with(usage) || is_printed == out.is_empty() || is_printed != err.is_empty() {
            differ += 1;
            println!("{what}: {err}{out}");
        }
    }
    println!("{all} bursts, by layout {layouts:?}, {older} of them in files of version 0, {slips} with a slip: {floats} floats; Sure, Likely, Kept, Open {outcomes:?}; {sent} words as sent, {wrong_good} others with a good CRC; {bad} damaged files; {differ} differ");
    std::process::exit((differ > 0) as i32);
}
