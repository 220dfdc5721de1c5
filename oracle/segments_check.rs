// Holds the program `segments` to the second board of board.rs over random series of slips: what it prints and what it tells on standard error,
// byte for byte. Then the usage, an input that cannot be read, a full device, and that a refusal is told before the input ends. With --bytes it
// turns hexadecimal digits into bytes.
mod board;
mod inputs;
mod slip;
use board::{BYTES, Board};
use inputs::{Dice, lawful_slip, spoil_slip};
use slip::Slip;
use std::fmt::Write as _;
use std::io::{BufRead, BufReader, Read, Write};
use std::process::{Child, Command, Stdio};
use std::sync::mpsc::channel;
use std::time::Duration;

/// Three places, half away from zero, where the thousandths are below 2^64, and the pattern.
fn float(pattern: u32) -> String {
    let x = f32::from_bits(pattern);
    let thousandths = x.abs() as f64 * 1000.0 + 0.5;
    let n = thousandths as u64;
    let figures = if thousandths < 2f64.powi(64) { format!("{}.{:03}", n / 1000, n % 1000) } else { "1.8e16 or beyond".into() };
    format!("{}{figures} ({pattern:08x})", if x.is_sign_negative() { "-" } else { "" })
}

fn line(s: &Slip) -> String {
    let outcome = slip::reading(s.outcome, s.pass);
    let digits = if s.kind == 1 { 16 } else { 12 };
    format!("segment {}, word {:0digits$x}, {outcome}, score {}, start {}\n", s.segment, s.word, float(s.score), s.start)
}

/// What must be printed and told of an input.
fn expected(input: &[u8]) -> (String, String) {
    let (mut board, mut told) = (Board { bytes: vec![0; BYTES], count: 0 }, String::new());
    for (i, string) in input.chunks(44).enumerate() {
        let k = board.put(string);
        let why = match k {
            0 => continue,
            13 => "no slip",
            _ => "512 other segments are listed",
        };
        let cut = if string.len() < 44 { ", the input ends in it" } else { "" };
        writeln!(told, "segments: slip {}, from byte {}, refused: {k}, {why}{cut}", i + 1, 44 * i).unwrap();
    }
    (board.bytes.chunks(44).take(board.count as usize).map(|place| line(&slip::read(place).unwrap())).collect(), told)
}

/// Slips of few or many segments and starts, in any order; by turns some are broken, bytes are missing, or the last is cut.
fn series(i: u64, d: &mut Dice) -> Vec<u8> {
    let slips = [0, 1, 2, 10, 40, 150, 600, 1500][(i % 8) as usize];
    let segments = d.of(&[1, 3, 20, 512, 513, 700, 65_536]);
    let starts = d.of(&[1, 2, 5, u64::MAX]);
    let broken = d.of(&[0, 0, 5, 30]);
    let mut all = Vec::new();
    for _ in 0..slips {
        let mut s = lawful_slip(d);
        if d.below(10) > 0 {
            s.segment = (d.below(segments) * (65_536 / segments)) as u16;
            s.start = d.below(starts).wrapping_sub(d.below(2));
        }
        let mut string = s.written(44).unwrap();
        if d.below(100) < broken {
            match d.below(4) {
                0 => string[d.below(44) as usize] ^= 1 << d.below(8),
                1 => string = (0..44).map(|_| d.word() as u8).collect(),
                2 => string.fill(0),
                _ => {
                    // a value that no slip holds, written all the same
                    spoil_slip(d, &mut s);
                    string[3] = s.mode;
                    string[7] = s.kind;
                    string[11..19].copy_from_slice(&s.word.to_be_bytes());
                    string[22..24].copy_from_slice(&[s.outcome, s.pass]);
                    string[24..28].copy_from_slice(&s.score.to_be_bytes());
                }
            }
        }
        all.extend(string);
    }
    if i % 7 == 3 && all.len() > 44 {
        // all behind them are out of their places
        let at = d.below(all.len() as u64) as usize;
        all.drain(at..(at + 1 + d.below(43) as usize).min(all.len()));
    } else if i % 3 == 1 {
        all.truncate(all.len().saturating_sub(1 + d.below(43) as usize));
    }
    all
}

fn started(command: &str) -> Child {
    Command::new("sh").args(["-c", command]).stdin(Stdio::piped()).stdout(Stdio::piped()).stderr(Stdio::piped()).spawn().unwrap()
}

/// Runs a command on an input, written in pieces of so many bytes.
fn run(command: &str, input: &[u8], piece: usize) -> (String, String) {
    let mut p = started(command);
    let mut to = p.stdin.take().unwrap();
    let input = input.to_vec();
    // what is not read is not written to its end
    let writer = std::thread::spawn(move || input.chunks(piece).all(|part| to.write_all(part).is_ok()));
    let out = p.wait_with_output().unwrap();
    writer.join().unwrap();
    (String::from_utf8_lossy(&out.stdout).into(), String::from_utf8_lossy(&out.stderr).into())
}

/// Whether a broken slip is told while the input is still open.
fn is_told_when_met() -> bool {
    let mut p = started("exec target/bin/segments");
    let mut to = p.stdin.take().unwrap();
    to.write_all(&[0; 44]).unwrap();
    let mut from = BufReader::new(p.stderr.take().unwrap());
    let (send, told) = channel();
    std::thread::spawn(move || {
        let mut line = String::new();
        from.read_line(&mut line).ok();
        send.send(line).ok();
    });
    let line = told.recv_timeout(Duration::from_secs(10));
    drop(to);
    p.wait().unwrap();
    line.as_deref() == Ok("segments: slip 1, from byte 0, refused: 13, no slip\n")
}

fn bytes() {
    let mut text = String::new();
    std::io::stdin().read_to_string(&mut text).unwrap();
    let digits: Vec<u8> = text.chars().filter_map(|c| c.to_digit(16)).map(|x| x as u8).collect();
    std::io::stdout().write_all(&digits.chunks_exact(2).map(|p| 16 * p[0] + p[1]).collect::<Vec<u8>>()).unwrap();
}

fn main() {
    let asked = std::env::args().nth(1);
    if asked.as_deref() == Some("--bytes") {
        return bytes();
    }
    let all: u64 = asked.map_or(400, |a| a.parse().unwrap());
    let mut d = Dice(105);
    let (mut differ, mut slips, mut shown, mut full, mut cut, mut refused) = (0, 0, 0, 0, 0, [0; 2]);
    for i in 0..all {
        let input = series(i, &mut d);
        let (board, told) = expected(&input);
        let (out, err) = run("target/bin/segments", &input, d.of(&[1, 20, 44, 45, 4096, 1 << 20]));
        slips += input.len() / 44;
        shown += board.lines().count();
        full += (board.lines().count() == 512) as u64;
        cut += (input.len() % 44 > 0) as u64;
        refused[0] += told.matches("refused: 13").count();
        refused[1] += told.matches("refused: 14").count();
        if (&out, &err) != (&board, &told) {
            differ += 1;
            let first = |a: &str, b: &str| a.lines().chain([""]).zip(b.lines().chain([""])).find(|(a, b)| a != b).map_or(String::new(), |(a, b)| format!("\n  {a}\n  must be {b}"));
            println!("differs: series {i}, {} bytes{}{}", input.len(), first(&out, &board), first(&err, &told));
        }
    }
    let some = series(3, &mut d);
    let usage = "usage: segments <SLIPS\n";
    for (what, command, told, is_printed) in [
        ("an unknown word", "target/bin/segments --loud", format!("segments: unknown argument --loud\n{usage}"), false),
        ("two unknown words", "target/bin/segments -h loud louder", format!("segments: unknown argument loud\n{usage}"), false),
        ("an empty word", "target/bin/segments ''", format!("segments: unknown argument \n{usage}"), false),
        ("a folder", "target/bin/segments <oracle", "segments: standard input: Is a directory\n".into(), false),
        ("a full device", "target/bin/segments >/dev/full", "segments: standard output: No space left on device\n".into(), false),
        ("help on a full device", "target/bin/segments -h >/dev/full", "segments: standard output: No space left on device\n".into(), false),
        ("help", "target/bin/segments --help", "".into(), true),
        ("help, short", "target/bin/segments -h", "".into(), true),
    ] {
        let (out, err) = run(command, &some, 1 << 20);
        if !err.ends_with(&told) && !err.starts_with(&told) || is_printed != out.starts_with(usage) || is_printed == out.is_empty() || is_printed != err.is_empty() {
            differ += 1;
            println!("{what}: {err}{out}");
        }
    }
    if !is_told_when_met() {
        differ += 1;
        println!("a broken slip is not told before the input ends");
    }
    println!("{all} series, {slips} slips, {cut} inputs end within one; refused by 13 {}, by 14 {}; {full} full boards, {shown} lines; {differ} differ", refused[0], refused[1]);
    std::process::exit((differ > 0) as i32);
}
