// Bursts made for the port: a header and data are sent, by the Rust's own sending half or by ours, go through a channel
// at 8,000 complex samples a second, and are heard as energies of 52 places, which the Rust's own model turns into
// terms. docs/BURST-FORMAT.md has the layout.
#![allow(dead_code)]
use crate::inputs::Dice;
use ion::phy_mfsk::hook::{Fmt, Kind, MfskMode, Terms, air, fitted_terms, preamble_places, prior_terms, windows};
use std::f64::consts::TAU;

pub const MODES: [MfskMode; 2] = [MfskMode::R0, MfskMode::R1];
pub const KINDS: [Kind; 3] = [Kind::HeaderOnly, Kind::Data, Kind::Cue];
const RATE: f64 = 8000.0;
/// Places of an energy row, and bins beside the grid on either side.
const PLACES: usize = 52;
const BESIDE: i32 = 2;

/// Audio samples behind each baseband sample's blanked count, which is one of 6k in layout k.
fn span_of(layout: u8) -> u8 {
    6 * layout + 1
}

pub struct Burst {
    pub mode: u8,
    pub kind: u8,
    pub layout: u8,
    pub symbols: bool,
    pub window: u32,
    pub bits: u32,
    pub header_terms: Vec<f32>,
    pub data_terms: Vec<f32>,
    pub blanked: Vec<u32>,
    /// What was sent: header bit j at place j, and the data bits. `read` does not know them, and leaves 0 and nothing.
    pub word: u64,
    pub sent: Vec<u8>,
}

/// What is sent, and the channel.
#[derive(Clone, Debug)]
pub struct How {
    pub mode: u8,
    pub kind: u8,
    /// The layout k, 1 to 8: every duration k times as long, every frequency a k-th. The receiver takes one of 6k audio samples and
    /// sees the same waveform in its own samples, over a channel whose Doppler spread is k times as wide there, whose delay is a
    /// k-th and whose noise has a k-th of the band.
    pub layout: u8,
    pub symbols: bool,
    /// One of the mode's three, or 0 for the one that the mode's tones are spaced by.
    pub window: u32,
    pub bits: u32,
    /// Signal over noise in 3,000 Hz, dB.
    pub snr: f64,
    /// Doppler spread of the two paths, Hz, or 0 for one steady path.
    pub doppler: f64,
    /// What the second path lags behind, ms.
    pub delay: f64,
    /// A carrier on one bin, dB over the signal, keyed on somewhere in the burst.
    pub carrier: Option<f64>,
    /// The share of data symbols in which the blanker zeroes samples.
    pub blanked: f64,
}

impl Default for How {
    fn default() -> Self {
        How { mode: 0, kind: 1, layout: 1, symbols: false, window: 0, bits: 100, snr: 6.0, doppler: 1.0, delay: 1.0, carrier: None, blanked: 0.0 }
    }
}

/// Two normal numbers.
fn normals(d: &mut Dice) -> (f64, f64) {
    let (r, a) = ((-2.0 * (1.0 - d.unit()).ln()).sqrt(), TAU * d.unit());
    (r * a.cos(), r * a.sin())
}

#[derive(Clone, Copy, Default)]
struct Complex(f64, f64);
impl Complex {
    fn turn(a: f64) -> Self {
        Complex(a.cos(), a.sin())
    }
    fn times(self, o: Complex) -> Self {
        Complex(self.0 * o.0 - self.1 * o.1, self.0 * o.1 + self.1 * o.0)
    }
    fn plus(self, o: Complex) -> Self {
        Complex(self.0 + o.0, self.1 + o.1)
    }
    fn by(self, k: f64) -> Self {
        Complex(self.0 * k, self.1 * k)
    }
}

/// A path's gain: twelve waves from a normal Doppler spectrum, power 1.
struct Path(Vec<(f64, f64)>);
impl Path {
    fn new(spread: f64, d: &mut Dice) -> Self {
        Path((0..12).map(|_| (normals(d).0 * spread / 2.0, TAU * d.unit())).collect())
    }
    fn at(&self, n: usize) -> Complex {
        let waves = self.0.iter().fold(Complex::default(), |s, &(hz, a)| s.plus(Complex::turn(TAU * hz * n as f64 / RATE + a)));
        waves.by((1.0 / self.0.len() as f64).sqrt())
    }
}

/// Tones on the air, each with its frequency and its length in samples, phase continuous.
fn sent_samples(tones: &[(f64, usize)]) -> Vec<Complex> {
    let mut phase = 0.0;
    let mut z = Vec::new();
    for &(hz, n) in tones {
        for _ in 0..n {
            z.push(Complex::turn(phase));
            phase = (phase + TAU * hz / RATE) % TAU;
        }
    }
    z
}

/// Fading, a carrier and noise.
fn through(z: &[Complex], fmt: Fmt, how: &How, d: &mut Dice) -> Vec<Complex> {
    let k = how.layout as f64;
    let lag = (how.delay / 1000.0 * RATE / k).round().max(0.0) as usize;
    let paths = [Path::new(how.doppler * k, d), Path::new(how.doppler * k, d)];
    let noise = (RATE / k / 3000.0 / 10f64.powf(how.snr / 10.0) / 2.0).sqrt();
    let (keyed, bin) = (d.below(z.len() as u64) as usize, d.below(fmt.nbins as u64) as i32);
    let (hz, level) = (fmt.bin_hz(bin) as f64 + 8.0 * d.unit() - 4.0, how.carrier.map_or(0.0, |db| 10f64.powf(db / 20.0)));
    let mut gains = [Complex(1.0, 0.0), Complex::default()];
    let mut out = Vec::with_capacity(z.len());
    for n in 0..z.len() {
        if how.doppler > 0.0 && n % 8 == 0 {
            gains = [paths[0].at(n).by(0.5f64.sqrt()), paths[1].at(n).by(0.5f64.sqrt())];
        }
        let late = if n >= lag { z[n - lag] } else { Complex::default() };
        let (a, b) = normals(d);
        let mut y = z[n].times(gains[0]).plus(late.times(gains[1])).plus(Complex(a, b).by(noise));
        if n >= keyed && level > 0.0 {
            y = y.plus(Complex::turn(TAU * (hz * n as f64 / RATE % 1.0)).by(level));
        }
        out.push(y);
    }
    out
}

/// The energies that a window of samples has at the places of a grid.
struct Ear(Vec<Vec<Complex>>);
impl Ear {
    fn new(fmt: Fmt, window: usize) -> Self {
        let bins = fmt.nbins as i32 + 2 * BESIDE;
        Ear((0..bins).map(|e| (0..window).map(|n| Complex::turn(-TAU * (fmt.bin_hz(e - BESIDE) as f64 * n as f64 / RATE % 1.0))).collect()).collect())
    }
    fn hear(&self, z: &[Complex]) -> [f32; PLACES] {
        let mut x = [0f32; PLACES];
        for (e, table) in self.0.iter().enumerate() {
            let s = z.iter().zip(table).fold(Complex::default(), |s, (a, b)| s.plus(a.times(*b)));
            x[e] = (s.0 * s.0 + s.1 * s.1) as f32;
        }
        x
    }
}

/// In some of the data symbols the blanker zeroes a run of samples; the count behind each sample there is the whole span.
fn blank(z: &mut [Complex], from: usize, sym: usize, share: f64, span: u8, d: &mut Dice) -> Vec<u8> {
    let mut counts = vec![0u8; z.len()];
    for start in (from..z.len()).step_by(sym) {
        if d.unit() < share {
            let n = 1 + d.below(sym as u64) as usize;
            let first = start + d.below((sym - n + 1) as u64) as usize;
            z[first..first + n].fill(Complex::default());
            counts[first..first + n].fill(span);
        }
    }
    counts
}

fn flat(terms: &[Terms]) -> Vec<f32> {
    terms.iter().flatten().flatten().copied().collect()
}

/// Who sends: the tones' values of a header's bits and of the data, by mode, kind and form.
pub struct Sender {
    pub header: fn(u8, u8, &[u8]) -> Vec<u8>,
    pub bits: fn(u8, &[u8]) -> Vec<u8>,
    pub symbols: fn(u8, &[u8]) -> Vec<u8>,
}

fn tones(values: Vec<[u16; 3]>) -> Vec<u8> {
    values.iter().map(|v| v[0] as u8).collect()
}

/// The Rust's own functions: what the comparisons send by.
pub const RUST: Sender = Sender {
    header: |mode, kind, bits| tones(air::header_values(MODES[mode as usize], KINDS[kind as usize], bits)),
    bits: |mode, bits| tones(air::data_values(MODES[mode as usize], bits)),
    symbols: |mode, symbols| tones(air::data_values_sym(MODES[mode as usize], symbols)),
};

impl Sender {
    fn data(&self, mode: u8, symbols: bool, bits: &[u8]) -> Vec<u8> {
        if bits.is_empty() {
            return Vec::new();
        }
        if !symbols {
            return (self.bits)(mode, bits);
        }
        // five bits a code symbol, the first one highest
        let code: Vec<u8> = bits.chunks(5).map(|c| (0..5).fold(0, |v, k| v << 1 | c.get(k).copied().unwrap_or(0))).collect();
        (self.symbols)(mode, &code)
    }
}

/// The burst of a seed, sent by the Rust.
pub fn made(seed: u64, how: &How) -> Burst {
    made_by(&RUST, seed, how)
}

/// The burst of a seed.
pub fn made_by(sender: &Sender, seed: u64, how: &How) -> Burst {
    let mut d = Dice(air::mix64(seed ^ 0x4255_5253_5400));
    let (mode, kind) = (MODES[how.mode as usize], KINDS[how.kind as usize]);
    let fmt = Fmt::of(mode);
    let window = if how.window == 0 { fmt.win } else { how.window as usize };
    let number = windows(mode).iter().position(|&w| w == window).expect("a window of the mode");
    // what is sent
    let (user, extra) = (d.word() as u16, d.word() as u16);
    let field = how.bits as usize | if how.symbols { air::SYM_FLAG } else { 0 };
    let info = air::header_bits(how.layout as usize, mode, kind, user, extra, field);
    let sent: Vec<u8> = (0..how.bits).map(|_| (d.word() >> 63) as u8).collect();
    let header = (sender.header)(how.mode, how.kind, &info);
    let data = sender.data(how.mode, how.symbols, &sent);
    // on the air: the preamble on R0's grid, then header and data on the mode's
    let first = Fmt::of(MfskMode::R0);
    let places = preamble_places();
    let mut tones: Vec<(f64, usize)> = places.iter().map(|&e| (first.bin_hz(e as i32 - BESIDE) as f64, first.sym)).collect();
    for (i, &v) in header.iter().chain(&data).enumerate() {
        tones.push((fmt.bin_hz(fmt.tone_bin(fmt.hop(i), 0, v as usize) as i32) as f64, fmt.sym));
    }
    let mut z = through(&sent_samples(&tones), fmt, how, &mut d);
    let begin = first.sym * places.len();
    let counts = blank(&mut z, begin + header.len() * fmt.sym, fmt.sym, how.blanked, span_of(how.layout), &mut d);
    // heard: each window ends where its symbol does
    let early = windows(MfskMode::R0)[number];
    let ear = Ear::new(first, early);
    let pre: Vec<_> = (1..=places.len()).map(|i| ear.hear(&z[i * first.sym - early..i * first.sym])).collect();
    let ear = Ear::new(fmt, window);
    let span = |i: usize| begin + (i + 1) * fmt.sym - window..begin + (i + 1) * fmt.sym;
    let heard: Vec<_> = (0..header.len() + data.len()).map(|i| ear.hear(&z[span(i)])).collect();
    let (h, rest) = heard.split_at(header.len());
    Burst {
        mode: how.mode,
        kind: how.kind,
        layout: how.layout,
        symbols: how.symbols,
        window: window as u32,
        bits: how.bits,
        header_terms: flat(&prior_terms(mode, number, &pre, h)),
        data_terms: flat(&fitted_terms(mode, kind, &info, &pre, h, rest)),
        blanked: (0..data.len()).map(|i| counts[span(header.len() + i)].iter().map(|&c| c as u32).sum()).collect(),
        word: info.iter().rev().fold(0, |w, &b| w << 1 | b as u64),
        sent,
    }
}

/// The file's first 20 bytes.
pub const HEAD: usize = 20;

/// A file of version 1.
pub fn write(b: &Burst) -> Vec<u8> {
    write_as(b, 1)
}

/// A file of version 0, which has no layout: of a burst of layout 1 only.
pub fn write_older(b: &Burst) -> Vec<u8> {
    assert_eq!(b.layout, 1);
    write_as(b, 0)
}

fn write_as(b: &Burst, version: u8) -> Vec<u8> {
    let mut out = b"IONB".to_vec();
    out.extend([version, b.mode, b.kind, b.symbols as u8, b.layout * version, 0, 0, 0]);
    out.extend(b.window.to_le_bytes());
    out.extend(b.bits.to_le_bytes());
    out.extend(b.header_terms.iter().chain(&b.data_terms).flat_map(|t| t.to_le_bytes()));
    out.extend(b.blanked.iter().flat_map(|c| c.to_le_bytes()));
    out
}

/// The burst of a file. Only what its layout needs is tested: values that the entries refuse are handed on.
pub fn read(s: &[u8]) -> Result<Burst, String> {
    if s.len() < HEAD || &s[..4] != b"IONB" {
        return Err("does not begin as a burst".into());
    }
    let (version, layout) = (s[4], if s[4] == 0 { 1 } else { s[8] });
    if version > 1 {
        return Err(format!("version {version}"));
    }
    let word = |at: usize| u32::from_le_bytes(s[at..at + 4].try_into().unwrap());
    let (mode, kind, form, window, bits) = (s[5], s[6], s[7], word(12), word(16));
    if mode > 1 || kind > 2 || form > 1 || s[9..12] != [0; 3] || version == 0 && s[8] != 0 || bits > 10_240 {
        return Err("mode, kind, form, the zeros or the bit count".into());
    }
    let (n, m) = (260 * air::header_info_bits(KINDS[kind as usize]), bits.div_ceil(5) as usize);
    if s.len() != HEAD + 4 * (n + 261 * m) {
        return Err(format!("{} bytes", s.len()));
    }
    let term = |i: usize| f32::from_bits(word(HEAD + 4 * i));
    Ok(Burst {
        mode,
        kind,
        layout,
        symbols: form == 1,
        window,
        bits,
        header_terms: (0..n).map(term).collect(),
        data_terms: (n..n + 260 * m).map(term).collect(),
        blanked: (n + 260 * m..n + 261 * m).map(|i| word(HEAD + 4 * i)).collect(),
        word: 0,
        sent: Vec::new(),
    })
}

/// What can be done to a file, and the refusal's number in the papers, or 0 where the file's own form is broken.
pub const DAMAGE: [(&str, u8); 15] = [
    ("nan", 6), ("large", 6), ("cut", 0), ("long", 0), ("magic", 0), ("version", 0), ("mode", 1), ("kind", 1), ("form", 0), ("zeros", 0),
    ("window", 3), ("bits", 2), ("count", 7), ("layout", 12), ("older", 0),
];

/// Spoils a good file in the way that the word names.
pub fn damage(file: &mut Vec<u8>, what: &str) -> Result<(), String> {
    let n = file.len();
    if what == "count" && file[16..HEAD] == [0; 4] {
        return Err("a burst with no data has no counts".into());
    }
    let mut put = |at: usize, x: u32| file[at..at + 4].copy_from_slice(&x.to_le_bytes());
    match what {
        "nan" => put(HEAD + 4 * 1000, 0x7F80_0001),
        "large" => put(HEAD + 4 * 1000, 1_000_000.06f32.to_bits()),
        "cut" => file.truncate(n - 1),
        "long" => file.push(0),
        "magic" => file[0] = b'i',
        "version" => file[4] = 2,
        // a layout in a file of version 1, or in one of version 0, which has none
        "layout" => (file[4], file[8]) = (1, [0, 9, 255][n % 3]),
        "older" => (file[4], file[8]) = (0, 1),
        "mode" => file[5] = 2,
        "kind" => file[6] = 3,
        "form" => file[7] = 2,
        "zeros" => file[11] = 1,
        "window" => put(12, 161),
        "bits" => put(16, 10_241),
        "count" => put(n - 4, u32::MAX),
        _ => return Err(format!("no damage is named {what}")),
    }
    Ok(())
}
