//! The proved receiving core of the ion HF modem, the sending halves of its interleavers, its burst slips, the segment board and local noise
//! factors, in Rust's own manner: slices, enums and `Result` over `include/ion.h`.
//!
//! Build the library first: `tools/build.sh ion` at the repository's root. Every function takes any input and ends. One that
//! answers `Err` has written nothing. No function keeps anything between calls, so any threads may call at once.
//!
//! **Terms.** Per symbol five rows of 52 `f32`, row 0 first, place 0 first in each ([`TERMS`]). Each is a natural logarithm: row j,
//! place e has ln(p(energy at place e | a tone j-2 places below it) / p(energy | noise alone)). Bin b of the mode's grid is place
//! b + 2. A value's metric is the sum of five terms, one of each row, around its bin's place.
//!
//! ```
//! use ion_proved::{Kind, Mode, Refusal};
//!
//! assert_eq!(ion_proved::interleave_mult(100), Ok(63));
//! assert_eq!(ion_proved::interleave_mult(10_241), Err(Refusal::Count));
//!
//! let mut values = [0; 48];
//! assert_eq!(ion_proved::header_values(Mode::R0, Kind::Cue, &[1; 48], &mut values), Ok(()));
//! assert_eq!(values, [10; 48]);
//! ```
use std::fmt;

mod sys {
    unsafe extern "C" {
        pub fn ion_interleave_mult(n: u64, mult: *mut u64) -> u32;
        pub fn ion_crc(mode: u8, kind: u8, layout: u8, bits: *const u8, bits_len: usize, crc: *mut u16) -> u32;
        pub fn ion_header_values(mode: u8, kind: u8, bits: *const u8, bits_len: usize, values: *mut u8, values_len: usize) -> u32;
        pub fn ion_read_header(
            mode: u8, kind: u8, terms: *const f32, terms_len: usize, scores: *mut f32, scores_len: usize, next: *mut f32, next_len: usize,
            start: *mut f32, start_len: usize, decisions: *mut u64, decisions_len: usize, word: *mut u64, outcome: *mut u8, pass: *mut u8,
            score: *mut f32, ceiling: *mut f32,
        ) -> u32;
        pub fn ion_fill_labels(labels: *mut u16, labels_len: usize) -> u32;
        pub fn ion_read_header_with(
            mode: u8, kind: u8, terms: *const f32, terms_len: usize, labels: *const u16, labels_len: usize, scores: *mut f32, scores_len: usize,
            next: *mut f32, next_len: usize, start: *mut f32, start_len: usize, decisions: *mut u64, decisions_len: usize, word: *mut u64,
            outcome: *mut u8, pass: *mut u8, score: *mut f32, ceiling: *mut f32,
        ) -> u32;
        pub fn ion_soft_values(
            mode: u8, kind: u8, layout: u8, symbols: u8, window: u32, bits: u32, terms: *const f32, terms_len: usize, blanked: *const u32,
            blanked_len: usize, work: *mut f32, work_len: usize, metrics: *mut f32, metrics_len: usize, soft: *mut f32, soft_len: usize,
        ) -> u32;
        pub fn ion_fit_drift(mode: u8, places: *const u32, places_len: usize, timings: *const f64, timings_len: usize, drift: *mut f64) -> u32;
        pub fn ion_track_timing(
            mode: u8, n: *mut usize, shift: *mut i32, tnum: *mut f64, tden: *mut f64, drift: *mut f64, blocks: *mut usize, shifts: *mut i32,
            shifts_len: usize, places: *mut u32, places_len: usize, timings: *mut f64, timings_len: usize, heard: u8, early: f64, late: f64,
            noise: f64,
        ) -> u32;
        pub fn ion_interleave(bits: *const u8, bits_len: usize, slots: *mut u8, slots_len: usize) -> u32;
        pub fn ion_interleave_sym(symbols: *const u8, symbols_len: usize, values: *mut u8, values_len: usize) -> u32;
        pub fn ion_write_slip(
            mode: u8, kind: u8, word: u64, outcome: u8, pass: u8, score: f32, start: u64, segment: u16, slip: *mut u8, slip_len: usize,
        ) -> u32;
        pub fn ion_read_slip(
            slip: *const u8, slip_len: usize, mode: *mut u8, kind: *mut u8, word: *mut u64, outcome: *mut u8, pass: *mut u8, score: *mut f32,
            start: *mut u64, segment: *mut u16,
        ) -> u32;
        pub fn ion_put_slip(board: *mut u8, board_len: usize, count: *mut u32, slip: *const u8, slip_len: usize) -> u32;
        pub fn ion_local_noise(
            mode: u8, kind: u8, rows: u32, energies: *const f32, energies_len: usize, noise: *const f32, noise_len: usize, eps: f32, r: f32,
            factors: *mut f32, factors_len: usize,
        ) -> u32;
        pub fn ion_version_111() -> u32;
    }
}

/// The number of the last change request that is in; 0 is the base. The library has it in a symbol's name, so a library of another
/// version does not link.
pub const VERSION: u32 = 111;

#[used]
static VERSION_LINKED: unsafe extern "C" fn() -> u32 = sys::ion_version_111;

/// Terms of a symbol: five rows of 52.
pub const TERMS: usize = 260;
/// Values of a symbol.
pub const VALUES: usize = 32;
/// States of the header's code.
pub const STATES: usize = 16_384;
/// Words of decisions for each header symbol.
pub const DECISIONS: usize = STATES / 64;
/// Entries of a table of labels: one for each register of the header's code.
pub const REGISTERS: usize = 2 * STATES;
/// Bytes of a slip.
pub const SLIP: usize = 44;
/// Bytes of a segment board: a place of [`SLIP`] bytes for each of its [`SEGMENTS`].
pub const BOARD: usize = SEGMENTS * SLIP;
/// The most segments that a board lists.
pub const SEGMENTS: usize = 512;
/// The most bits that are sent, or that soft values are worked out for.
pub const BITS: u32 = 10_240;
/// The most code symbols that are sent.
pub const SYMBOLS: usize = 2_048;
/// The most bits of a CRC.
pub const CRC_BITS: usize = 1_024;
/// The most symbols that a tracker follows.
pub const CALLS: usize = 2_048;
/// The most blocks of a fit.
pub const BLOCKS: usize = 64;
/// Places of a row of energies: bin b of the mode's grid is place b + 2.
pub const PLACES: usize = 52;
/// The most rows of energies.
pub const ROWS: usize = 2_048;

/// The mode of a burst.
#[derive(Clone, Copy, Debug, PartialEq, Eq, Hash)]
#[repr(u8)]
pub enum Mode {
    /// 48 bins; windows 160, 192, 224.
    R0 = 0,
    /// 32 bins; windows 80, 96, 112.
    R1 = 1,
}

/// The kind of a burst.
#[derive(Clone, Copy, Debug, PartialEq, Eq, Hash)]
#[repr(u8)]
pub enum Kind {
    HeaderOnly = 0,
    Data = 1,
    Cue = 2,
}

impl Kind {
    /// The header's bits, and as many symbols: 48, for [`Kind::Data`] 64.
    pub const fn header(self) -> usize {
        match self {
            Kind::Data => 64,
            Kind::HeaderOnly | Kind::Cue => 48,
        }
    }
}

/// The layout k that a set runs: every duration k times as long, every tone's distance from the centre a k-th. [`Layout::FULL`], k = 1, is
/// the full band. Two things depend on it: the start of a header's CRC ([`crc`]), and how many audio samples lie behind a symbol
/// ([`soft_values`]). A header's symbol values and a header read are the same in every layout.
///
/// ```
/// use ion_proved::{Layout, Refusal};
/// assert_eq!(Layout::new(1), Ok(Layout::FULL));
/// assert_eq!(Layout::new(7).map(Layout::k), Ok(7));
/// assert_eq!(Layout::new(0), Err(Refusal::Layout));
/// assert_eq!(Layout::new(9), Err(Refusal::Layout));
/// ```
#[derive(Clone, Copy, Debug, PartialEq, Eq, Hash, PartialOrd, Ord)]
pub struct Layout(u8);

impl Layout {
    /// The full band, k = 1.
    pub const FULL: Layout = Layout(1);
    /// The narrowest, k = 8.
    pub const NARROWEST: Layout = Layout(8);

    /// Layout k, from 1 to 8; any other is refused, by the number that the library refuses it by.
    pub const fn new(k: u8) -> Result<Layout, Refusal> {
        match k {
            1..=8 => Ok(Layout(k)),
            _ => Err(Refusal::Layout),
        }
    }

    /// Every layout, the full band first.
    pub fn all() -> impl Iterator<Item = Layout> {
        (Layout::FULL.0..=Layout::NARROWEST.0).map(Layout)
    }

    /// The number k.
    pub const fn k(self) -> u8 {
        self.0
    }

    /// The audio samples behind each sample of the baseband: 6k+1.
    pub const fn span(self) -> u32 {
        6 * self.0 as u32 + 1
    }
}

/// How soft bits are read from the metrics.
#[derive(Clone, Copy, Debug, PartialEq, Eq, Hash)]
#[repr(u8)]
pub enum Form {
    Bits = 0,
    Symbols = 1,
}

/// Why nothing was done: the papers' causes. Of several causes, the one whose number comes first in the order 1, 12, 2, 3, 4, 16, 5, 11,
/// 6, 15, 7, 8, 9, 10, 13, 14.
#[derive(Clone, Copy, Debug, PartialEq, Eq, Hash)]
#[non_exhaustive]
pub enum Refusal {
    /// A mode or kind that is not named.
    Name,
    /// More than 10,240 bits or 2,048 symbols, or a multiplier's length above 10,240.
    Count,
    /// A window that the mode does not have.
    Window,
    /// A buffer of another length than stated.
    Length,
    /// A bit byte above 1.
    Bit,
    /// A term that is not finite or lies beyond ±1,000,000.
    Term,
    /// A blanked count above 255·window.
    Blanked,
    /// A [`Sample::Heard`] value that is not in 0 to 10^9.
    Sample,
    /// A tracker that has had its 2,048 symbols.
    Tracker,
    /// Over 64 blocks, or a block out of range or falling.
    Blocks,
    /// A symbol value above 31.
    Value,
    /// A layout that is not from 1 to 8.
    Layout,
    /// Bytes that are no slip, values that no slip holds, or a board that is broken.
    Slip,
    /// A slip for an unlisted segment, where [`SEGMENTS`] are listed.
    Full,
    /// Over [`ROWS`] rows, or eps, r, a noise or an energy out of range.
    Noise,
    /// A table of labels ([`Labels`]) with an entry off the parity rule.
    Labels,
    /// A number that these bindings have no name for. No function of this version answers one.
    Unnamed(u32),
}

impl Refusal {
    /// By their numbers, from 1 on.
    const NAMED: [Refusal; 16] = [
        Refusal::Name, Refusal::Count, Refusal::Window, Refusal::Length, Refusal::Bit, Refusal::Term, Refusal::Blanked, Refusal::Sample,
        Refusal::Tracker, Refusal::Blocks, Refusal::Value, Refusal::Layout, Refusal::Slip, Refusal::Full, Refusal::Noise,
        Refusal::Labels,
    ];

    /// The number in the papers.
    ///
    /// ```
    /// assert_eq!(ion_proved::Refusal::Blocks.number(), 10);
    /// assert_eq!(ion_proved::Refusal::Value.number(), 11);
    /// assert_eq!(ion_proved::Refusal::Layout.number(), 12);
    /// assert_eq!(ion_proved::Refusal::Slip.number(), 13);
    /// assert_eq!(ion_proved::Refusal::Full.number(), 14);
    /// assert_eq!(ion_proved::Refusal::Noise.number(), 15);
    /// assert_eq!(ion_proved::Refusal::Labels.number(), 16);
    /// ```
    pub fn number(self) -> u32 {
        match self {
            Refusal::Unnamed(number) => number,
            named => Self::NAMED.iter().zip(1..).find(|(r, _)| **r == named).map_or(0, |(_, number)| number),
        }
    }

    fn told(number: u32) -> Result<(), Refusal> {
        match number {
            0 => Ok(()),
            k => Err(Self::NAMED.get(k as usize - 1).copied().unwrap_or(Refusal::Unnamed(k))),
        }
    }
}

impl fmt::Display for Refusal {
    fn fmt(&self, f: &mut fmt::Formatter<'_>) -> fmt::Result {
        let why = match self {
            Refusal::Name => "mode or kind not named",
            Refusal::Count => "more than 10,240 bits or 2,048 symbols, or a length above 10,240",
            Refusal::Window => "window not of the mode",
            Refusal::Length => "a buffer has another length than stated",
            Refusal::Bit => "a bit byte above 1",
            Refusal::Term => "a term is not finite or beyond ±1,000,000",
            Refusal::Blanked => "a blanked count above 255 times the window",
            Refusal::Sample => "an energy or noise not in 0 to 10^9",
            Refusal::Tracker => "2,048 symbols were tracked already",
            Refusal::Blocks => "over 64 blocks, or a block out of range or falling",
            Refusal::Value => "a symbol value above 31",
            Refusal::Layout => "a layout not from 1 to 8",
            Refusal::Slip => "bytes that are no slip, values that no slip holds, or a board that is broken",
            Refusal::Full => "a slip for an unlisted segment where 512 are listed",
            Refusal::Noise => "over 2,048 rows, or eps, r, a noise or an energy out of range",
            Refusal::Labels => "a table of labels with an entry off the parity rule",
            Refusal::Unnamed(_) => "a number without a name here",
        };
        write!(f, "refused by number {}: {why}", self.number())
    }
}

impl std::error::Error for Refusal {}

/// How sure a header's word is, and what is proved of it; from the best reading to none. A good CRC is asked beside every outcome.
///
/// Whole terms below are whole numbers from -800 to 800; terms within ±2^a, a from 0 to 20, are any others that are not refused. Of Sure,
/// Likely and Kept, which are closed words, the score is exactly what the word's symbols earn for whole terms, and for terms within ±2^a off
/// from that by at most 2^(a-9).
#[derive(Clone, Copy, Debug, PartialEq)]
pub enum Outcome {
    /// Out by closing, or the best candidate after three passes, with a score at or above the ceiling ([`Header`]). The pass, 1 to 3, is the
    /// last one run.
    ///
    /// For whole terms no closed word scores more, whichever pass gave it. For terms within ±2^a no closed word's exact score is above
    /// the word's by more than 2^(a-8): with terms within ±64 none beats it by more than a quarter of a point.
    ///
    /// Pass 1 says that it is out by closing there, and every such word is Sure. Then both hold against every other word, closed or not; and
    /// for any terms that are not refused the score is the word's own, added in f32 as the receiver adds it, and no other word has a
    /// greater one.
    Sure { score: f32, pass: u8 },
    /// Out by closing in this pass, 2 or 3, with a score below the ceiling: another closed word may have a greater one, but none need.
    Likely { score: f32, pass: u8 },
    /// The best of the closed words that three passes met on the way, with a score below the ceiling: a guess. Another closed word may have
    /// a greater one, but none need.
    Kept { score: f32 },
    /// No closed word was met: the word is no header's.
    Open { score: f32 },
}

impl Outcome {
    /// As the library's numbers name it: 0 Sure and 3 Likely with their pass, 1 Kept, 2 Open. It has no other.
    fn named(outcome: u8, pass: u8, score: f32) -> Outcome {
        match outcome {
            0 => Outcome::Sure { score, pass },
            1 => Outcome::Kept { score },
            2 => Outcome::Open { score },
            3 => Outcome::Likely { score, pass },
            other => panic!("the library names no outcome {other}"),
        }
    }

    /// The same numbers: the outcome's, the pass of a Sure or a Likely and else 0, the score.
    fn numbers(self) -> (u8, u8, f32) {
        match self {
            Outcome::Sure { score, pass } => (0, pass, score),
            Outcome::Likely { score, pass } => (3, pass, score),
            Outcome::Kept { score } => (1, 0, score),
            Outcome::Open { score } => (2, 0, score),
        }
    }
}

/// A header as read: bit j of the header at place j from the lowest, how it was found, and the ceiling, which tells how good any word could
/// have been.
///
/// For each pass that the search ran (at most three; one that closes ends it) take from each of the 16,384 states its score at the end less
/// the same state's score at the start of the pass, in f32, and of these the greatest; the ceiling is the least of them over the passes.
///
/// By it the outcome is given: a word out by closing, or the best candidate, is Sure with a score at or above it, and below it Likely or Kept;
/// Open is given without it. The two are compared as f32s.
///
/// Proved: for whole terms from -800 to 800 no closed word of that length scores above it, whether one pass was run, two or three. Of a word
/// that is out by closing in pass 1 it is the score, bit for bit, for any terms that are not refused. For terms within ±2^a, a from 0 to 20,
/// no closed word's exact score is above it by more than 2^(a-9).
///
/// It is a bound and no more: it need not be reached by any word, so a score below it does not say that there is a better word. An Open
/// word is not closed, and its score may lie above the ceiling. For terms that are not whole a word may lie below it, or above it, by
/// rounding alone.
#[derive(Clone, Copy, Debug, PartialEq)]
pub struct Header {
    pub word: u64,
    pub outcome: Outcome,
    pub ceiling: f32,
}

/// The work areas of [`read_header`] and [`read_header_with`], made once and lent to every read, of either length.
#[derive(Clone, Debug)]
pub struct Areas {
    scores: Vec<f32>,
    next: Vec<f32>,
    start: Vec<f32>,
    decisions: Vec<u64>,
}

impl Areas {
    pub fn new() -> Areas {
        let states = vec![0.0; STATES];
        Areas { scores: states.clone(), next: states.clone(), start: states, decisions: vec![0; Kind::Data.header() * DECISIONS] }
    }
}

impl Default for Areas {
    fn default() -> Areas {
        Areas::new()
    }
}

/// The multiplier a of the interleaver p ↦ (a·p) mod n, for n to 10,240.
pub fn interleave_mult(n: u64) -> Result<u64, Refusal> {
    let mut mult = 0;
    // SAFETY: `mult` is one place, lent for the call.
    Refusal::told(unsafe { sys::ion_interleave_mult(n, &mut mult) })?;
    Ok(mult)
}

/// The CRC of up to 1,024 bits, a byte each, in a layout. In a header it stands in the last 16 bits, the first one highest, over the bits
/// before.
///
/// Proved: the same bits have the same CRC under no two of the 48 modes, kinds and layouts, so under one mode and kind a word whose CRC is
/// good in one layout has a bad one in every other.
///
/// ```
/// use ion_proved::{crc, Kind, Layout, Mode, Refusal};
/// assert_eq!(crc(Mode::R0, Kind::HeaderOnly, Layout::FULL, &[0]), Ok(0xEFDF));
/// // of no bits, the start: that of the full band, changed by the layout's mask
/// assert_eq!(crc(Mode::R0, Kind::HeaderOnly, Layout::new(2)?, &[]), Ok(0xFFFF ^ 0xD869));
/// assert_eq!(crc(Mode::R1, Kind::Data, Layout::FULL, &[0, 1, 2]), Err(Refusal::Bit));
/// assert_eq!(crc(Mode::R1, Kind::Data, Layout::FULL, &[0; 1025]), Err(Refusal::Length));
/// # Ok::<(), Refusal>(())
/// ```
pub fn crc(mode: Mode, kind: Kind, layout: Layout, bits: &[u8]) -> Result<u16, Refusal> {
    let mut crc = 0;
    // SAFETY: the slice is told with its own length.
    Refusal::told(unsafe { sys::ion_crc(mode as u8, kind as u8, layout.0, bits.as_ptr(), bits.len(), &mut crc) })?;
    Ok(crc)
}

/// The symbol values of a header, slot by slot, the same in every layout. Both lists have [`Kind::header`] entries.
pub fn header_values(mode: Mode, kind: Kind, bits: &[u8], values: &mut [u8]) -> Result<(), Refusal> {
    // SAFETY: both slices are told with their own lengths and cannot overlap.
    Refusal::told(unsafe { sys::ion_header_values(mode as u8, kind as u8, bits.as_ptr(), bits.len(), values.as_mut_ptr(), values.len()) })
}

/// The slots of so many bits: five for each symbol.
pub const fn slots_of(bits: usize) -> usize {
    5 * bits.div_ceil(5)
}

/// Sends up to 10,240 data bits, a byte each, in [`slots_of`] them: slot (a·p) mod n holds bit p with its scramble bit added modulo 2, and
/// a slot that no bit reaches 0. Five slots are a tone: slot 5·i + k is bit k, from the lowest, of the Gray code of symbol i's value.
///
/// Proved, for any length: the slots read as soft bits of +1 for 0 and -1 for 1, put back in order and unscrambled, give every bit its
/// sign back.
///
/// ```
/// use ion_proved::{interleave, slots_of, Refusal};
/// let mut slots = [9; slots_of(7)];
/// assert_eq!(interleave(&[1, 0, 1, 1, 0, 0, 1], &mut slots), Ok(()));
/// assert_eq!(slots, [1, 1, 0, 0, 1, 0, 0, 1, 1, 0]);
/// // refused, and as it was
/// assert_eq!(interleave(&[1, 0, 1, 1, 0, 0, 2], &mut slots), Err(Refusal::Bit));
/// assert_eq!(interleave(&[1, 0, 1, 1], &mut slots), Err(Refusal::Length));
/// assert_eq!(slots, [1, 1, 0, 0, 1, 0, 0, 1, 1, 0]);
/// assert_eq!(interleave(&[0; 10_241], &mut slots), Err(Refusal::Count));
/// ```
pub fn interleave(bits: &[u8], slots: &mut [u8]) -> Result<(), Refusal> {
    // SAFETY: both slices are told with their own lengths and cannot overlap.
    Refusal::told(unsafe { sys::ion_interleave(bits.as_ptr(), bits.len(), slots.as_mut_ptr(), slots.len()) })
}

/// Sends up to 2,048 code symbols of 0 to 31: slot (a·p) mod n holds symbol p, changed by its five-bit scramble. A slot's value is its
/// data symbol's.
///
/// Proved, for any length: whatever metrics the slots have, put back in order and unscrambled a slot's metric for its sent value is its
/// symbol's metric for the symbol's own value.
///
/// ```
/// use ion_proved::{interleave_sym, Refusal};
/// let mut values = [99; 3];
/// assert_eq!(interleave_sym(&[0, 31, 5], &mut values), Ok(()));
/// assert_eq!(values, [23, 23, 13]);
/// assert_eq!(interleave_sym(&[0, 32, 5], &mut values), Err(Refusal::Value));
/// ```
pub fn interleave_sym(symbols: &[u8], values: &mut [u8]) -> Result<(), Refusal> {
    // SAFETY: both slices are told with their own lengths and cannot overlap.
    Refusal::told(unsafe { sys::ion_interleave_sym(symbols.as_ptr(), symbols.len(), values.as_mut_ptr(), values.len()) })
}

/// Reads a header from [`TERMS`] terms for each of its symbols. The layout has no part in it; under this mode and kind the word's CRC
/// ([`crc`]) is good in one layout at most.
///
/// ```
/// use ion_proved::{read_header, Areas, Kind, Mode, Outcome, Refusal, TERMS};
/// let mut areas = Areas::new();
/// let mut terms = vec![0.0; 48 * TERMS];
/// // all terms equal: word 0 closes in the first pass
/// let header = read_header(Mode::R0, Kind::Cue, &terms, &mut areas).unwrap();
/// assert_eq!((header.word, header.outcome), (0, Outcome::Sure { score: 0.0, pass: 1 }));
/// assert_eq!(header.ceiling, 0.0);
/// terms[5] = f32::NAN;
/// assert_eq!(read_header(Mode::R0, Kind::Cue, &terms, &mut areas), Err(Refusal::Term));
/// // terms of a header with 48 symbols, where there should be 64
/// assert_eq!(read_header(Mode::R0, Kind::Data, &terms, &mut areas), Err(Refusal::Length));
/// // the same areas serve either length
/// assert_eq!(read_header(Mode::R0, Kind::Data, &[0.0; 64 * TERMS], &mut areas).unwrap().word, 0);
/// ```
pub fn read_header(mode: Mode, kind: Kind, terms: &[f32], areas: &mut Areas) -> Result<Header, Refusal> {
    read(mode, kind, terms, None, areas)
}

/// With a lent table of labels, or by parity.
fn read(mode: Mode, kind: Kind, terms: &[f32], labels: Option<&[u16]>, areas: &mut Areas) -> Result<Header, Refusal> {
    let Areas { scores, next, start, decisions } = areas;
    let decisions = &mut decisions[..kind.header() * DECISIONS];
    let (mut word, mut outcome, mut pass, mut score, mut ceiling) = (0, 0, 0, 0.0, 0.0);
    // SAFETY: every slice is told with its own length; they and the five places cannot overlap.
    Refusal::told(unsafe {
        match labels {
            None => sys::ion_read_header(
                mode as u8, kind as u8, terms.as_ptr(), terms.len(), scores.as_mut_ptr(), scores.len(), next.as_mut_ptr(), next.len(),
                start.as_mut_ptr(), start.len(), decisions.as_mut_ptr(), decisions.len(), &mut word, &mut outcome, &mut pass, &mut score,
                &mut ceiling,
            ),
            Some(labels) => sys::ion_read_header_with(
                mode as u8, kind as u8, terms.as_ptr(), terms.len(), labels.as_ptr(), labels.len(), scores.as_mut_ptr(), scores.len(),
                next.as_mut_ptr(), next.len(), start.as_mut_ptr(), start.len(), decisions.as_mut_ptr(), decisions.len(), &mut word,
                &mut outcome, &mut pass, &mut score, &mut ceiling,
            ),
        }
    })?;
    Ok(Header { word, outcome: Outcome::named(outcome, pass, score), ceiling })
}

/// Fills a table of [`REGISTERS`] labels, whatever was in it: entry r is the label of register r, of which bit i, from the lowest, is the
/// parity of the ones in generator i AND r. [`Labels`] has a table of its own; this is for one that lies elsewhere.
///
/// ```
/// use ion_proved::{fill_labels, Refusal, REGISTERS};
/// let mut table = [9; REGISTERS];
/// assert_eq!(fill_labels(&mut table), Ok(()));
/// assert_eq!(table[..4], [0, 31, 26, 5]);
/// assert_eq!(fill_labels(&mut table[1..]), Err(Refusal::Length));
/// ```
pub fn fill_labels(table: &mut [u16]) -> Result<(), Refusal> {
    // SAFETY: the slice is told with its own length.
    Refusal::told(unsafe { sys::ion_fill_labels(table.as_mut_ptr(), table.len()) })
}

/// The labels of all registers, filled in advance for [`read_header_with`]. One table serves every mode, kind and layout, and any number of
/// threads at once.
///
/// A table may be made elsewhere (`Labels::from`): it is not looked at then, since every read whose lengths are right tests all of it.
#[derive(Clone, Debug, PartialEq, Eq)]
pub struct Labels(Vec<u16>);

impl Labels {
    pub fn new() -> Labels {
        let mut table = vec![0; REGISTERS];
        fill_labels(&mut table).expect("a table of its length is filled");
        Labels(table)
    }

    /// The entries, register 0 first.
    pub fn as_slice(&self) -> &[u16] {
        &self.0
    }
}

impl Default for Labels {
    fn default() -> Labels {
        Labels::new()
    }
}

impl From<Vec<u16>> for Labels {
    fn from(table: Vec<u16>) -> Labels {
        Labels(table)
    }
}

/// Reads a header as [`read_header`] does, with labels filled in advance, in less time (docs/MEASUREMENTS.md).
///
/// Proved: with [`REGISTERS`] entries that are all labels it answers what [`read_header`] answers for the same mode, kind and terms, `Err`
/// included; so all that is proved of its answer holds of this one, under the same conditions. A table with one entry off the parity rule is refused in every
/// call whose lengths are right.
///
/// ```
/// use ion_proved::{read_header, read_header_with, Areas, Kind, Labels, Mode, Refusal, TERMS};
/// let (mut areas, labels) = (Areas::new(), Labels::new());
/// let mut terms = vec![0.0; 48 * TERMS];
/// terms[700] = 3.0;
/// let header = read_header(Mode::R0, Kind::Cue, &terms, &mut areas);
/// assert_eq!(read_header_with(Mode::R0, Kind::Cue, &terms, &labels, &mut areas), header);
///
/// // one entry off, or a table too short
/// let mut table = labels.as_slice().to_vec();
/// table[20_000] ^= 1;
/// assert_eq!(read_header_with(Mode::R0, Kind::Cue, &terms, &table.into(), &mut areas), Err(Refusal::Labels));
/// let short = Labels::from(labels.as_slice()[..48].to_vec());
/// assert_eq!(read_header_with(Mode::R0, Kind::Cue, &terms, &short, &mut areas), Err(Refusal::Length));
/// // the table is tested before the terms
/// terms[5] = f32::NAN;
/// assert_eq!(read_header_with(Mode::R0, Kind::Cue, &terms, &vec![0; 32_768].into(), &mut areas), Err(Refusal::Labels));
/// assert_eq!(read_header_with(Mode::R0, Kind::Cue, &terms, &labels, &mut areas), Err(Refusal::Term));
/// ```
pub fn read_header_with(mode: Mode, kind: Kind, terms: &[f32], labels: &Labels, areas: &mut Areas) -> Result<Header, Refusal> {
    read(mode, kind, terms, Some(labels.as_slice()), areas)
}

/// What the shed computer is told of a burst: its header's word and outcome as read, with mode and kind, the sample at which the burst starts,
/// and its segment's number. It is written as [`SLIP`] bytes: six fields, each a tag of one byte, a length of two and the value, every number
/// with its highest byte first. It has neither the layout nor the ceiling, nor a verdict on the word's CRC, which [`crc`] tells in the layout
/// in use.
///
/// Proved: [`Slip::from_bytes`] reads a string of bytes exactly where some slip is written as it, and as that slip, so no two strings are
/// one slip; and every answer of [`read_header`] and [`read_header_with`] can be written, with any start and segment. A score of -0.0 has
/// bytes of its own, though it equals 0.0 as a number. A slip from before version 107 is written and read as it was; but there Sure says
/// only that the word was out by closing: with pass 2 or 3 another one may beat it.
///
/// ```
/// use ion_proved::{Kind, Mode, Outcome, Refusal, SLIP, Slip};
/// let (word, outcome) = (0xC0_0000_0000, Outcome::Kept { score: 1.0 });
/// let slip = Slip { mode: Mode::R0, kind: Kind::HeaderOnly, word, outcome, start: 48_000, segment: 7 };
/// let bytes = slip.to_bytes()?;
/// assert_eq!(bytes[8..19], [3, 0, 8, 0, 0, 0, 0xC0, 0, 0, 0, 0]);
/// assert_eq!(Slip::from_bytes(&bytes), Ok(slip));
/// assert_eq!(Slip::from_bytes(&bytes[..SLIP - 1]), Err(Refusal::Slip));
///
/// // a word of 48 bits has zeros above them, and a score is finite
/// assert_eq!(Slip { word: 1 << 48, ..slip }.to_bytes(), Err(Refusal::Slip));
/// let outcome = Outcome::Open { score: f32::INFINITY };
/// assert_eq!(Slip { outcome, ..slip }.to_bytes(), Err(Refusal::Slip));
/// // no word is Likely in pass 1
/// let outcome = |pass| Outcome::Likely { score: 1.0, pass };
/// assert_eq!(Slip { outcome: outcome(1), ..slip }.to_bytes(), Err(Refusal::Slip));
/// assert_eq!(Slip { outcome: outcome(3), ..slip }.to_bytes()?[22..24], [3, 3]);
/// # Ok::<(), Refusal>(())
/// ```
#[derive(Clone, Copy, Debug, PartialEq)]
pub struct Slip {
    pub mode: Mode,
    pub kind: Kind,
    pub word: u64,
    pub outcome: Outcome,
    pub start: u64,
    pub segment: u16,
}

impl Slip {
    /// Its bytes; [`Refusal::Slip`] where the word has bits above its own, the score is not finite, a Sure's pass is not from 1 to 3, or a
    /// Likely's not 2 or 3.
    pub fn to_bytes(&self) -> Result<[u8; SLIP], Refusal> {
        let (outcome, pass, score) = self.outcome.numbers();
        let mut bytes = [0; SLIP];
        // SAFETY: the array is told with its own length.
        Refusal::told(unsafe {
            sys::ion_write_slip(
                self.mode as u8, self.kind as u8, self.word, outcome, pass, score, self.start, self.segment, bytes.as_mut_ptr(), SLIP,
            )
        })?;
        Ok(bytes)
    }

    /// The slip that is written as these bytes; [`Refusal::Slip`] for any others, of whatever length.
    pub fn from_bytes(bytes: &[u8]) -> Result<Slip, Refusal> {
        let (mut mode, mut kind, mut word, mut outcome, mut pass, mut score, mut start, mut segment) = (0, 0, 0, 0, 0, 0.0, 0, 0);
        // SAFETY: the slice is told with its own length; the eight places are one value each, lent for the call.
        Refusal::told(unsafe {
            sys::ion_read_slip(
                bytes.as_ptr(), bytes.len(), &mut mode, &mut kind, &mut word, &mut outcome, &mut pass, &mut score, &mut start, &mut segment,
            )
        })?;
        let mode = if mode == 0 { Mode::R0 } else { Mode::R1 };
        let kind = [Kind::HeaderOnly, Kind::Data, Kind::Cue][kind as usize];
        Ok(Slip { mode, kind, word, outcome: Outcome::named(outcome, pass, score), start, segment })
    }
}

/// Puts a slip on a lent board: [`BOARD`] bytes, places of [`SLIP`] bytes, of which the first `count` are listed, segments rising; places past
/// the count are not read, and of them only the one that a new segment fills is written. [`Board`] says by which rules, and owns one.
///
/// [`Refusal::Length`] where the board has another length; [`Refusal::Slip`] where the count is above [`SEGMENTS`], a listed place is no slip,
/// their segments do not rise, or the slip is none, whatever its length; [`Refusal::Full`] where its segment is not listed and
/// [`SEGMENTS`] are.
///
/// ```
/// use ion_proved::{BOARD, Kind, Mode, Outcome, Refusal, SLIP, Slip, put_slip};
/// // whatever the places hold: none is listed
/// let (mut board, mut count) = (vec![0xA5; BOARD], 0);
/// let outcome = Outcome::Open { score: 0.0 };
/// let slip = Slip { mode: Mode::R0, kind: Kind::Cue, word: 0, outcome, start: 0, segment: 7 }.to_bytes()?;
/// put_slip(&mut board, &mut count, &slip)?;
/// assert_eq!((&board[..SLIP], count), (&slip[..], 1));
/// assert!(board[SLIP..].iter().all(|&b| b == 0xA5));
/// // refused, and as they were
/// assert_eq!(put_slip(&mut board[..BOARD - 1], &mut count, &slip), Err(Refusal::Length));
/// count = 2;
/// assert_eq!(put_slip(&mut board, &mut count, &slip), Err(Refusal::Slip));
/// assert_eq!(count, 2);
/// # Ok::<(), Refusal>(())
/// ```
pub fn put_slip(board: &mut [u8], count: &mut u32, slip: &[u8]) -> Result<(), Refusal> {
    // SAFETY: both slices are told with their own lengths; they and the count cannot overlap.
    Refusal::told(unsafe { sys::ion_put_slip(board.as_mut_ptr(), board.len(), count, slip.as_ptr(), slip.len()) })
}

/// What the planner's screen shows: one slip a segment, segments rising, at most [`SEGMENTS`].
///
/// A slip for a listed segment takes the listed one's place where its reading is better, whichever start is the later, or where both readings
/// are equal and its start is later: Sure is better than Likely, Likely than Kept, and Kept than Open, whatever the pass and the score. Else
/// the listed one remains, also where the new one is later but reads worse. A slip for another segment is listed in order.
///
/// Proved: after any series of puts from [`Board::new`], those refused set aside, each listed segment shows the slip that these rules leave of
/// its own slips in order of arrival: of those that read best the one that starts latest, and of several such the one that came first. A
/// segment once listed stays listed, so of one segment's slips all are accepted or none: the first 512 different segments that come are
/// listed.
///
/// Before version 110 the start was tried first. A board from then is taken as it is ([`Board::from_bytes`]): what it shows is judged against
/// further slips by the order above, and what it passed over is not on it.
///
/// ```
/// use ion_proved::{Board, Kind, Mode, Outcome, Refusal, SEGMENTS, Slip};
/// let slip = |segment, start, outcome| Slip { mode: Mode::R0, kind: Kind::Cue, word: 5, outcome, start, segment };
/// let (sure, likely) = (Outcome::Sure { score: 1.0, pass: 3 }, Outcome::Likely { score: 5.0, pass: 2 });
/// let kept = Outcome::Kept { score: 9.0 };
/// let mut board = Board::new();
/// board.put_slip(&slip(7, 48_000, kept))?;
/// board.put_slip(&slip(3, 50_000, sure))?;
/// assert_eq!(board.slips().map(|s| s.segment).collect::<Vec<_>>(), [3, 7]);
///
/// // a better reading replaces, at an earlier start too; a worse one does not, at a later start neither
/// board.put_slip(&slip(7, 48_000, likely))?;
/// board.put_slip(&slip(7, 48_001, kept))?;
/// assert_eq!(board.get(7), Some(slip(7, 48_000, likely)));
/// board.put_slip(&slip(7, 47_999, sure))?;
/// board.put_slip(&slip(7, 48_001, likely))?;
/// assert_eq!(board.get(7), Some(slip(7, 47_999, sure)));
/// // of equal readings the later start is shown
/// board.put_slip(&slip(7, 48_001, sure))?;
/// board.put_slip(&slip(7, 48_000, sure))?;
/// assert_eq!(board.get(7), Some(slip(7, 48_001, sure)));
/// assert_eq!((board.len(), board.get(4)), (2, None));
///
/// // refused, and as it was
/// let was = board.clone();
/// assert_eq!(board.put(&slip(4, 0, sure).to_bytes()?[..43]), Err(Refusal::Slip));
/// assert_eq!(board, was);
///
/// // listed segments are judged on a full board too
/// for segment in 0..SEGMENTS as u16 {
///     board.put_slip(&slip(segment, 0, kept))?;
/// }
/// assert_eq!(board.put_slip(&slip(512, 60_000, sure)), Err(Refusal::Full));
/// board.put_slip(&slip(511, 60_000, sure))?;
/// assert_eq!((board.len(), board.get(511)), (512, Some(slip(511, 60_000, sure))));
/// # Ok::<(), Refusal>(())
/// ```
#[derive(Clone)]
pub struct Board {
    bytes: Vec<u8>,
    count: u32,
}

impl Board {
    /// No segment listed.
    pub fn new() -> Board {
        Board { bytes: vec![0; BOARD], count: 0 }
    }

    /// A board as it was lent or kept: [`BOARD`] bytes and how many places are listed. Refused as [`put_slip`] refuses it, by the library's own
    /// judgement: on a copy the first listed slip is put again, which changes nothing on a good board.
    ///
    /// ```
    /// use ion_proved::{BOARD, Board, Kind, Mode, Outcome, Refusal, SLIP, Slip};
    /// let outcome = Outcome::Open { score: 0.0 };
    /// let slip = |segment| Slip { mode: Mode::R0, kind: Kind::Cue, word: 0, outcome, start: 0, segment };
    /// let mut board = Board::new();
    /// board.put_slip(&slip(7))?;
    /// board.put_slip(&slip(3))?;
    /// let bytes = board.as_bytes();
    /// assert_eq!(Board::from_bytes(bytes, 2), Ok(board.clone()));
    /// assert_eq!(Board::from_bytes(bytes, 1).map(|b| b.slips().collect()), Ok(vec![slip(3)]));
    /// assert_eq!(Board::from_bytes(bytes, 0), Ok(Board::new()));
    /// // zeros are no slip, 513 are too many, and segments rise
    /// assert_eq!(Board::from_bytes(bytes, 3), Err(Refusal::Slip));
    /// assert_eq!(Board::from_bytes(bytes, 513), Err(Refusal::Slip));
    /// let mut falling = bytes.to_vec();
    /// falling[..2 * SLIP].rotate_left(SLIP);
    /// assert_eq!(Board::from_bytes(&falling, 2), Err(Refusal::Slip));
    /// assert_eq!(Board::from_bytes(&bytes[..BOARD - 1], 0), Err(Refusal::Length));
    /// # Ok::<(), Refusal>(())
    /// ```
    pub fn from_bytes(bytes: &[u8], count: u32) -> Result<Board, Refusal> {
        let mut board = Board { bytes: bytes.to_vec(), count };
        // where none is listed there is none to put again: a board of the right length refuses the string of no bytes alone
        let first = if count == 0 { &[] } else { bytes.get(..SLIP).unwrap_or_default() };
        match board.put(first) {
            Err(Refusal::Slip) if count == 0 => Ok(board),
            told => told.map(|()| board),
        }
    }

    /// Puts a slip by its bytes. From [`Board::new`] it is refused only for the slip itself ([`Refusal::Slip`]) or, where its segment is not
    /// listed, on a full board ([`Refusal::Full`]), as is proved.
    pub fn put(&mut self, slip: &[u8]) -> Result<(), Refusal> {
        put_slip(&mut self.bytes, &mut self.count, slip)
    }

    /// Puts a slip; [`Refusal::Slip`] where it cannot be written ([`Slip::to_bytes`]), and as [`Board::put`].
    pub fn put_slip(&mut self, slip: &Slip) -> Result<(), Refusal> {
        self.put(&slip.to_bytes()?)
    }

    /// The segments listed.
    pub fn len(&self) -> usize {
        self.count as usize
    }

    pub fn is_empty(&self) -> bool {
        self.count == 0
    }

    /// The slips listed, segments rising.
    pub fn slips(&self) -> impl Iterator<Item = Slip> + '_ {
        self.listed().chunks_exact(SLIP).map(|place| Slip::from_bytes(place).expect("a listed place is a slip"))
    }

    /// The slip listed for a segment.
    pub fn get(&self, segment: u16) -> Option<Slip> {
        self.slips().find(|slip| slip.segment == segment)
    }

    /// All [`BOARD`] bytes, as [`put_slip`] and the C function take them; the first [`Board::len`] places are listed.
    pub fn as_bytes(&self) -> &[u8] {
        &self.bytes
    }

    fn listed(&self) -> &[u8] {
        &self.bytes[..self.len() * SLIP]
    }
}

impl Default for Board {
    fn default() -> Board {
        Board::new()
    }
}

/// Two boards are the same where they list the same slips, whatever lies past them.
impl PartialEq for Board {
    fn eq(&self, other: &Board) -> bool {
        self.listed() == other.listed()
    }
}

impl Eq for Board {}

impl fmt::Debug for Board {
    fn fmt(&self, f: &mut fmt::Formatter<'_>) -> fmt::Result {
        f.debug_list().entries(self.slips()).finish()
    }
}

/// Metrics ([`VALUES`] a symbol, each in -40..0, relative to the symbol's greatest) and soft bits (each in -12..12) of a burst's data. A soft
/// bit is ln(p(bit is 0) / p(bit is 1)): above 0 the bit is rather 0.
#[derive(Clone, Debug, PartialEq)]
pub struct Soft {
    pub metrics: Vec<f32>,
    pub bits: Vec<f32>,
}

/// Soft values of `bits` bits in ceil(bits/5) symbols: [`TERMS`] terms and one blanked count a symbol, which is the number of blanked audio
/// samples among the (6k+1)·window behind the symbol's window in layout k ([`Layout::span`] times the window). A symbol with more than half
/// of them blanked is erased.
///
/// ```
/// use ion_proved::{soft_values, Form, Kind, Layout, Mode, Refusal, TERMS};
/// // one erased symbol (1,120 of 1,120 blanked) tells nothing; the scramble's sign stays on the second bit
/// let soft = soft_values(Mode::R0, Kind::HeaderOnly, Layout::FULL, Form::Bits, 160, 2, &[0.0; TERMS], &[1120]).unwrap();
/// assert_eq!(soft.bits.iter().map(|x| x.to_bits()).collect::<Vec<_>>(), [0.0_f32.to_bits(), (-0.0_f32).to_bits()]);
/// assert_eq!(soft_values(Mode::R1, Kind::Data, Layout::FULL, Form::Bits, 160, 0, &[], &[]), Err(Refusal::Window));
/// ```
#[allow(clippy::too_many_arguments)]
pub fn soft_values(
    mode: Mode, kind: Kind, layout: Layout, form: Form, window: u32, bits: u32, terms: &[f32], blanked: &[u32],
) -> Result<Soft, Refusal> {
    // more bits than that are refused by their number, whatever the buffers' lengths
    let count = if bits <= BITS { bits as usize } else { 0 };
    let symbols = count.div_ceil(5);
    let mut work = vec![0.0; symbols * VALUES];
    let mut soft = Soft { metrics: work.clone(), bits: vec![0.0; count] };
    // SAFETY: every slice is told with its own length; the lent three cannot overlap anything.
    Refusal::told(unsafe {
        sys::ion_soft_values(
            mode as u8, kind as u8, layout.0, form as u8, window, bits, terms.as_ptr(), terms.len(), blanked.as_ptr(), blanked.len(),
            work.as_mut_ptr(), work.len(), soft.metrics.as_mut_ptr(), soft.metrics.len(), soft.bits.as_mut_ptr(), soft.bits.len(),
        )
    })?;
    Ok(soft)
}

/// Local noise factors: how many times as loud as its burst's noise each place is about each data symbol, at least 1, a row of [`PLACES`] for
/// each row of energies. A generator that raises some places for part of a burst is seen in their factors there, a crash over one symbol in
/// all of its row.
///
/// `energies` has a row for each data symbol, from the first one behind the header on, `noise` the noise of each place for the whole burst, in
/// the same unit; a part `eps` of the empty places is disturbed and has `r` times the noise. A mode has its bins and four places more, 52 in
/// R0 and 36 in R1; places from there on have 1.
///
/// A factor is the greatest of 1, its row's level and its place's level, in `f32`. Let z be an energy over its place's noise. In each row the
/// five places about the strongest tone (the greatest z among the places of the symbol's 32 values, of equal ones that of the least value)
/// are missing.
/// - The row's level: of the m values of z that are there the one in the middle, over ln 2, less 3/√m.
/// - The place's level: the mean of its z over this row, the twelve before and the twelve behind, as far as there are such rows and it is
///   there in them, over 1 + eps·(r - 1), less 2/√(their number). Where it is there in fewer than six of them there is none.
///
/// Proved: every factor is finite and at least 1; five places are missing in every row; each square root is the `f32` nearest to the true one.
/// The roots are a table of 52, which the program `roots` works out anew and prints.
///
/// [`Refusal::Noise`] where there are over [`ROWS`] rows, or `eps` is not in 0 to 0.5, `r` in 1 to 1,000, a noise in 2^-20 to 10^9 or an
/// energy in 0 to 10^9, those of places that the mode does not have among them.
///
/// ```
/// use ion_proved::{Kind, Mode, PLACES, ROWS, Refusal, local_noise};
/// // half the noise everywhere, a strong tone at place 5, and at place 20 a generator
/// let mut row = [0.5; PLACES];
/// (row[5], row[20]) = (100.0, 8.0);
/// let mut rows = vec![row; 25];
/// let noise = [1.0; PLACES];
/// let factors = local_noise(Mode::R1, Kind::Data, &rows, &noise, 0.0, 1.0)?;
/// // about row 12 there are 25 rows: their mean less 2/√25
/// assert_eq!(factors[12][20], 7.6);
/// assert!(factors.iter().all(|f| (0..PLACES).all(|place| f[place] == 1.0 || place == 20)));
///
/// // R1 does not have place 40, but what is given for it must be in range all the same
/// rows[24][40] = f32::NAN;
/// assert_eq!(local_noise(Mode::R1, Kind::Data, &rows, &noise, 0.0, 1.0), Err(Refusal::Noise));
/// assert_eq!(local_noise(Mode::R1, Kind::Data, &vec![row; ROWS + 1], &noise, 0.0, 1.0), Err(Refusal::Noise));
/// assert_eq!(local_noise(Mode::R0, Kind::Cue, &[], &noise, 0.0, 1.0), Ok(vec![]));
/// # Ok::<(), Refusal>(())
/// ```
pub fn local_noise(
    mode: Mode, kind: Kind, energies: &[[f32; PLACES]], noise: &[f32; PLACES], eps: f32, r: f32,
) -> Result<Vec<[f32; PLACES]>, Refusal> {
    // no buffer for rows that are refused, of which there may be more than a u32 can count
    if energies.len() > ROWS {
        return Err(Refusal::Noise);
    }
    let mut factors = vec![[0.0; PLACES]; energies.len()];
    let rows = energies.len() as u32;
    let (energies, lent) = (energies.as_flattened(), factors.as_flattened_mut());
    // SAFETY: every slice is told with its own length; the lent one cannot overlap the others.
    Refusal::told(unsafe {
        sys::ion_local_noise(
            mode as u8, kind as u8, rows, energies.as_ptr(), energies.len(), noise.as_ptr(), noise.len(), eps, r, lent.as_mut_ptr(), lent.len(),
        )
    })?;
    Ok(factors)
}

/// A block of symbols: twice its place, counted in symbols, 0 to 4,096, and its timing in samples, within ±4,096.
#[derive(Clone, Copy, Debug, PartialEq)]
pub struct Block {
    pub place2: u32,
    pub timing: f64,
}

/// The drift, in samples a symbol, by up to 64 blocks whose places never fall.
///
/// ```
/// use ion_proved::{fit_drift, Block, Mode, Refusal};
/// let mut blocks: Vec<Block> = (0..5).map(|i| Block { place2: 40 * i, timing: i as f64 }).collect();
/// // five blocks are too few for a drift
/// assert_eq!(fit_drift(Mode::R0, &blocks), Ok(0.0));
/// blocks.push(Block { place2: 0, timing: 5.0 });
/// assert_eq!(fit_drift(Mode::R0, &blocks), Err(Refusal::Blocks));
/// ```
pub fn fit_drift(mode: Mode, blocks: &[Block]) -> Result<f64, Refusal> {
    let places: Vec<u32> = blocks.iter().map(|b| b.place2).collect();
    let timings: Vec<f64> = blocks.iter().map(|b| b.timing).collect();
    let mut drift = 0.0;
    // SAFETY: both slices are told with their own lengths.
    Refusal::told(unsafe { sys::ion_fit_drift(mode as u8, places.as_ptr(), places.len(), timings.as_ptr(), timings.len(), &mut drift) })?;
    Ok(drift)
}

/// What was heard of one symbol.
#[derive(Clone, Copy, Debug, PartialEq)]
pub enum Sample {
    /// The tone's energy in a window some samples before the symbol's and in one some samples after it, and what of it is expected
    /// to be noise, all in one unit, each in 0 to 10^9.
    Heard { early: f64, late: f64, noise: f64 },
    Missed,
}

/// Follows the timing of one burst, symbol by symbol, for up to 2,048 symbols.
///
/// ```
/// use ion_proved::{Mode, Refusal, Sample, Tracker};
/// let mut tracker = Tracker::new(Mode::R0);
/// // a hundred symbols whose late gate hears more: the burst lies later than its shift says
/// for _ in 0..100 {
///     tracker.track(Sample::Heard { early: 9.0, late: 11.0, noise: 1.0 }).unwrap();
/// }
/// assert_eq!(tracker.symbols(), 100);
/// // R0's blocks have 32 symbols, and call n judges symbol n - 3
/// assert_eq!(tracker.blocks().map(|b| b.place2).collect::<Vec<_>>(), [31, 95, 159]);
/// // refused, and as it was
/// let was = tracker.clone();
/// assert_eq!(tracker.track(Sample::Heard { early: -1.0, late: 0.0, noise: 0.0 }), Err(Refusal::Sample));
/// assert_eq!(tracker, was);
/// ```
#[derive(Clone, Debug, PartialEq)]
pub struct Tracker {
    mode: Mode,
    n: usize,
    shift: i32,
    tnum: f64,
    tden: f64,
    drift: f64,
    blocks: usize,
    shifts: Vec<i32>,
    places: [u32; 64],
    timings: [f64; 64],
}

impl Tracker {
    /// Nothing heard yet.
    pub fn new(mode: Mode) -> Tracker {
        Tracker { mode, n: 0, shift: 0, tnum: 0.0, tden: 0.0, drift: 0.0, blocks: 0, shifts: vec![0; 2048], places: [0; 64], timings: [0.0; 64] }
    }

    /// One symbol more. From [`Tracker::new`] it is refused only for its values or after 2,048 symbols, as is proved.
    pub fn track(&mut self, sample: Sample) -> Result<(), Refusal> {
        let (heard, early, late, noise) = match sample {
            Sample::Heard { early, late, noise } => (1, early, late, noise),
            Sample::Missed => (0, 0.0, 0.0, 0.0),
        };
        // SAFETY: every list is told with its own length; they and the six places are parts of one value and cannot overlap.
        Refusal::told(unsafe {
            sys::ion_track_timing(
                self.mode as u8, &mut self.n, &mut self.shift, &mut self.tnum, &mut self.tden, &mut self.drift, &mut self.blocks,
                self.shifts.as_mut_ptr(), self.shifts.len(), self.places.as_mut_ptr(), self.places.len(), self.timings.as_mut_ptr(),
                self.timings.len(), heard, early, late, noise,
            )
        })
    }

    /// The symbols so far.
    pub fn symbols(&self) -> usize {
        self.n
    }

    /// By how many samples the next symbol is shifted: within ±137 in R0, ±69 in R1.
    pub fn shift(&self) -> i32 {
        self.shift
    }

    /// The drift so far, in samples a symbol.
    pub fn drift(&self) -> f64 {
        self.drift
    }

    /// The shift that each symbol so far had.
    pub fn shifts(&self) -> &[i32] {
        &self.shifts[..self.n]
    }

    /// The blocks in which something was heard.
    pub fn blocks(&self) -> impl Iterator<Item = Block> + '_ {
        self.places.iter().zip(&self.timings).take(self.blocks).map(|(&place2, &timing)| Block { place2, timing })
    }
}
