// Child of phy_mfsk::rx::data, so it sees the private items of all its ancestors. No rule is restated here:
// each function calls the Rust's item, or includes lines cut from the Rust's files (gen_*.rs, made by make.sh).
use super::super::model::{self, Params, local_noise};
use super::super::{Active, EXT, Energies, Grid, Known, LLR_MAX, MfskRx, NE, gi};
use super::{METRIC_FLOOR, TBLOCK, TD};
use crate::fec::conv::ConvCode;
pub use crate::fec::conv::Told;
pub use crate::phy_mfsk::MfskMode;
pub use crate::phy_mfsk::frame::{Fmt, Kind};
use crate::phy_mfsk::{SYM, conv, frame};
pub mod air {
    pub use crate::phy_mfsk::conv::*;
    pub use crate::phy_mfsk::frame::*;
    pub use crate::phy_mfsk::util::*;
}
use ion_dsp::dsp::Complex;
pub type Terms = [[f32; NE]; 5];

pub fn metric(t: &Terms, e: usize) -> f32 {
    model::metric(t, e)
}
pub fn fit_drift(b: &[(f64, f64)], sym: usize) -> f64 {
    super::fit_drift(b, sym)
}
pub fn windows(mode: MfskMode) -> [usize; 3] {
    super::super::Grid::new(mode).wins
}
pub fn code() -> ConvCode {
    ConvCode::new(conv::K, &conv::GEN)
}
/// decode_tb with 3 passes over terms: 260 f32 a header symbol. The joining of `metric`, `hop`, `tone_bin` and `header_slot`
/// is acquire.rs's (line cited in the README), all of it calls of the Rust's functions.
pub fn decode_terms(c: &ConvCode, mode: MfskMode, kind: Kind, terms: &[Terms]) -> (Vec<u8>, f32) {
    let fmt = Fmt::of(mode);
    c.decode_tb(frame::header_steps(fmt, kind), 3, &mut |j, m| step_metrics(fmt, kind, terms, j, m))
}
/// The same by the copy of its loop, which tells besides how the word came, and the passes' tops, which are not the Rust's.
pub fn decode_terms_told(c: &ConvCode, mode: MfskMode, kind: Kind, terms: &[Terms]) -> (Vec<u8>, f32, Told) {
    let fmt = Fmt::of(mode);
    c.decode_tb_told(frame::header_steps(fmt, kind), 3, &mut |j, m| step_metrics(fmt, kind, terms, j, m))
}
fn step_metrics(fmt: Fmt, kind: Kind, terms: &[Terms], j: usize, m: &mut [f32]) {
    let slot = frame::header_slot(fmt, kind, j);
    let h = fmt.hop(slot);
    for (v, o) in m.iter_mut().enumerate() {
        *o = metric(&terms[slot], fmt.tone_bin(h, 0, v) + EXT);
    }
}

/// A tracker as `Active` holds it; everything but the drift fields and the given ones is empty.
fn active(mode: MfskMode, symbols: bool, hsyms: usize, dsyms: usize, nbits: usize, w: usize, params: Params) -> Active {
    Active {
        mode, cue: false, symbols, user: 0, extra: 0, nbits, hsyms, dsyms, t0c: 0, d: 0, w, f: 0.0, f_sum: 0.0, params,
        next: 0, energies: Vec::new(), acc: Complex::ZERO, mag: 0.0, coh: Complex::ZERO, coh_p: [0.0; 2], coh_n: 0.0,
        prev_e: None, isi: [[0.0; 2]; 2], snr_db: 0.0, start_sample: 0, dref: 0, shifts: Vec::new(), shift: 0, tnum: 0.0,
        tden: 0.0, tcnt: 0, blocks: Vec::new(), drift: 0.0, blanked: Vec::new(),
    }
}
fn some_params() -> Params {
    model::estimate(&[[1.0; NE]], &[], NE)
}

pub struct Tracker(Active, Fmt);
impl Tracker {
    pub fn new(mode: MfskMode) -> Self {
        Tracker(active(mode, false, 0, 0, 0, Fmt::of(mode).sym, some_params()), Fmt::of(mode))
    }
    /// In any state: the shift, (tnum, tden, drift), how many symbols wait for their block's end, the stored shifts and the blocks.
    pub fn at(mode: MfskMode, shift: i32, sums: (f64, f64, f64), waiting: usize, shifts: &[i32], blocks: &[(f64, f64)]) -> Self {
        let mut t = Tracker::new(mode);
        (t.0.next, t.0.shift, t.0.tcnt) = (shifts.len(), shift, waiting);
        (t.0.tnum, t.0.tden, t.0.drift) = sums;
        (t.0.shifts, t.0.blocks) = (shifts.to_vec(), blocks.to_vec());
        t
    }
    /// (shift, tnum, tden, tcnt, drift) and the blocks.
    pub fn state(&self) -> (usize, i32, f64, f64, usize, f64) {
        (self.0.next, self.0.shift, self.0.tnum, self.0.tden, self.0.tcnt, self.0.drift)
    }
    pub fn blocks(&self) -> &[(f64, f64)] {
        &self.0.blocks
    }
    pub fn shifts(&self) -> &[i32] {
        &self.0.shifts
    }
    /// One symbol; `heard` = (early, late, noise).
    pub fn symbol(&mut self, heard: Option<(f64, f64, f64)>) {
        let fmt = self.1;
        let b = &mut self.0;
        include!("gen_push.rs"); // data.rs 103 and 105
        track(b, fmt, heard);
    }
}
fn track(b: &mut Active, fmt: Fmt, heard: Option<(f64, f64, f64)>) {
    include!("gen_track.rs");
}

pub struct Soft {
    pub llrs: Vec<f32>,
    pub metrics: Vec<f32>,
}
/// The second half of service_burst, whole and unchanged, from energies (its first half is skipped: next = dsyms).
/// Returns the terms that it made of the energies as well, so that the port can be given them.
pub fn soft_energies(rx: &mut MfskRx, mode: MfskMode, symbols: bool, hsyms: usize, nbits: usize, e: &[[f32; NE]], blanked: &[f32], p: &ParamsBox) -> (Soft, Vec<Terms>) {
    let fmt = Fmt::of(mode);
    let mut b = active(mode, symbols, hsyms, e.len(), nbits, fmt.win, p.0);
    b.next = e.len();
    b.energies = e.to_vec();
    b.blanked = blanked.to_vec();
    let local = local_noise(&b.energies, &b.params, fmt, hsyms);
    let terms = e.iter().zip(&local).map(|(x, k)| b.params.terms_local(x, k)).collect();
    let mut out = Vec::new();
    assert!(rx.service_burst(&mut b, &mut out));
    let o = out.pop().unwrap();
    (Soft { llrs: o.llrs, metrics: o.metrics }, terms)
}
pub struct ParamsBox(Params);
impl ParamsBox {
    /// A model fitted by `estimate` to symbols with known tones.
    pub fn fitted(e: &[[f32; NE]], mode: MfskMode) -> Self {
        ParamsBox(model::estimate(e, &MfskRx::preamble_known()[..e.len().min(16)], NE))
    }
    /// What `local_noise` reads of a model, as given: the bins in use, the noise of each, eps and r.
    pub fn of(mode: MfskMode, noise: &[f32; NE], eps: f32, r: f32) -> Self {
        let mut p = model::estimate(&[[1.0; NE]], &[], Grid::new(mode).ne);
        (p.noise, p.eps, p.r) = (*noise, eps, r);
        ParamsBox(p)
    }
}
/// `local_noise` itself, of the rows behind a header of this kind.
pub fn local_factors(mode: MfskMode, kind: Kind, e: &[[f32; NE]], p: &ParamsBox) -> Vec<[f32; NE]> {
    local_noise(e, &p.0, Fmt::of(mode), frame::header_symbols(mode, kind))
}
/// The same half from terms: data.rs 129 to 191 with three lines changed by make.sh (the loop's head, `tm`, and the fading sums out).
pub fn soft_terms(mode: MfskMode, symbols: bool, hsyms: usize, nbits: usize, terms: &[Terms], blanked: &[f32]) -> Soft {
    let fmt = Fmt::of(mode);
    let mut b = active(mode, symbols, hsyms, terms.len(), nbits, fmt.win, some_params());
    b.blanked = blanked.to_vec();
    let b = &mut b;
    use super::{BLANK_ERASE, lse, metric};
    let mut metrics = Vec::new();
    let llrs = if b.dsyms == 0 {
        Vec::new()
    } else {
        include!("gen_soft.rs")
    };
    Soft { llrs, metrics }
}
/// `blanked_frac` cannot be reached without the ring; its last two lines (rx.rs), at layout `k`.
pub fn blanked_frac(s: u32, w: usize, k: usize) -> f32 {
    let layout = crate::phy_mfsk::MfskLayout::scaled(k);
    include!("gen_frac.rs")
}

/// The places of the 16 preamble tones on R0's grid.
pub fn preamble_places() -> Vec<usize> {
    MfskRx::preamble_known().iter().map(|k| k.e[0]).collect()
}
/// The header's terms before anything of it is known (`try_header`), from the energies of preamble and header symbols in
/// the window of that number.
pub fn prior_terms(mode: MfskMode, number: usize, pre: &[Energies], header: &[Energies]) -> Vec<Terms> {
    let p = match mode {
        MfskMode::R0 => model::header_prior(pre),
        MfskMode::R1 => model::header_prior_r1(pre, header, Grid::new(MfskMode::R0).wins[number], &Grid::new(mode)),
    };
    header.iter().map(|x| p.terms(x)).collect()
}
fn known_symbols(mode: MfskMode, kind: Kind, info: &[u8]) -> Vec<Known> {
    let g = &Grid::new(mode);
    let fmt = g.fmt;
    include!("gen_known.rs") // acquire.rs 385 to 410
}
/// The data's terms by the model of the header's known symbols (`start_burst`) and the local noise (`service_burst`).
pub fn fitted_terms(mode: MfskMode, kind: Kind, info: &[u8], pre: &[Energies], header: &[Energies], data: &[Energies]) -> Vec<Terms> {
    let known = known_symbols(mode, kind, info);
    let heard: Vec<Energies> = pre.iter().chain(header).copied().collect();
    let p = model::estimate(&heard[heard.len() - known.len()..], &known, Grid::new(mode).ne);
    let local = local_noise(data, &p, Fmt::of(mode), frame::header_symbols(mode, kind));
    data.iter().zip(&local).map(|(x, k)| p.terms_local(x, k)).collect()
}
