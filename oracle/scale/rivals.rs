// What f32 can hide: a word that is handed out as closed, and any ceiling, against a second search, in f64 over the same terms (second.rs). The
// header read promises (crate trellis, `NearExact`), for terms within ±2^a: of a word that is out by closing in the first pass no walk's exact score
// is above the word's by more than 2^(a-8), and of one that is Sure, in whichever pass, no closed word's; the score of any word handed out as closed is
// off from the word's exact one by at most 2^(a-9); and no closed word's exact score is above the ceiling by more than 2^(a-9). Of closed words the one
// sent and the one read are tried here, in oracle/read.rs many. How far the ceiling is from that in f64 over as many passes is not promised; no more
// than 2^(a-8) is taken.
use crate::check::Check;
use crate::headers::Answered;
use crate::second::{Pass, STATES, closed, metrics};

/// Over all headers: how many. Over those out in the first pass: how many, and of how many some walk's exact score is above the word's; by how much
/// at most, and the greatest share of 2^(a-8). Over those handed out as closed: how many, and how far the score is off at most, with the greatest share
/// of 2^(a-9). Over those that are Sure after the first pass: how many, and the greatest share of 2^(a-8) by which the sent word's exact score is above
/// the word's. Over all again: the greatest shares of 2^(a-9) by which the answered word's exact score is above the ceiling, and of 2^(a-8) by which
/// the ceiling is off from that in f64.
#[derive(Default, Clone, Copy)]
pub struct Rivals {
    pub held: u64,
    pub out: u64,
    pub above: u64,
    pub most: f64,
    pub most_share: f64,
    pub closed: u64,
    pub off: f64,
    pub off_share: f64,
    pub sure: u64,
    pub sure_share: f64,
    pub over_share: f64,
    pub lost_share: f64,
}

impl Rivals {
    pub fn join(&mut self, o: &Rivals) {
        self.held += o.held;
        self.out += o.out;
        self.above += o.above;
        self.most = self.most.max(o.most);
        self.most_share = self.most_share.max(o.most_share);
        self.closed += o.closed;
        self.off = self.off.max(o.off);
        self.off_share = self.off_share.max(o.off_share);
        self.sure += o.sure;
        self.sure_share = self.sure_share.max(o.sure_share);
        self.over_share = self.over_share.max(o.over_share);
        self.lost_share = self.lost_share.max(o.lost_share);
    }
    pub fn line(&self) -> String {
        format!(
            "first pass: {} headers out by closing; a walk's exact score above the word's: {}, by at most {:.3e} ({:.4} of 2^(a-8)); \
             {} handed out as closed: the score off from the exact one by at most {:.3e} ({:.4} of 2^(a-9)); {} Sure after the first pass: the sent word's \
             exact score above by at most {:.4} of 2^(a-8); {} ceilings: the word's exact score above by at most {:.4} of 2^(a-9), off from the ceiling in \
             f64 by at most {:.4} of 2^(a-8)",
            self.out, self.above, self.most, self.most_share, self.closed, self.off, self.off_share, self.sure, self.sure_share, self.held, self.over_share,
            self.lost_share
        )
    }
}

/// The greatest score of all walks, and the ceiling over so many passes.
fn best_and_ceiling(steps: &[[f64; 32]], passes: usize) -> (f64, f64) {
    let (mut start, mut best, mut ceiling) = (vec![0.0; STATES], f64::NAN, f64::INFINITY);
    for i in 0..passes {
        let pass = Pass::run(steps, start);
        if i == 0 {
            best = pass.best().1;
        }
        ceiling = ceiling.min(pass.top());
        start = pass.lowered();
    }
    (best, ceiling)
}

/// One header, and the word sent where there was one. A planted difference turns a bit of a word that is handed out as closed, or moves the ceiling, up
/// or down by turns.
pub fn hold(c: &mut Check, mode: u8, terms: &[f32], h: Answered, sent: Option<u64>) {
    let (n, mut word, mut ceiling) = (terms.len() / 260, h.word, h.ceiling as f64);
    let steps = metrics(mode, terms, |t| t as f64);
    let most = terms.iter().fold(0.0f64, |m, t| m.max(t.abs() as f64));
    let a = (0..=20).find(|&a| most <= f64::powi(2.0, a)).unwrap_or(20);
    let (margin, lost) = (f64::powi(2.0, a - 8), f64::powi(2.0, a - 9));
    if h.is_closed && c.planted_here() {
        word ^= 1 << (word as usize % n);
    }
    if c.planted_here() {
        ceiling += 3.0 * margin * if word % 2 == 0 { 1.0 } else { -1.0 };
    }
    let ((best, second), own) = (best_and_ceiling(&steps, h.passes), closed(&steps, word));
    let (above, off) = (best - own, (h.score as f64 - own).abs());
    if h.is_first && above > margin || h.is_closed && off > lost {
        c.differs(format!("word {word:x}: a walk's exact score is {above} above its own (at most {margin}), its score is {off} off (at most {lost})"));
    }
    if h.is_closed {
        c.rivals.join(&Rivals { closed: 1, off, off_share: off / lost, ..Rivals::default() });
    }
    if let (true, Some(sent)) = (h.is_sure && !h.is_first, sent) {
        let above = closed(&steps, sent) - own;
        if above > margin {
            c.differs(format!("word {word:x} is Sure, and the exact score of the sent word {sent:x} is {above} above its own (at most {margin})"));
        }
        c.rivals.join(&Rivals { sure: 1, sure_share: above / margin, ..Rivals::default() });
    }
    let (over, from_second) = (own - ceiling, (ceiling - second).abs());
    if !(over <= lost && from_second <= margin) {
        c.differs(format!("ceiling {ceiling}: the word's exact score is {over} above it (at most {lost}), it is {from_second} off from that in f64 (at most {margin})"));
    }
    c.rivals.join(&Rivals { held: 1, over_share: over / lost, lost_share: from_second / margin, ..Rivals::default() });
    if h.is_first {
        c.rivals.join(&Rivals { out: 1, above: (above > 0.0) as u64, most: above, most_share: above / margin, ..Rivals::default() });
    }
}
