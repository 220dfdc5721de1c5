// One input's comparisons. Every value and every lent list goes through here, so that a planted difference can be put before any of them.
use crate::headers::Tops;
use crate::rivals::Rivals;
use std::fmt::Debug;

/// A number as its bits: -0.0 is not 0.0, and two NaNs are the same only with the same payload.
pub trait Bits: Copy + Debug {
    fn bits(self) -> u64;
    /// The number with one bit turned.
    fn flipped(self, bit: u32) -> Self;
}
macro_rules! whole {
    ($($t:ty)*) => { $(impl Bits for $t {
        fn bits(self) -> u64 { self as u64 }
        fn flipped(self, bit: u32) -> Self { self ^ (1 as $t) << (bit % <$t>::BITS) }
    })* };
}
whole!(u8 u16 u32 u64 usize i32);
impl Bits for f32 {
    fn bits(self) -> u64 {
        self.to_bits() as u64
    }
    fn flipped(self, bit: u32) -> Self {
        f32::from_bits(self.to_bits().flipped(bit))
    }
}
impl Bits for f64 {
    fn bits(self) -> u64 {
        self.to_bits()
    }
    fn flipped(self, bit: u32) -> Self {
        f64::from_bits(self.to_bits().flipped(bit))
    }
}

pub const KINDS: usize = 8;
/// Every refusal's number is below this.
pub const NUMBERS: usize = 17;

#[derive(Default)]
pub struct Check {
    /// Before the comparison of this number one bit on our side is turned, in its place in memory.
    pub plant: Option<usize>,
    /// That it was.
    pub turned: bool,
    /// Comparisons so far; one of a list that is empty is none.
    pub made: usize,
    /// Single numbers behind them.
    pub numbers: u64,
    /// The first difference.
    pub bad: Option<String>,
    /// Calls that were answered, by kind, and that were refused, by number: what the Rust or the table says.
    pub answers: [u64; KINDS],
    pub refused: [u64; NUMBERS],
    /// Headers against a search in f64.
    pub rivals: Rivals,
    /// What their ceilings were the least of.
    pub tops: Tops,
}

impl Check {
    /// A comparison that is made elsewhere: whether a difference is to be planted in it.
    pub fn planted_here(&mut self) -> bool {
        let here = self.plant == Some(self.made);
        self.turned |= here;
        self.made += 1;
        self.numbers += 1;
        here
    }
    pub fn differs(&mut self, why: String) {
        self.bad.get_or_insert(why);
    }
    fn turn<T: Bits>(&mut self, ours: &mut [T]) {
        if self.plant == Some(self.made) {
            let at = (self.made * 7919 + ours.len() / 2) % ours.len();
            ours[at] = ours[at].flipped(self.made as u32 * 5);
            self.turned = true;
        }
        self.made += 1;
        self.numbers += ours.len() as u64;
    }
    /// One number, ours and theirs.
    pub fn one<T: Bits>(&mut self, what: &str, ours: &mut T, theirs: T) {
        self.turn(std::slice::from_mut(ours));
        if ours.bits() != theirs.bits() {
            self.bad.get_or_insert_with(|| format!("{what}: ours {ours:?} ({:#x}), theirs {theirs:?} ({:#x})", ours.bits(), theirs.bits()));
        }
    }
    /// A list, ours and theirs: the lengths and every element's bits.
    pub fn list<T: Bits>(&mut self, what: &str, ours: &mut [T], theirs: &[T]) {
        if !ours.is_empty() {
            self.turn(ours);
        }
        if ours.len() != theirs.len() {
            self.bad.get_or_insert_with(|| format!("{what}: ours has {} places, theirs {}", ours.len(), theirs.len()));
        }
        if let Some(i) = (0..ours.len().min(theirs.len())).find(|&i| ours[i].bits() != theirs[i].bits()) {
            self.bad.get_or_insert_with(|| format!("{what}, place {i} of {}: ours {:?} ({:#x}), theirs {:?} ({:#x})", ours.len(), ours[i], ours[i].bits(), theirs[i], theirs[i].bits()));
        }
    }
    /// A list that holds one value everywhere.
    pub fn all<T: Bits>(&mut self, what: &str, ours: &mut [T], value: T) {
        if ours.is_empty() {
            return;
        }
        self.turn(ours);
        if let Some(i) = ours.iter().position(|x| x.bits() != value.bits()) {
            self.bad.get_or_insert_with(|| format!("{what}, place {i} of {}: ours {:?} ({:#x}), not {value:?}", ours.len(), ours[i], ours[i].bits()));
        }
    }
    /// Says of a difference what the input was.
    pub fn input(&mut self, say: impl FnOnce() -> String) {
        if let Some(why) = &mut self.bad {
            why.push_str("; input: ");
            why.push_str(&say());
        }
    }
    pub fn answered(&mut self, kind: usize) {
        self.answers[kind] += 1;
    }
    pub fn refused(&mut self, number: u32) {
        self.refused[number as usize] += 1;
    }
}
