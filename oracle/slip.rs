// A second writer and a second reader of slips, written from document 02's words (#103, #107): the Rust has neither. The reader goes from
// field to field by their tags and lengths, and knows nothing of the writer; a score is the pattern of its bits, so that any NaN can be told.
#![allow(dead_code)] // not every program reads
#[derive(Clone, Copy, Debug, PartialEq)]
pub struct Slip {
    pub mode: u8,
    pub kind: u8,
    pub word: u64,
    pub outcome: u8,
    pub pass: u8,
    pub score: u32,
    pub start: u64,
    pub segment: u16,
}

impl Slip {
    /// Mode and kind named, zeros above a word's 48 bits, a pass that goes with its outcome, a finite score.
    fn holds(&self, goes: bool) -> bool {
        let short = self.kind == 1 || self.word >> 48 == 0;
        self.mode < 2 && self.kind < 3 && short && goes && f32::from_bits(self.score).is_finite()
    }

    /// #103's values: the pass of a Sure from 1 to 3, of Kept and Open 0, and no other outcome.
    pub fn was_lawful(&self) -> bool {
        self.holds(match self.outcome {
            0 => (1..=3).contains(&self.pass),
            1 | 2 => self.pass == 0,
            _ => false,
        })
    }

    /// #107's: a Likely besides, its pass 2 or 3.
    pub fn is_lawful(&self) -> bool {
        self.was_lawful() || self.holds((self.outcome, self.pass) == (3, 2) || (self.outcome, self.pass) == (3, 3))
    }

    fn spelt(&self) -> Vec<u8> {
        let outcome = [&[self.outcome, self.pass][..], &self.score.to_be_bytes()].concat();
        let values = [
            vec![self.mode], vec![self.kind], self.word.to_be_bytes().to_vec(), outcome, self.start.to_be_bytes().to_vec(),
            self.segment.to_be_bytes().to_vec(),
        ];
        let field = |(tag, value): (u8, Vec<u8>)| [vec![tag], (value.len() as u16).to_be_bytes().to_vec(), value].concat();
        (1..).zip(values).flat_map(field).collect()
    }

    /// What is written into a buffer of so many bytes, or the refusal's number.
    pub fn written(&self, room: usize) -> Result<Vec<u8>, u32> {
        match () {
            _ if room != 44 => Err(4),
            _ if !self.is_lawful() => Err(13),
            _ => Ok(self.spelt()),
        }
    }
}

/// What a reading is called, with the pass of one that has it.
pub fn reading(outcome: u8, pass: u8) -> String {
    match outcome {
        0 => format!("Sure, pass {pass}"),
        1 => "Kept".into(),
        2 => "Open".into(),
        3 => format!("Likely, pass {pass}"),
        other => unreachable!("there is no outcome {other}"),
    }
}

/// The next so many bytes of what is left.
fn next<'a>(left: &mut &'a [u8], n: usize) -> Option<&'a [u8]> {
    let (value, rest) = left.split_at_checked(n)?;
    *left = rest;
    Some(value)
}

/// A field's value: its tag, its length in two bytes, and as many bytes.
fn field<const N: usize>(left: &mut &[u8], tag: u8) -> Option<[u8; N]> {
    let head = next(left, 3)?;
    let value = next(left, (head[1] as usize) << 8 | head[2] as usize)?;
    (head[0] == tag).then_some(value)?.try_into().ok()
}

fn parsed(mut string: &[u8]) -> Option<Slip> {
    let left = &mut string;
    let [mode] = field(left, 1)?;
    let [kind] = field(left, 2)?;
    let word = u64::from_be_bytes(field(left, 3)?);
    let [outcome, pass, a, b, c, d] = field(left, 4)?;
    let start = u64::from_be_bytes(field(left, 5)?);
    let segment = u16::from_be_bytes(field(left, 6)?);
    let slip = Slip { mode, kind, word, outcome, pass, score: u32::from_be_bytes([a, b, c, d]), start, segment };
    left.is_empty().then_some(slip)
}

/// The slip in a string of bytes, or the refusal's number.
pub fn read(string: &[u8]) -> Result<Slip, u32> {
    parsed(string).filter(Slip::is_lawful).ok_or(13)
}

/// The same as #103 had it.
pub fn read_before(string: &[u8]) -> Result<Slip, u32> {
    parsed(string).filter(Slip::was_lawful).ok_or(13)
}
