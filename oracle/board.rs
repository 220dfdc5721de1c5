// A second segment board, written from document 02's words (#105, #107, #110): the Rust has none. It knows nothing of moving places: a put makes a map
// from segment to slip out of the listed places, judges in it, and lays the map out again. Slips are read by the second reader of slip.rs.
#![allow(dead_code)] // not every program asks for all of it
use super::slip::{Slip, read};
use std::collections::BTreeMap;

pub const PLACES: usize = 512;
pub const BYTES: usize = 44 * PLACES;

/// A board as it is lent.
#[derive(Clone, Debug, PartialEq)]
pub struct Board {
    pub bytes: Vec<u8>,
    pub count: u32,
}

/// How good a reading is: Sure above Likely above Kept above Open. The numbers of the outcomes have another order.
pub fn rank(outcome: u8) -> u8 {
    match outcome {
        0 => 40, // Sure
        3 => 30, // Likely
        1 => 20, // Kept
        2 => 10, // Open
        other => unreachable!("a lawful slip has no outcome {other}"),
    }
}

/// The two yard rules, the reading first and the start between equal readings: whether a new slip takes the place of the listed one of its
/// segment.
pub fn replaces(new: &Slip, listed: &Slip) -> bool {
    (rank(new.outcome), new.start) > (rank(listed.outcome), listed.start)
}

impl Board {
    /// The listed places by their segments; none where the count is above 512, one of them is no slip, or segments do not rise.
    fn listed(&self) -> Option<BTreeMap<u16, Vec<u8>>> {
        let places: Vec<&[u8]> = self.bytes.chunks(44).take(self.count as usize).collect();
        let segments = places.iter().map(|p| read(p).map(|s| s.segment)).collect::<Result<Vec<u16>, u32>>().ok()?;
        let map: BTreeMap<u16, Vec<u8>> = segments.iter().copied().zip(places.iter().map(|p| p.to_vec())).collect();
        // a map has its keys rising and each once: so had the places, where they are all its keys in this order
        (self.count as usize <= PLACES && map.keys().eq(&segments)).then_some(map)
    }

    /// One put, and the number that it answers.
    pub fn put(&mut self, slip: &[u8]) -> u32 {
        if self.bytes.len() != BYTES {
            return 4;
        }
        let (Some(mut map), Ok(new)) = (self.listed(), read(slip)) else { return 13 };
        match map.get(&new.segment) {
            None if map.len() == PLACES => return 14,
            Some(listed) if !replaces(&new, &read(listed).unwrap()) => return 0,
            _ => map.insert(new.segment, slip.to_vec()),
        };
        self.count = map.len() as u32;
        let shown: Vec<u8> = map.into_values().flatten().collect();
        self.bytes[..shown.len()].copy_from_slice(&shown);
        0
    }
}
