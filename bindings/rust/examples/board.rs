//! The planner's segment board: slips of a few segments are put on it in order of arrival, and it shows one a segment; then it is filled,
//! kept as bytes and taken up again. From the repository's root:
//!   tools/build.sh ion
//!   cargo run --offline --manifest-path bindings/rust/Cargo.toml --target-dir target/rust --example board
use ion_proved::{Board, Kind, Mode, Outcome, Refusal, SEGMENTS, Slip};

const SURE: Outcome = Outcome::Sure { score: 1.0, pass: 1 };
const LIKELY: Outcome = Outcome::Likely { score: 1.0, pass: 2 };
const KEPT: Outcome = Outcome::Kept { score: 1.0 };
const OPEN: Outcome = Outcome::Open { score: 1.0 };

fn slip(segment: u16, start: u64, outcome: Outcome) -> Slip {
    Slip { mode: Mode::R0, kind: Kind::Cue, word: 0, outcome, start, segment }
}

fn main() -> Result<(), Refusal> {
    let mut board = Board::new();
    // segment 9 comes later but reads worse; segment 4 reads better at one start, then worse, then better at an earlier start; segment 12
    // reads alike each time, later once and then earlier
    let first = [slip(9, 48_000, LIKELY), slip(4, 52_000, OPEN), slip(9, 56_000, KEPT), slip(12, 50_000, OPEN)];
    let then = [slip(4, 52_000, KEPT), slip(4, 52_000, OPEN), slip(4, 51_000, SURE), slip(12, 54_000, OPEN), slip(12, 53_000, OPEN)];
    first.iter().chain(&then).try_for_each(|s| board.put_slip(s))?;
    for slip in board.slips() {
        println!("segment {} start {} {:?}", slip.segment, slip.start, slip.outcome);
    }
    assert!(board.slips().eq([slip(4, 51_000, SURE), slip(9, 48_000, LIKELY), slip(12, 54_000, OPEN)]));

    // a listed segment is judged on a full board as on any other; one more is refused, and changes nothing
    for segment in 0..SEGMENTS as u16 {
        board.put_slip(&slip(segment, 0, OPEN))?;
    }
    let was = board.clone();
    let refused = board.put_slip(&slip(512, 60_000, SURE)).unwrap_err();
    assert_eq!((refused.number(), &board), (14, &was));
    board.put_slip(&slip(511, 60_000, SURE))?;
    println!("{} segments listed, a further one is {refused}", board.len());

    // kept as bytes and a count; a board with two places exchanged is none
    let mut bytes = board.as_bytes().to_vec();
    assert_eq!(Board::from_bytes(&bytes, 512).as_ref(), Ok(&board));
    bytes[..88].rotate_left(44);
    assert_eq!(Board::from_bytes(&bytes, 512), Err(Refusal::Slip));
    Ok(())
}
