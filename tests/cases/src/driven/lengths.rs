//! 4, which is about both slices: where either isn't as long as the frame, and in its place in the
//! order.

use model::{Calls, LONGEST_FRAME};

use super::on_chip::{refused, Call, OnChip, Stand, CALLS};
use crate::literal::bytes_text;
use crate::CHIPS;

/// Frames that are answered, silent, ignored and of an opcode that there isn't.
const FRAMES: [&[u8]; 5] =
    [&[0x05, 0], &[0x03, 0x00, 0x12, 0x34, 0, 0], &[0x06], &[0x20, 0x00, 0x12], &[0x70, 0, 0]];

/// The slices that are refused with something else than 4, or aren't, or are touched; and what else
/// holds where 4 does and comes in another order.
pub fn failing<C: Calls>() -> Vec<String> {
    let mut failing = Vec::new();
    for chip in CHIPS {
        for frame in FRAMES {
            for call in CALLS {
                let lines = taken::<C>(chip, call, frame);
                if !lines.is_empty() {
                    let frame = bytes_text(frame);
                    failing.push(format!("chip {chip}, {call:?} {frame}: {lines:?}"));
                }
            }
        }
        let others = order::<C>(chip).into_iter().filter(|(_, holds)| !holds);
        failing.extend(others.map(|(name, _)| format!("chip {chip}: {name}")));
    }
    failing
}

/// Pairs of lengths of which one isn't this, or both aren't.
fn wrong(right: usize) -> impl Iterator<Item = [usize; 2]> {
    let lengths = [0, right - 1, right, right + 1, 2 * right, right + 256];
    let pairs = lengths.into_iter().flat_map(move |first| lengths.map(|second| [first, second]));
    pairs.filter(move |pair| *pair != [right; 2])
}

/// The wrong pairs with which the call isn't refused with 4, or changes something; all of them if it
/// changes the array.
fn taken<C: Calls>(chip: u8, call: Call, frame: &[u8]) -> Vec<[usize; 2]> {
    let mut on = OnChip::<C>::new(chip, Stand::AtRest);
    let (state, array) = (on.state, on.array.clone());
    let mut is_refused = |line: [usize; 2]| {
        on.state = state;
        on.answer(call, frame, line, 0) == refused(4, line) && on.state == state
    };
    let taken = wrong(frame.len()).filter(|line| !is_refused(*line)).collect();
    match on.array == array {
        true => taken,
        false => wrong(frame.len()).collect(),
    }
}

/// What comes before 4 where the second slice alone is wrong, and what behind it.
fn order<C: Calls>(chip: u8) -> [(&'static str, bool); 7] {
    let frame = [0x05, 0];
    let line = [2, 3];
    let is = |number: u32, call: Call, on: &mut OnChip<C>, mask: usize| {
        on.answer(call, &frame, line, mask) == refused(number, line)
    };
    let standing = || OnChip::<C>::new(chip, Stand::AtRest);
    let mut unsound = standing();
    unsound.state.bp = 8;
    let mut short = standing();
    short.array.pop();
    let long = [0x05; LONGEST_FRAME + 1];
    let too_long = [LONGEST_FRAME + 1, LONGEST_FRAME];
    let both = [Call::Frame, Call::CutFrame];
    [
        ("1 before 4", CALLS.into_iter().all(|call| is(1, call, &mut unsound, 0))),
        ("2 before 4", CALLS.into_iter().all(|call| is(2, call, &mut short, 0))),
        (
            "3 for no byte before 4",
            both.into_iter()
                .all(|call| standing().answer(call, &[], [0, 1], 0) == refused(3, [0, 1])),
        ),
        (
            "3 for 4,102 bytes before 4",
            both.into_iter()
                .all(|call| standing().answer(call, &long, too_long, 0) == refused(3, too_long)),
        ),
        (
            "a script's 13 before 4",
            standing().answer(Call::Run, &[], [0, 1], 0) == refused(13, [0, 1]),
        ),
        ("4 before 5", is(4, Call::CutFrame, &mut standing(), 1)),
        ("5 alone", standing().answer(Call::CutFrame, &frame, [2, 2], 1) == refused(5, [2, 2])),
    ]
}
