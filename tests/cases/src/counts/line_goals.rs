//! What has to be met of the two slices in which frames are shown, and how often.

use super::goals::Goals;
use super::line_sorts::{borders, reasons, LineSort, ANSWERED};
use super::Met;
use crate::CHIPS;

const CALLS: [&str; 3] = ["frame", "cut_frame", "run"];

pub fn goals() -> Vec<Goals> {
    let goal = |name, least, each| Goals { name, least, each };
    vec![
        goal("bytes at the borders of what is driven", 25, at_borders()),
        goal("FF driven", 100, erased_driven()),
        goal("answered opcodes ignored and all silent, by reason", 30, all_silent()),
        goal("wrong lengths of the two slices", 30, wrong_lines()),
        goal("the second slice alone wrong, before and behind others", 80, driven_alone()),
    ]
}

fn answered() -> impl Iterator<Item = (&'static str, u8, u8)> {
    let on_each =
        |call| CHIPS.into_iter().flat_map(move |chip| ANSWERED.map(|opcode| (call, chip, opcode)));
    CALLS.into_iter().flat_map(on_each)
}

/// As they are in a taken frame, and the driven ones silent where the opcode can be ignored.
fn at_borders() -> Vec<Met> {
    let mut all = Vec::new();
    for (call, chip, opcode) in answered() {
        let can_be_ignored = reasons(chip, opcode).next().is_some();
        for &(at, driven) in borders(chip, opcode) {
            all.push(Met::Border { call, chip, opcode, at, driven });
            if driven && can_be_ignored {
                all.push(Met::Border { call, chip, opcode, at, driven: false });
            }
        }
    }
    all
}

/// Only the array holds FF: no status is, and neither is an identification.
fn erased_driven() -> Vec<Met> {
    let reads = answered().filter(|(_, _, opcode)| matches!(opcode, 0x03 | 0x0B));
    reads.map(|(call, chip, opcode)| Met::ErasedDriven { call, chip, opcode }).collect()
}

/// In a script no state before a frame is at hand.
fn all_silent() -> Vec<Met> {
    let mut all = Vec::new();
    for (call, chip, opcode) in answered().filter(|(call, _, _)| *call != "run") {
        let silent = |reason| Met::AllSilent { call, chip, opcode, reason };
        all.extend(reasons(chip, opcode).map(silent));
    }
    all
}

fn wrong_lines() -> Vec<Met> {
    let mut all = Vec::new();
    for call in CALLS {
        for chip in CHIPS {
            all.extend(LineSort::ALL.iter().map(|&sort| Met::WrongLine { call, chip, sort }));
        }
    }
    all
}

fn driven_alone() -> Vec<Met> {
    let calls: [(&str, &[(u32, u32)]); 3] = [
        ("frame", &[(1, 4), (2, 4), (3, 4)]),
        ("cut_frame", &[(1, 4), (2, 4), (3, 4), (4, 5)]),
        ("run", &[(1, 4), (2, 4), (11, 4), (12, 4), (13, 4), (14, 4)]),
    ];
    let of = |(call, pairs): (&'static str, &'static [(u32, u32)])| {
        pairs.iter().map(move |&(number, other)| Met::DrivenAlone { call, number, other })
    };
    calls.into_iter().flat_map(of).collect()
}
