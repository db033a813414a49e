//! The plans that reach the limits: on an erased array, from an odd start, all of it protected.

use model::{Calls, Planned, Ran, LONGEST_REGION};

use super::amounts::{Amounts, Limit};
use crate::chip::Chip;
use crate::{CHIPS, F25L008A, F25L05PA};

const START: usize = 1;

struct Reaching {
    name: &'static str,
    chip: u8,
    bp: u8,
    /// The wanted byte at an address.
    wanted: fn(usize) -> u8,
    amounts: Amounts,
}

const REACHING: [Reaching; 3] = [
    Reaching {
        name: "every byte of 17 pages",
        chip: F25L05PA,
        bp: 1,
        wanted: |_| 0x00,
        amounts: Amounts { bytes: 4_453, frames: 38, microseconds: 35_500 },
    },
    Reaching {
        name: "one run of 2,049 words",
        chip: F25L008A,
        bp: 7,
        wanted: |_| 0x00,
        amounts: Amounts { bytes: 26_672, frames: 2_055, microseconds: 14_343 },
    },
    Reaching {
        name: "1,025 single words",
        chip: F25L008A,
        bp: 7,
        wanted: |address| if address % 4 < 2 { 0x00 } else { 0xFF },
        amounts: Amounts { bytes: 26_672, frames: 3_079, microseconds: 7_175 },
    },
];

/// The plans that come to something else, and the limits that none of them reaches.
pub fn failing<C: Calls>() -> Vec<String> {
    let mut failing = Vec::new();
    for plan in REACHING {
        for wp_high in [false, true] {
            if !plan.is_right::<C>(wp_high) {
                let Reaching { name, chip, amounts, .. } = &plan;
                failing.push(format!("chip {chip}, {name}, WP high {wp_high}: {amounts}"));
            }
        }
    }
    for chip in CHIPS {
        let unreached = Limit::ALL.into_iter().filter(|limit| !is_reached(*limit, chip));
        failing.extend(unreached.map(|limit| format!("chip {chip}, {limit:?}: not reached")));
    }
    failing
}

/// Whether one of the plans comes up to it, and would pass it with one more of everything.
fn is_reached(limit: Limit, chip: u8) -> bool {
    let plans = REACHING.iter().filter(|plan| plan.chip == chip).map(|plan| plan.amounts);
    plans.max_by_key(|amounts| limit.within(amounts)).is_some_and(|most| {
        let Amounts { bytes, frames, microseconds } = most;
        let more = Amounts { bytes: bytes + 1, frames: frames + 1, microseconds: microseconds + 1 };
        limit.within(&most) == limit.most(chip) && limit.is_passed_by(chip, &more)
    })
}

impl Reaching {
    /// Whether it is accepted with exactly its room and refused with a byte less, and does what is
    /// wanted.
    fn is_right<C: Calls>(&self, wp_high: bool) -> bool {
        let mut chip = Chip::<C>::new(self.chip);
        chip.state.bp = self.bp;
        let state = chip.state;
        let Amounts { bytes: length, frames, microseconds } = self.amounts;
        let accepted = Planned { number: 0, state, length, frames, microseconds };
        let refused = Planned { number: 10, state, length: 0, frames: 0, microseconds: 0 };
        let mut script = vec![0xA5; length as usize];
        let mut short = vec![0xA5; length as usize - 1];
        self.plan(&chip, wp_high, &mut script) == accepted
            && self.plan(&chip, wp_high, &mut short) == refused
            && short.iter().all(|byte| *byte == 0xA5)
            && self.does_what_is_wanted(&mut chip, wp_high, &script)
    }

    fn wanted(&self) -> Vec<u8> {
        (START..START + LONGEST_REGION).map(self.wanted).collect()
    }

    fn plan<C: Calls>(&self, chip: &Chip<C>, wp_high: bool, buffer: &mut [u8]) -> Planned {
        C::plan(chip.state, wp_high, &chip.array, START, &self.wanted(), buffer)
    }

    /// Whether the script has as many frames and waits as long as the plan says, drives nothing,
    /// changes nothing but the region, and leaves the chip as it was.
    fn does_what_is_wanted<C: Calls>(
        &self,
        chip: &mut Chip<C>,
        wp_high: bool,
        script: &[u8],
    ) -> bool {
        let state = chip.state;
        let mut array = chip.array.clone();
        array[START..][..LONGEST_REGION].copy_from_slice(&self.wanted());
        let ran = chip.run_silent(wp_high, script);
        let Amounts { frames, microseconds, .. } = self.amounts;
        let microseconds = u64::from(microseconds);
        ran == Some(Ran { number: 0, state, frames, microseconds, offset: 0 })
            && chip.array == array
    }
}
