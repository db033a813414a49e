//! Sessions of frames and waits, sent one by one and as a script, which lays what its frames show one
//! after another.

use model::{Calls, Ran};

use super::on_chip::UNTOUCHED;
use crate::chip::Chip;
use crate::{listing, scripts, F25L008A, F25L05PA};

enum Step {
    /// A frame, and what is shown, written as `play` prints it.
    Frame(&'static [u8], &'static str),
    Wait(u32),
}

use Step::{Frame, Wait};

/// On a new chip, all of which is protected.
const ON_008A: [Step; 17] = [
    Frame(&[0x9F, 0, 0, 0, 0], "-- 8C 20 14 --"),
    Wait(7),
    Frame(&[0x03, 0x00, 0x12, 0x34, 0], "-- -- -- -- FF"),
    Frame(&[0x50], "--"),
    Frame(&[0x01, 0x00], "-- --"),
    Frame(&[0x06], "--"),
    Frame(&[0xAD, 0x00, 0x12, 0x34, 0xA5, 0xFF], "-- -- -- -- -- --"),
    Frame(&[0x05, 0], "-- 43"),
    Frame(&[0x03, 0x00, 0x12, 0x34, 0, 0], "-- -- -- -- -- --"),
    Wait(7),
    Wait(0),
    Frame(&[0x03, 0x00, 0x12, 0x34, 0, 0], "-- -- -- -- -- --"),
    Frame(&[0x04], "--"),
    Frame(&[0x03, 0x00, 0x12, 0x34, 0, 0], "-- -- -- -- A5 FF"),
    Frame(&[0x0B, 0x00, 0x12, 0x34, 0, 0], "-- -- -- -- -- A5"),
    Frame(&[0xAB, 0], "-- 13"),
    Frame(&[0x90, 0, 0, 1, 0], "-- -- -- -- 13"),
];

/// On a new chip, nothing of which is protected.
const ON_05PA: [Step; 15] = [
    Frame(&[0xB9], "--"),
    Frame(&[0x05, 0], "-- --"),
    Frame(&[0x03, 0x00, 0x12, 0x34, 0], "-- -- -- -- --"),
    Frame(&[0xAB, 0, 0, 0, 0], "-- -- -- -- 05"),
    Frame(&[0x05, 0], "-- 00"),
    Frame(&[0x03, 0x00, 0x12, 0x34, 0], "-- -- -- -- FF"),
    Frame(&[0x06], "--"),
    Frame(&[0x02, 0x00, 0x12, 0x34, 0xA5], "-- -- -- -- --"),
    Frame(&[0x9F, 0, 0, 0, 0], "-- -- -- -- --"),
    Frame(&[0x05, 0, 0], "-- 03 03"),
    Wait(1_500),
    Frame(&[0x9F, 0, 0, 0, 0], "-- 8C 30 10 --"),
    Frame(&[0x03, 0x00, 0x12, 0x34, 0, 0], "-- -- -- -- A5 FF"),
    Wait(1),
    Frame(&[0x90, 0, 0, 0, 0, 0], "-- -- -- -- 8C 05"),
];

/// The sessions that are shown otherwise.
pub fn failing<C: Calls>() -> Vec<String> {
    let mut failing = Vec::new();
    for (chip, steps) in [(F25L008A, &ON_008A[..]), (F25L05PA, &ON_05PA)] {
        if !is_shown_one_by_one(Chip::<C>::new(chip), steps) {
            failing.push(format!("chip {chip}: a session, one by one"));
        }
        if !is_shown_as_script(Chip::<C>::new(chip), steps) {
            failing.push(format!("chip {chip}: a session as a script"));
        }
    }
    failing
}

fn is_shown_one_by_one<C: Calls>(mut chip: Chip<C>, steps: &[Step]) -> bool {
    steps.iter().all(|step| match step {
        Frame(frame, listing) => chip.shows(frame, listing),
        Wait(microseconds) => {
            chip.wait(*microseconds);
            true
        }
    })
}

fn is_shown_as_script<C: Calls>(mut chip: Chip<C>, steps: &[Step]) -> bool {
    let (mut script, mut listing) = (Vec::new(), Vec::new());
    let (mut frames, mut microseconds) = (0, 0);
    for step in steps {
        match step {
            Frame(frame, shown) => {
                scripts::put_frame(&mut script, frame);
                listing.push(*shown);
                frames += 1;
            }
            Wait(wait) => {
                scripts::put_wait(&mut script, *wait);
                microseconds += u64::from(*wait);
            }
        }
    }
    let slices = listing::slices(&listing.join(" "));
    let mut output = vec![UNTOUCHED; slices.0.len()];
    let mut driven = output.clone();
    let ran = C::run(chip.state, true, &mut chip.array, &script, &mut output, &mut driven);
    ran == Ran { number: 0, state: ran.state, frames, microseconds, offset: 0 }
        && (output, driven) == slices
}
