//! Sessions frame by frame: what is shown while the write runs, and when it is over.

use model::{Calls, State};

use super::{at_level, begun, Sample, TIME};
use crate::chip::Chip;
use crate::{F25L008A, F25L05PA};

pub fn samples<C: Calls>() -> Vec<Sample> {
    vec![
        ("the new bits come when 5,000 microseconds are over", || {
            let mut chip = begun::<C>(0, 0x1C);
            let first = chip.shows(&[0x05, 0], "-- 03");
            chip.wait(4_999);
            let late = chip.shows(&[0x05, 0], "-- 03");
            chip.wait(1);
            first && late && chip.shows(&[0x05, 0], "-- 1C")
        }),
        ("the states on the way", states::<C>),
        ("all at once, and more than there is left", || {
            [TIME, TIME + 1, 15_000, u32::MAX].into_iter().all(|time| {
                let mut chip = begun::<C>(2, 0x9C);
                chip.wait(time);
                chip.state == State { chip: F25L05PA, bp: 7, bpl: true, ..State::default() }
            })
        }),
        ("no time at all", || {
            let mut chip = begun::<C>(2, 0x9C);
            let before = chip.state;
            chip.wait(0);
            chip.state == before
        }),
        ("power-up keeps the old bits", || {
            [0, 1, 4_999].into_iter().all(|passed| {
                let mut chip = begun::<C>(0, 0x1C);
                chip.wait(passed);
                chip.power_up();
                chip.shows(&[0x05, 0], "-- 00")
                    && chip.state == State { chip: F25L05PA, ..State::default() }
            })
        }),
        ("power-up when it is over keeps the new ones", || {
            let mut chip = begun::<C>(3, 0x90);
            chip.wait(TIME);
            chip.power_up();
            chip.shows(&[0x05, 0], "-- 90")
        }),
        ("power-up keeps TB and BPL as they were", || {
            let mut chip = Chip::<C>::new(F25L05PA);
            let old = State { bp: 5, tb: true, bpl: true, ..chip.state };
            chip.state = old;
            chip.is_silent(&[0x06]) && chip.is_silent(&[0x01, 0x00]) && {
                let shown = chip.shows(&[0x05, 0], "-- B7");
                chip.power_up();
                shown && chip.state == old
            }
        }),
        ("TB and BPL come, bits 0, 1 and 6 don't", || {
            let mut chip = begun::<C>(0, 0xFF);
            let begun = chip.state.pending_bits == 0xBC && chip.shows(&[0x05, 0], "-- 03");
            chip.wait(TIME);
            begun && chip.state.pending_bits == 0 && chip.shows(&[0x05, 0], "-- BC")
        }),
        ("bits 0, 1 and 6 alone are nothing to write", || {
            let mut chip = begun::<C>(7, 0x43);
            let begun = chip.state.pending && chip.state.pending_bits == 0x00;
            let shown = chip.shows(&[0x05, 0], "-- 1F");
            chip.wait(TIME);
            begun && shown && chip.shows(&[0x05, 0], "-- 00")
        }),
        ("all but 05 is ignored while it runs", ignores::<C>),
        ("protection goes by the old bits till then", protection::<C>),
        ("a wait in a script lifts protection", lifted::<C>),
        ("BPL locks when it has come", || {
            let mut chip = begun::<C>(0, 0x84);
            chip.wp_high = false;
            chip.wait(TIME);
            let bits = chip.state;
            let ignored = chip.is_silent(&[0x06]) && chip.is_silent(&[0x01, 0x00]);
            ignored && chip.state == State { wel: true, ..bits }
        }),
        ("the 008A's takes no time", || {
            [0x50, 0x06].into_iter().all(|arming| {
                let mut chip = Chip::<C>::new(F25L008A);
                let taken = chip.is_silent(&[arming]) && chip.is_silent(&[0x01, 0xFF]);
                let all = State { chip: F25L008A, bp: 7, bpl: true, ..State::default() };
                let all = taken && chip.state == all && chip.shows(&[0x05, 0], "-- 9C");
                let none = chip.is_silent(&[arming]) && chip.is_silent(&[0x01, 0x00]);
                all && none && chip.state == State { chip: F25L008A, ..State::default() }
            })
        }),
    ]
}

fn states<C: Calls>() -> bool {
    let old = State { chip: F25L05PA, bp: 5, tb: true, ..State::default() };
    let mut chip = Chip::<C>::new(F25L05PA);
    chip.state = old;
    let armed = chip.is_silent(&[0x06]) && chip.state == State { wel: true, armed: true, ..old };
    let taken = chip.is_silent(&[0x01, 0x88]);
    let begun = State { wel: true, pending: true, pending_bits: 0x88, left: 5_000, ..old };
    let is_begun = chip.state == begun;
    chip.wait(4_999);
    let nearly = chip.state == State { left: 1, ..begun };
    chip.wait(1);
    let over = State { chip: F25L05PA, bp: 2, bpl: true, ..State::default() };
    armed && taken && is_begun && nearly && chip.state == over && chip.is_erased()
}

/// A second status write among them: the bits are the first one's.
fn ignores<C: Calls>() -> bool {
    let frames: [&[u8]; 10] = [
        &[0x06],
        &[0x04],
        &[0x01, 0x00],
        &[0x02, 0, 0, 0, 0x00],
        &[0x20, 0, 0, 0],
        &[0xC7],
        &[0xB9],
        &[0x9F, 0, 0, 0],
        &[0x03, 0, 0, 0, 0],
        &[0xAB, 0, 0, 0, 0],
    ];
    let mut chip = begun::<C>(0, 0x0C);
    let before = chip.state;
    let silent = frames.into_iter().all(|frame| chip.is_silent(frame) && chip.state == before);
    let shown = chip.shows(&[0x05, 0, 0], "-- 03 03") && chip.state == before;
    chip.wait(TIME);
    silent && shown && chip.shows(&[0x05, 0], "-- 0C") && chip.is_erased()
}

/// Lifted, or brought.
fn protection<C: Calls>() -> bool {
    let program = [0x02, 0x00, 0x12, 0x34, 0x00];
    let mut chip = begun::<C>(7, 0x00);
    let held = chip.is_silent(&program) && chip.shows(&[0x05, 0], "-- 1F") && chip.is_erased();
    chip.wait(TIME);
    let lifted = chip.is_silent(&[0x06]) && chip.is_silent(&program) && chip.array[0x1234] == 0x00;
    let mut chip = begun::<C>(0, 0x04);
    let free = chip.is_silent(&program) && chip.shows(&[0x05, 0], "-- 03") && chip.is_erased();
    chip.wait(TIME);
    let brought = chip.is_silent(&[0x06]) && chip.is_silent(&program) && chip.is_erased();
    held && lifted && free && brought && chip.shows(&[0x05, 0], "-- 06")
}

/// What stands before the end of the wait is protected and stays; what comes behind it is programmed.
fn lifted<C: Calls>() -> bool {
    let mut chip = at_level::<C>(1);
    let run = chip.runs(&[
        (&[0x06], "--", 0),
        (&[0x01, 0x00], "-- --", 4_999),
        (&[0x06], "--", 0),
        (&[0x02, 0x00, 0x00, 0x10, 0x00], "-- -- -- -- --", 0),
        (&[0x05, 0], "-- 07", 1),
        (&[0x02, 0x00, 0x00, 0x11, 0x00], "-- -- -- -- --", 0),
        (&[0x05, 0], "-- 00", 0),
        (&[0x06], "--", 0),
        (&[0x02, 0x00, 0x00, 0x12, 0x00], "-- -- -- -- --", 1_500),
    ]);
    run && chip.array[0x10..0x13] == [0xFF, 0xFF, 0x00]
}
