//! Plans that take protection away and bring it back: they wait for both status writes.

use model::{Calls, Planned, Ran, State};

use super::{at_level, begun, Sample, TIME};
use crate::chip::Chip;
use crate::{scripts, F25L008A};

/// A protected byte of the 05PA, BP 011 and TB 1: the whole script.
const SCRIPT: [u8; 54] = [
    0x5A, 0x46, 0x00, 0x01, 0x06, // 06
    0x5A, 0x46, 0x00, 0x02, 0x01, 0x20, // 01, BP 000
    0x5A, 0x57, 0x00, 0x00, 0x13, 0x88, // wait 5,000
    0x5A, 0x46, 0x00, 0x01, 0x06, // 06
    0x5A, 0x46, 0x00, 0x05, 0x02, 0x00, 0x12, 0x34, 0xFE, // 02
    0x5A, 0x57, 0x00, 0x00, 0x05, 0xDC, // wait 1,500
    0x5A, 0x46, 0x00, 0x01, 0x06, // 06
    0x5A, 0x46, 0x00, 0x02, 0x01, 0x2C, // 01, BP 011
    0x5A, 0x57, 0x00, 0x00, 0x13, 0x88, // wait 5,000
];
const AT: usize = 0x1234;

/// The same byte of an 008A, all of which is protected: no wait behind either 01.
const SCRIPT_008A: [u8; 48] = [
    0x5A, 0x46, 0x00, 0x01, 0x50, 0x5A, 0x46, 0x00, 0x02, 0x01, 0x00, 0x5A, 0x46, 0x00, 0x01, 0x06,
    0x5A, 0x46, 0x00, 0x06, 0xAD, 0x00, 0x12, 0x34, 0xFE, 0xFF, 0x5A, 0x57, 0x00, 0x00, 0x00, 0x07,
    0x5A, 0x46, 0x00, 0x01, 0x04, 0x5A, 0x46, 0x00, 0x01, 0x50, 0x5A, 0x46, 0x00, 0x02, 0x01, 0x1C,
];

pub fn samples<C: Calls>() -> Vec<Sample> {
    vec![
        ("the plan of a protected byte", || {
            let chip = protected::<C>();
            let state = chip.state;
            let mut buffer = [0xA5; 60];
            let planned = plan(&chip, &mut buffer);
            let accepted =
                Planned { number: 0, state, length: 54, frames: 6, microseconds: 11_500 };
            planned == accepted && buffer[..54] == SCRIPT && buffer[54..] == [0xA5; 6]
        }),
        ("with exactly its room, and a byte less", || {
            let chip = protected::<C>();
            let (mut exact, mut short) = ([0xA5; 54], [0xA5; 53]);
            let taken = plan(&chip, &mut exact).number == 0 && exact == SCRIPT;
            taken && plan(&chip, &mut short).number == 10 && short == [0xA5; 53]
        }),
        ("that plan run", || {
            let mut chip = protected::<C>();
            let state = chip.state;
            let ran = Ran { number: 0, state, frames: 6, microseconds: 11_500, offset: 0 };
            chip.run_silent(true, &SCRIPT) == Some(ran) && is_done(&chip)
        }),
        ("that plan run record by record", record_by_record::<C>),
        ("its power cut inside each 01", cut_inside::<C>),
        ("its power cut while either is written", cut_during::<C>),
        ("an unprotected byte needs no wait", || {
            let mut buffer = [0xA5; 54];
            let planned = plan(&at_level::<C>(4), &mut buffer);
            let counts = (planned.number, planned.length, planned.frames, planned.microseconds);
            counts == (0, 20, 2, 1_500) && buffer[..20] == SCRIPT[17..37]
        }),
        ("the 008A's plan has no such wait", || {
            let mut buffer = [0xA5; 60];
            let planned = plan(&Chip::<C>::new(F25L008A), &mut buffer);
            let counts = (planned.number, planned.length, planned.frames, planned.microseconds);
            counts == (0, 48, 7, 7) && buffer[..48] == SCRIPT_008A && buffer[48..] == [0xA5; 12]
        }),
        ("no plan while a write is pending", || {
            [1, TIME].into_iter().all(|left| {
                let mut chip = begun::<C>(0, 0x1C);
                chip.state.left = left;
                is_refused_with_7(&chip)
            })
        }),
    ]
}

/// BP 011 and TB 1, erased.
fn protected<C: Calls>() -> Chip<C> {
    let mut chip = at_level(3);
    chip.state.tb = true;
    chip
}

fn plan<C: Calls>(chip: &Chip<C>, buffer: &mut [u8]) -> Planned {
    C::plan(chip.state, true, &chip.array, AT, &[0xFE], buffer)
}

/// Whether the byte is as wanted, and no other has changed.
fn is_done<C: Calls>(chip: &Chip<C>) -> bool {
    let mut array = vec![0xFF; chip.array.len()];
    array[AT] = 0xFE;
    chip.array == array
}

/// Each record with the state behind it.
fn record_by_record<C: Calls>() -> bool {
    let mut chip = protected::<C>();
    let old = chip.state;
    let free = State { bp: 0, ..old };
    let armed = |state| State { wel: true, armed: true, ..state };
    let writing =
        |state, pending_bits| State { wel: true, pending: true, pending_bits, left: TIME, ..state };
    let programming = State { wel: true, left: 1_500, ..free };
    let states = [
        armed(old),
        writing(old, 0x20),
        free,
        armed(free),
        programming,
        free,
        armed(free),
        writing(free, 0x2C),
        old,
    ];
    let records = scripts::records(&SCRIPT);
    records.len() == states.len()
        && records.into_iter().zip(states).all(|(record, state)| {
            let ran = chip.run_silent(true, record);
            chip.state = state;
            ran.is_some_and(|ran| (ran.number, ran.state) == (0, state))
        })
        && is_done(&chip)
}

/// The chip behind the first records of the plan's script.
fn behind<C: Calls>(records: usize) -> Option<Chip<C>> {
    let mut chip = protected::<C>();
    let part = scripts::records(&SCRIPT)[..records].concat();
    chip.state = chip.run_silent(true, &part).filter(|ran| ran.number == 0)?.state;
    Some(chip)
}

/// With the old bits or the new; then the plan is made again, and does what is wanted.
fn cut_inside<C: Calls>() -> bool {
    [(1, [0x01, 0x20], [3, 0]), (7, [0x01, 0x2C], [0, 3])].into_iter().all(|(at, frame, levels)| {
        [0x00, 0xFF].into_iter().zip(levels).all(|(mask, bp)| {
            behind::<C>(at).is_some_and(|mut chip| {
                chip.cut(&frame, &[mask]) == 0 && has_level(&chip, bp) && finishes(chip)
            })
        })
    })
}

/// With the old bits till the last microsecond, and then with the new.
fn cut_during<C: Calls>() -> bool {
    [(2, [3, 0]), (8, [0, 3])].into_iter().all(|(at, [old, new])| {
        [(0, old), (1, old), (4_999, old), (5_000, new)].into_iter().all(|(passed, bp)| {
            behind::<C>(at).is_some_and(|mut chip| {
                chip.wait(passed);
                chip.power_up();
                has_level(&chip, bp) && finishes(chip)
            })
        })
    })
}

/// At rest, with TB 1.
fn has_level<C: Calls>(chip: &Chip<C>, bp: u8) -> bool {
    chip.state == State { bp, ..protected::<C>().state }
}

/// Whether a plan for the same is accepted with no more room, and does it.
fn finishes<C: Calls>(mut chip: Chip<C>) -> bool {
    let state = chip.state;
    let mut buffer = [0xA5; 54];
    let planned = plan(&chip, &mut buffer);
    let script = &buffer[..planned.length as usize];
    let ran = chip.run_silent(true, script);
    planned.number == 0 && ran.is_some_and(|ran| ran.state == state) && is_done(&chip)
}

/// By each call that plans, whatever the room.
fn is_refused_with_7<C: Calls>(chip: &Chip<C>) -> bool {
    const LIST: [u8; 2] = [1, b'A'];
    let (state, array) = (chip.state, &chip.array);
    let buffer = &mut [0xA5; 100];
    let planned = [
        C::plan(state, true, array, AT, &[0xFE], buffer),
        C::plan(state, true, array, AT, &[0xFF], &mut []),
        C::book_mark(state, true, array, 0, &[1], buffer),
        C::names_mark(state, true, array, 0, b"A", buffer),
        C::names_move(state, true, array, 0, 0x1000, &LIST, buffer),
    ];
    let back = C::names_back(state, true, array, 0, 0x1000, &LIST, buffer);
    let (length, frames, microseconds) = (0, 0, 0);
    planned == [Planned { number: 7, state, length, frames, microseconds }; 5]
        && (back.number, back.state) == (7, state)
        && *buffer == [0xA5; 100]
}
