//! States that are no chip's: each call that is given one refuses it.

use model::{Answer, Calls, Planned, Returned, State, Told, SECTOR};

use crate::size;

/// What stands in a slice before a call.
const UNTOUCHED: u8 = 0xA5;

/// Whether each call that is given a state refuses this one with 1, and changes nothing.
pub fn by_every_call<C: Calls>(state: State) -> bool {
    let mut array = vec![0xFF; size(state.chip)];
    let refused = is_refused_by_chip::<C>(state, &mut array)
        && is_refused_by_planners::<C>(state, &array)
        && are_questions_refused::<C>(state, &array);
    refused && array.iter().all(|byte| *byte == 0xFF)
}

/// By those that let time pass, power up or show frames.
fn is_refused_by_chip<C: Calls>(state: State, array: &mut [u8]) -> bool {
    let (mut whole, mut cut) = (state, state);
    let [mut output, mut driven] = [[UNTOUCHED; 4]; 2];
    let erase = [0x20, 0, 0, 0];
    let frame = C::frame(&mut whole, true, array, &erase, &mut output, &mut driven);
    let cut_frame = C::cut_frame(&mut cut, true, array, &erase, &mut output, &mut driven, &[]);
    let ran = C::run(state, true, array, &[], &mut [], &mut []);
    let answers = [
        C::power_up(state),
        C::wait(state, 1),
        Answer { number: frame, state: whole },
        Answer { number: cut_frame, state: cut },
        Answer { number: ran.number, state: ran.state },
    ];
    answers == [Answer { number: 1, state }; 5]
        && (ran.frames, ran.microseconds, ran.offset) == (0, 0, 0)
        && (output, driven) == ([UNTOUCHED; 4], [UNTOUCHED; 4])
}

fn is_refused_by_planners<C: Calls>(state: State, array: &[u8]) -> bool {
    const LIST: [u8; 2] = [1, b'A'];
    let mut buffer = [UNTOUCHED; 64];
    let [book, names] = [0, SECTOR];
    let planned = [
        C::plan(state, true, array, 0, &[0], &mut buffer),
        C::book_mark(state, true, array, book, &[0], &mut buffer),
        C::names_mark(state, true, array, names, b"A", &mut buffer),
        C::names_move(state, true, array, book, names, &LIST, &mut buffer),
    ];
    let back = C::names_back(state, true, array, names, book, &LIST, &mut buffer);
    let (length, frames, microseconds) = (0, 0, 0);
    planned == [Planned { number: 1, state, length, frames, microseconds }; 4]
        && back == Returned { number: 1, state, length, frames, microseconds, unlisted: 0 }
        && buffer == [UNTOUCHED; 64]
}

fn are_questions_refused<C: Calls>(state: State, array: &[u8]) -> bool {
    let told = [
        C::book_is_read(state, array, 0, 0),
        C::book_count(state, array, 0),
        C::names_is_read(state, array, 0, b"A"),
    ];
    told == [Told { number: 1, state, value: 0 }; 3]
}
