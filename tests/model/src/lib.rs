//! A second model, in plain Rust, written from the two data sheets and documents 01 and 02 alone. It is what the library is compared with, and the baseline its speed is measured by.
//!
//! `Model` is the right model; `Model<{ Fault::… as u8 }>` is a copy that is wrong in one way. So is
//! `salvage::<{ SalvageFault::… as u8 }>`, a copy of that one call, and so are `names_mark` and the
//! three others about flags by name, `names_…(NamesFault::…, ..)`.
#![no_std]

mod book;
mod calls;
mod chip;
mod effect;
mod fault;
mod flag_checks;
mod flags;
mod frame;
mod line;
mod name_list;
mod name_sector;
mod names;
mod names_fault;
mod pages;
mod plan;
mod positions;
mod reader;
mod records;
mod reply;
mod salvage;
mod script;
mod state;
mod status_write;
mod words;

pub use book::{BOOK, SCENES};
pub use calls::{
    kind, Answer, Calls, Planned, Ran, Record, Returned, Salvaged, State, Surveyed, Told,
};
pub use chip::{Chip, Kind, SECTOR, STATUS_TIME};
pub use fault::{Fault, SalvageFault};
pub use flags::{names_back, names_is_read, names_mark, names_move};
pub use frame::{Reason, LONGEST_FRAME};
pub use name_list::MOST_NAMES;
pub use names::names_of;
pub use names_fault::NamesFault;
pub use plan::LONGEST_REGION;
pub use reader::LONGEST_SCRIPT;
pub use salvage::salvage;

use effect::Effect;
use line::Line;
use state::refusal;

const RIGHT: u8 = Fault::None as u8;

/// The seventeen calls as this model answers them.
pub struct Model<const FAULT: u8 = RIGHT>;

impl<const FAULT: u8> Calls for Model<FAULT> {
    fn new_chip(chip: u8) -> Answer {
        match Chip::numbered(chip) {
            Some(chip) => Answer::accepted(State::new(chip)),
            None if Fault::UnknownChipIs008a.within(FAULT) => {
                Answer::refused(refusal::STATE, State::new(&chip::F25L008A))
            }
            None => Answer::refused(refusal::STATE, State::new(&chip::F25L05PA)),
        }
    }

    fn power_up(state: State) -> Answer {
        match state.sound_chip::<FAULT>() {
            Some(chip) => Answer::accepted(state.powered_up::<FAULT>(chip)),
            None if Fault::UnsoundIsRefusal2.within(FAULT) => {
                Answer::refused(refusal::ARRAY_LENGTH, state)
            }
            None => Answer::refused(refusal::STATE, state),
        }
    }

    fn wait(state: State, microseconds: u32) -> Answer {
        match state.sound_chip::<FAULT>() {
            Some(chip) => Answer::accepted(state.after::<FAULT>(chip, microseconds)),
            None => Answer::refused(refusal::STATE, state),
        }
    }

    fn frame(
        state: &mut State,
        wp_high: bool,
        array: &mut [u8],
        frame: &[u8],
        output: &mut [u8],
        driven: &mut [u8],
    ) -> u32 {
        match frame::accept::<FAULT>(state, array, frame, output.len(), driven.len()) {
            Ok(chip) => {
                let line = Line { output, driven };
                frame::run::<FAULT>(chip, state, wp_high, array, frame, line);
                0
            }
            Err(number) => {
                if Fault::RefusedFrameClearsDriven.within(FAULT) {
                    driven.fill(0);
                }
                number
            }
        }
    }

    fn cut_frame(
        state: &mut State,
        wp_high: bool,
        array: &mut [u8],
        frame: &[u8],
        output: &mut [u8],
        driven: &mut [u8],
        mask: &[u8],
    ) -> u32 {
        let asked = match Fault::DrivenCheckedAfterMask.within(FAULT) {
            true => frame.len(),
            false => driven.len(),
        };
        let accepted = frame::accept::<FAULT>(state, array, frame, output.len(), asked);
        let ran = accepted.and_then(|chip| {
            let line = match Fault::CutSlicesSwapped.within(FAULT) {
                true => Line { output: &mut *driven, driven: &mut *output },
                false => Line { output: &mut *output, driven: &mut *driven },
            };
            frame::run_cut::<FAULT>(chip, state, wp_high, array, frame, line, mask)
        });
        if Fault::RefusedCutClearsDriven.within(FAULT) && ran.is_err() {
            driven.fill(0);
        }
        ran.err().unwrap_or(0)
    }

    fn plan(
        state: State,
        wp_high: bool,
        array: &[u8],
        start: usize,
        wanted: &[u8],
        buffer: &mut [u8],
    ) -> Planned {
        plan::plan::<FAULT>(state, wp_high, array, start, wanted, buffer)
            .unwrap_or_else(|number| Planned::refused(number, state))
    }

    fn run(
        state: State,
        wp_high: bool,
        array: &mut [u8],
        script: &[u8],
        output: &mut [u8],
        driven: &mut [u8],
    ) -> Ran {
        script::run::<FAULT>(state, wp_high, array, script, Line { output, driven })
    }

    fn survey(script: &[u8]) -> Surveyed {
        script::survey::<FAULT>(script)
    }

    fn read(script: &[u8], offset: usize) -> Record {
        reader::read::<FAULT>(script, offset)
    }

    fn book_is_read(state: State, array: &[u8], sector: usize, scene: u32) -> Told {
        Told::of(state, book::is_read::<FAULT>(&state, array, sector, scene))
    }

    fn book_count(state: State, array: &[u8], sector: usize) -> Told {
        Told::of(state, book::count::<FAULT>(&state, array, sector))
    }

    fn book_mark(
        state: State,
        wp_high: bool,
        array: &[u8],
        sector: usize,
        scenes: &[u32],
        buffer: &mut [u8],
    ) -> Planned {
        book::mark::<FAULT>(state, wp_high, array, sector, scenes, buffer).unwrap_or_else(
            |number| {
                if Fault::RefusedMarkWrites.within(FAULT) {
                    buffer.fill(0);
                }
                Planned::refused(number, state)
            },
        )
    }

    fn salvage(sector: &[u8], kept: &mut [u8], dropped: &mut [u8]) -> Salvaged {
        salvage::<{ SalvageFault::None as u8 }>(sector, kept, dropped)
    }

    fn names_is_read(state: State, array: &[u8], sector: usize, name: &[u8]) -> Told {
        names_is_read(NamesFault::None, state, array, sector, name)
    }

    fn names_mark(
        state: State,
        wp_high: bool,
        array: &[u8],
        sector: usize,
        name: &[u8],
        buffer: &mut [u8],
    ) -> Planned {
        names_mark(NamesFault::None, state, wp_high, array, sector, name, buffer)
    }

    fn names_move(
        state: State,
        wp_high: bool,
        array: &[u8],
        book: usize,
        sector: usize,
        list: &[u8],
        buffer: &mut [u8],
    ) -> Planned {
        names_move(NamesFault::None, state, wp_high, array, [book, sector], list, buffer)
    }

    fn names_back(
        state: State,
        wp_high: bool,
        array: &[u8],
        sector: usize,
        book: usize,
        list: &[u8],
        buffer: &mut [u8],
    ) -> Returned {
        names_back(NamesFault::None, state, wp_high, array, [sector, book], list, buffer)
    }
}

impl Model {
    /// Whether a sound chip takes the frame, and if not, why; the frame has a byte at least.
    pub fn verdict(state: &State, wp_high: bool, frame: &[u8]) -> Option<Result<Kind, Reason>> {
        let chip = state.sound_chip::<RIGHT>()?;
        Some(frame::verdict::<RIGHT>(chip, state, wp_high, frame))
    }

    /// How many array bytes the frame programs or erases on a sound chip.
    pub fn target_length(state: &State, wp_high: bool, frame: &[u8]) -> Option<usize> {
        let chip = state.sound_chip::<RIGHT>()?;
        let length = match frame::verdict::<RIGHT>(chip, state, wp_high, frame) {
            Ok(kind) => Effect::of::<RIGHT>(chip, state, kind, frame).length(),
            Err(_) => 0,
        };
        Some(length)
    }

    /// Whether the frame is a status write that a sound chip takes and that takes time: then it is cut
    /// with one byte, 00 or FF.
    pub fn begins_status_write(state: &State, wp_high: bool, frame: &[u8]) -> Option<bool> {
        let chip = state.sound_chip::<RIGHT>()?;
        let verdict = frame::verdict::<RIGHT>(chip, state, wp_high, frame);
        Some(verdict == Ok(Kind::WriteStatus) && chip.status_time > 0)
    }
}
