//! What the cases met of the two slices in which frames are shown.

use model::Model;

use super::line_sorts::{borders, of_line, reaches_answer};
use super::{known, rank, Counts, Met};
use crate::case::{Case, On};
use crate::generator::Item;
use crate::scripts;
use crate::side::Written;

/// The refusal for a wrong length of either.
const WRONG_LINE: u32 = 4;

impl Counts {
    /// Counts which bytes of an accepted call's frames were driven.
    pub(super) fn note_shown(&mut self, case: &Case, written: Written) {
        let call = case.call();
        match case {
            Case::Frame { on, frame, .. } | Case::Cut { on, frame, .. } => {
                self.note_borders(call, on.state.chip, frame, written);
                self.note_silent(call, on, frame, written.driven);
            }
            Case::Run { on, script, .. } => {
                let mut at = 0;
                for record in scripts::records(script) {
                    if let [0x5A, 0x46, _, _, frame @ ..] = record {
                        let here = at..at + frame.len();
                        at = here.end;
                        let buffer = &written.buffer[here.clone()];
                        let written = Written { buffer, driven: &written.driven[here] };
                        self.note_borders(call, on.state.chip, frame, written);
                    }
                }
            }
            _ => {}
        }
    }

    fn note_borders(&mut self, call: &'static str, chip: u8, frame: &[u8], written: Written) {
        let opcode = frame[0];
        for &(at, _) in borders(chip, opcode) {
            if let Some(driven) = written.driven.get(at) {
                self.count(Met::Border { call, chip, opcode, at, driven: *driven == 1 });
            }
        }
        if written.buffer.iter().zip(written.driven).any(|shown| shown == (&0xFF, &1)) {
            self.count(Met::ErasedDriven { call, chip, opcode });
        }
    }

    /// An ignored frame that would show something if it were taken.
    fn note_silent(&mut self, call: &'static str, on: &On, frame: &[u8], driven: &[u8]) {
        let (chip, opcode) = (on.state.chip, frame[0]);
        if let Some(Err(reason)) = Model::verdict(&on.state, on.wp_high, frame) {
            let silent = driven.iter().all(|byte| *byte == 0);
            if silent && reaches_answer(chip, opcode, frame.len()) {
                self.count(Met::AllSilent { call, chip, opcode, reason });
            }
        }
    }

    /// Counts what was wrong with the lengths where a call was refused with this number.
    pub(super) fn note_line(&mut self, item: &Item, number: u32) {
        let (call, length) = (item.case.call(), shown_length(&item.case));
        let (Some(line), Some(on)) = (item.case.line(), item.case.on()) else { return };
        let chip = known(on.state.chip);
        if number == WRONG_LINE {
            for sort in of_line(line, length) {
                self.count(Met::WrongLine { call, chip, sort });
            }
        }
        if line.output == length && line.driven != length {
            let mut planted = item.planted;
            planted.plant(WRONG_LINE);
            for other in planted.numbers().filter(|other| rank(call, *other) > rank(call, number)) {
                self.count(Met::DrivenAlone { call, number, other });
            }
        }
    }
}

/// How many bytes a call is to show.
fn shown_length(case: &Case) -> usize {
    match case {
        Case::Frame { frame, .. } | Case::Cut { frame, .. } => frame.len(),
        Case::Run { script, .. } => scripts::frame_bytes(script),
        _ => 0,
    }
}
