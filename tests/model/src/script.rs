//! Looking a script through and running it (01, "Scripts and plans"; 02, A1).

use crate::chip::Chip;
use crate::fault::Fault;
use crate::frame;
use crate::line::Line;
use crate::reader::{next, Bad, Next, LONGEST_SCRIPT};
use crate::state::refusal;
use crate::{Ran, State, Surveyed};

/// What all records come to; or what is wrong with the first bad one, and where its mark is.
pub fn survey<const FAULT: u8>(script: &[u8]) -> Surveyed {
    if script.len() > LONGEST_SCRIPT {
        return Surveyed { number: refusal::SCRIPT_LENGTH, ..Surveyed::default() };
    }
    let mut surveyed = Surveyed::default();
    let (mut last, mut rest) = (script, script);
    loop {
        let after = match next::<FAULT>(rest) {
            Ok(Next::Frame(frame, after)) => {
                surveyed.frames += 1;
                surveyed.output += frame.len();
                after
            }
            Ok(Next::Wait(microseconds, after)) => {
                surveyed.microseconds = waited::<FAULT>(surveyed.microseconds, microseconds);
                after
            }
            Ok(Next::End) => return surveyed,
            Err(bad) => {
                let behind = match bad {
                    _ if Fault::OffsetOfLastGood.within(FAULT) => last.len(),
                    Bad::Length if Fault::OffsetOfLength.within(FAULT) => rest.len() - 2,
                    _ => rest.len(),
                };
                let counts = match Fault::RefusedSurveyCounts.within(FAULT) {
                    true => surveyed,
                    false => Surveyed::default(),
                };
                return Surveyed { number: bad.number(), offset: script.len() - behind, ..counts };
            }
        };
        (last, rest) = (rest, after);
    }
}

/// The chip, or the first refusal that holds: 1, 2, those of the survey, then 4.
fn accept<const FAULT: u8>(
    state: &State,
    array: &[u8],
    surveyed: &Surveyed,
    line: &Line,
) -> Result<&'static Chip, u32> {
    let chip = state.sound_chip::<FAULT>().ok_or(refusal::STATE)?;
    let [output, driven] = [line.output.len(), line.driven.len()];
    let early = Fault::OutputCheckedBeforeRecords.within(FAULT) && output != surveyed.output
        || Fault::DrivenCheckedBeforeRecords.within(FAULT) && driven != surveyed.output;
    if array.len() != chip.size {
        Err(refusal::ARRAY_LENGTH)
    } else if early {
        Err(refusal::OUTPUT_LENGTH)
    } else if surveyed.number != 0 {
        Err(surveyed.number)
    } else if !fit::<FAULT>(surveyed.output, output, driven) {
        Err(refusal::OUTPUT_LENGTH)
    } else {
        Ok(chip)
    }
}

/// Whether both slices are as long as all frames together.
fn fit<const FAULT: u8>(length: usize, output: usize, driven: usize) -> bool {
    let output = output == length || Fault::ScriptOutputLengthNotAsked.within(FAULT);
    let driven = driven == length
        || driven > length && Fault::ScriptLongerDrivenTaken.within(FAULT)
        || Fault::ScriptDrivenLengthNotAsked.within(FAULT);
    output && driven || Fault::ScriptOneLengthEnough.within(FAULT) && (output || driven)
}

/// The offset that comes with a run's refusal: 12, 13 and 14 "alone carry an offset" (02, A1).
fn offset_with<const FAULT: u8>(number: u32, surveyed: &Surveyed, script: &[u8]) -> usize {
    match number {
        refusal::UNKNOWN_MARK | refusal::RECORD_LENGTH | refusal::CUT_SHORT => surveyed.offset,
        refusal::STATE if Fault::OffsetWithState.within(FAULT) => surveyed.offset,
        refusal::ARRAY_LENGTH if Fault::OffsetWithArray.within(FAULT) => surveyed.offset,
        refusal::OUTPUT_LENGTH if Fault::OffsetWithOutput.within(FAULT) => script.len(),
        _ => 0,
    }
}

pub fn run<const FAULT: u8>(
    state: State,
    wp_high: bool,
    array: &mut [u8],
    script: &[u8],
    mut line: Line,
) -> Ran {
    let surveyed = survey::<FAULT>(script);
    let chip = match accept::<FAULT>(&state, array, &surveyed, &line) {
        Ok(chip) => chip,
        Err(number) => {
            if Fault::RefusedRunClearsDriven.within(FAULT) {
                line.driven.fill(0);
            }
            let offset = offset_with::<FAULT>(number, &surveyed, script);
            return Ran::refused(number, state, offset);
        }
    };
    let mut ran = Ran { number: 0, state, frames: 0, microseconds: 0, offset: 0 };
    let mut rest = script;
    loop {
        match next::<FAULT>(rest) {
            Ok(Next::Frame(frame, after)) => {
                let here = place::<FAULT>(&mut line, frame.len());
                frame::run::<FAULT>(chip, &mut ran.state, wp_high, array, frame, here);
                ran.frames += 1;
                rest = after;
            }
            Ok(Next::Wait(microseconds, after)) => {
                ran.state = ran.state.after::<FAULT>(chip, microseconds);
                ran.microseconds = waited::<FAULT>(ran.microseconds, microseconds);
                rest = after;
            }
            Ok(Next::End) | Err(_) => return ran,
        }
    }
}

/// Where a frame of this length is shown, behind those before it.
fn place<'a, const FAULT: u8>(line: &'a mut Line, length: usize) -> Line<'a> {
    let mut here = line.next(length);
    if Fault::DrivenFrameLate.within(FAULT) {
        let length = length.min(line.driven.len());
        here.driven = &mut line.driven[..length];
    }
    here
}

fn waited<const FAULT: u8>(so_far: u64, microseconds: u32) -> u64 {
    let sum = so_far + u64::from(microseconds);
    if Fault::WaitsWrap.within(FAULT) {
        sum & u64::from(u32::MAX)
    } else {
        sum
    }
}
