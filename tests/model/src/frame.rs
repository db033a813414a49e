//! Frames (01, "Frames"): whether one is taken, and what it then does.

use crate::chip::{Chip, Kind, SECTOR_TIME, WORD_TIME};
use crate::effect::Effect;
use crate::fault::Fault;
use crate::line::{Line, REST};
use crate::reply;
use crate::state::refusal;
use crate::status_write;
use crate::State;

pub const LONGEST_FRAME: usize = 4_101;

/// Why a frame is ignored; the first that holds.
#[derive(Clone, Copy, Debug, PartialEq, Eq, PartialOrd, Ord)]
pub enum Reason {
    UnknownOpcode,
    Busy,
    InAai,
    InPowerDown,
    WrongLength,
    NotArmed,
    Locked,
    WriteDisabled,
    Protected,
}

/// The refusals that a whole and an interrupted frame share; `output` and `driven` are the lengths of
/// the two slices.
pub fn accept<const FAULT: u8>(
    state: &State,
    array: &[u8],
    frame: &[u8],
    output: usize,
    driven: usize,
) -> Result<&'static Chip, u32> {
    let chip = state.sound_chip::<FAULT>().ok_or(refusal::STATE)?;
    let early = Fault::DrivenCheckedBeforeFrame.within(FAULT) && driven != frame.len();
    if array.len() != chip.size {
        Err(refusal::ARRAY_LENGTH)
    } else if early {
        Err(refusal::OUTPUT_LENGTH)
    } else if frame.is_empty() || frame.len() > LONGEST_FRAME {
        Err(refusal::FRAME_LENGTH)
    } else if !fit::<FAULT>(chip.kind(frame[0]), frame.len(), output, driven) {
        Err(refusal::OUTPUT_LENGTH)
    } else {
        Ok(chip)
    }
}

/// Whether both slices are as long as the frame; the kind matters only to a wrong copy.
fn fit<const FAULT: u8>(kind: Kind, length: usize, output: usize, driven: usize) -> bool {
    let output = output == length || Fault::OutputLengthNotAsked.within(FAULT);
    let driven = driven == length
        || driven > length && Fault::LongerDrivenTaken.within(FAULT)
        || !kind.is_answered() && Fault::SilentLengthNotAsked.within(FAULT)
        || Fault::DrivenLengthNotAsked.within(FAULT);
    output && driven || Fault::OneLengthEnough.within(FAULT) && (output || driven)
}

/// The kind of a frame that is taken, or why it is ignored.
#[inline(always)]
pub fn verdict<const FAULT: u8>(
    chip: &Chip,
    state: &State,
    wp_high: bool,
    frame: &[u8],
) -> Result<Kind, Reason> {
    let kind = chip.kind(frame[0]);
    if kind == Kind::Unknown {
        return Err(Reason::UnknownOpcode);
    }
    let free = Fault::BusyNotAsked.within(FAULT)
        || state.pending && Fault::PendingProtectsAtOnce.within(FAULT);
    let busy = state.left > 0 && !free;
    if busy && kind != Kind::ReadStatus {
        return Err(Reason::Busy);
    }
    let in_aai = matches!(kind, Kind::WordProgram | Kind::ReadStatus | Kind::WriteDisable);
    if state.aai && !in_aai {
        return Err(Reason::InAai);
    }
    if state.power_down && kind != Kind::Signature {
        return Err(Reason::InPowerDown);
    }
    if !fits::<FAULT>(chip, state, kind, frame.len()) {
        return Err(Reason::WrongLength);
    }
    match kind {
        Kind::WriteStatus => {
            let locked = if Fault::LockedByEither.within(FAULT) {
                state.bpl || !wp_high
            } else {
                state.bpl && !wp_high
            };
            if !state.armed {
                return Err(Reason::NotArmed);
            }
            if locked {
                return Err(Reason::Locked);
            }
        }
        Kind::EraseSector
        | Kind::EraseBlock
        | Kind::EraseChip
        | Kind::Program
        | Kind::WordProgram => {
            // Protection borders are multiples of a block: one address decides for the target,
            // for a chip erase the last.
            let target = match kind {
                Kind::EraseChip => chip.size - 1,
                Kind::WordProgram => word_address::<FAULT>(chip, state, frame),
                _ => address(chip, frame),
            };
            if !state.wel && !Fault::WelNotAsked.within(FAULT) {
                return Err(Reason::WriteDisabled);
            }
            if target >= state.first_protected::<FAULT>(chip) as usize {
                return Err(Reason::Protected);
            }
        }
        _ => {}
    }
    Ok(kind)
}

fn fits<const FAULT: u8>(chip: &Chip, state: &State, kind: Kind, length: usize) -> bool {
    match kind {
        Kind::WriteEnable if Fault::LongerEnableTaken.within(FAULT) => true,
        Kind::WriteEnable
        | Kind::WriteDisable
        | Kind::EnableStatusWrite
        | Kind::EraseChip
        | Kind::PowerDown => length == 1,
        Kind::WriteStatus => length == 2,
        Kind::EraseSector | Kind::EraseBlock => length == 4,
        Kind::Program if chip.pages => length >= 5,
        Kind::Program => length == 5,
        Kind::WordProgram => length == if state.aai { 3 } else { 6 },
        _ => true,
    }
}

/// The address a frame names; 0 where it is too short to name one.
pub fn address(chip: &Chip, frame: &[u8]) -> usize {
    match *frame {
        [_, high, middle, low, ..] => {
            chip.reduced(u32::from_be_bytes([0, high, middle, low]) as usize)
        }
        _ => 0,
    }
}

/// Runs a frame on a sound chip.
pub fn run<const FAULT: u8>(
    chip: &Chip,
    state: &mut State,
    wp_high: bool,
    array: &mut [u8],
    frame: &[u8],
    line: Line,
) {
    match verdict::<FAULT>(chip, state, wp_high, frame) {
        Ok(kind) => {
            reply::show::<FAULT>(chip, state, kind, frame, array, line);
            Effect::of::<FAULT>(chip, state, kind, frame).apply::<FAULT>(array);
            take::<FAULT>(chip, state, kind, frame);
        }
        Err(_) => ignore::<FAULT>(chip, state, frame, array, line),
    }
}

/// Runs it and cuts the power; refuses a mask that isn't as long as the frame's target, or isn't a
/// status write's.
pub fn run_cut<const FAULT: u8>(
    chip: &Chip,
    state: &mut State,
    wp_high: bool,
    array: &mut [u8],
    frame: &[u8],
    mut line: Line,
    mask: &[u8],
) -> Result<(), u32> {
    let verdict = verdict::<FAULT>(chip, state, wp_high, frame);
    let effect =
        verdict.map_or(Effect::Nothing, |kind| Effect::of::<FAULT>(chip, state, kind, frame));
    let writes_status = cuts_status::<FAULT>(chip, state, verdict, frame);
    accept_mask::<FAULT>(writes_status, &effect, mask)?;
    if Fault::DrivenCheckedAfterMask.within(FAULT) && line.driven.len() != frame.len() {
        return Err(refusal::OUTPUT_LENGTH);
    }
    if Fault::CutFrameSilent.within(FAULT) {
        core::mem::take(&mut line.driven).fill(0);
    }
    match verdict {
        Ok(kind) => {
            reply::show::<FAULT>(chip, state, kind, frame, array, line);
            effect.apply_cut::<FAULT>(array, mask);
            let before = *state;
            take::<FAULT>(chip, state, kind, frame);
            if state.pending && writes_status {
                status_write::cut::<FAULT>(chip, state, &before, array, mask);
            }
        }
        Err(_) => ignore::<FAULT>(chip, state, frame, array, line),
    }
    *state = match writes_status && Fault::CutStatusStaysBusy.within(FAULT) {
        true => status_write::still_busy(chip, state.powered_up::<FAULT>(chip), mask),
        false => state.powered_up::<FAULT>(chip),
    };
    Ok(())
}

/// Whether the frame may be cut with this mask.
fn accept_mask<const FAULT: u8>(
    writes_status: bool,
    effect: &Effect,
    mask: &[u8],
) -> Result<(), u32> {
    match writes_status {
        true => status_write::accept_mask::<FAULT>(mask),
        false => effect.accept_mask(mask),
    }
}

/// Whether the frame is a taken status write that takes time; then its mask is one byte.
fn cuts_status<const FAULT: u8>(
    chip: &Chip,
    state: &State,
    verdict: Result<Kind, Reason>,
    frame: &[u8],
) -> bool {
    let taken = match verdict {
        Ok(Kind::WriteStatus) => true,
        Ok(Kind::ReadStatus) => state.pending && Fault::StatusReadMask.within(FAULT),
        Err(_) if chip.kind(frame[0]) == Kind::WriteStatus => {
            Fault::IgnoredStatusMask.within(FAULT)
        }
        _ => false,
    };
    taken && (chip.status_time::<FAULT>() > 0 || Fault::StatusMaskOn008a.within(FAULT))
}

/// The chip drives nothing, whatever the opcode.
fn ignore<const FAULT: u8>(
    chip: &Chip,
    state: &mut State,
    frame: &[u8],
    array: &[u8],
    mut line: Line,
) {
    if Fault::DrivenByOpcode.within(FAULT) {
        let marks = Line { output: &mut [], driven: core::mem::take(&mut line.driven) };
        reply::show::<FAULT>(chip, state, chip.kind(frame[0]), frame, array, marks);
    }
    line.silent::<FAULT>(REST, Fault::IgnoredDriven);
    state.armed &= Fault::IgnoredKeepsArmed.within(FAULT);
}

/// The state after a taken frame.
#[inline(always)]
fn take<const FAULT: u8>(chip: &Chip, state: &mut State, kind: Kind, frame: &[u8]) {
    let was_armed = state.armed;
    state.armed = false;
    match kind {
        Kind::Unknown | Kind::Read | Kind::FastRead | Kind::Jedec | Kind::ReadId => {}
        Kind::ReadStatus => state.armed = was_armed && Fault::StatusReadKeepsArmed.within(FAULT),
        Kind::Signature => state.power_down = false,
        Kind::PowerDown => state.power_down = true,
        Kind::WriteEnable => {
            state.wel = true;
            state.armed = true;
        }
        Kind::WriteDisable => {
            state.wel = false;
            state.aai = false;
            state.next = 0;
        }
        Kind::EnableStatusWrite => state.armed = true,
        Kind::WriteStatus => *state = state.status_written::<FAULT>(chip, frame[1]),
        Kind::EraseSector => state.left = SECTOR_TIME,
        Kind::EraseBlock => state.left = chip.block_time,
        Kind::EraseChip => state.left = chip.chip_time,
        Kind::Program => state.left = chip.program_time,
        Kind::WordProgram => {
            state.next = word_address::<FAULT>(chip, state, frame) as u32 + 2;
            state.aai = true;
            state.left = WORD_TIME;
        }
    }
    if Fault::WelClearedAtFrameEnd.within(FAULT) && state.left > 0 {
        state.wel = false;
    }
}

/// Where a word goes: in AAI to the next address, else to the named one without bit 0.
pub fn word_address<const FAULT: u8>(chip: &Chip, state: &State, frame: &[u8]) -> usize {
    if state.aai {
        state.next as usize
    } else if Fault::AddressBitKept.within(FAULT) {
        address(chip, frame)
    } else {
        address(chip, frame) & !1
    }
}
