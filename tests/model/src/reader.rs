//! Reading a record of a script (01, "Scripts and plans"; 02, A1).

use core::ops::RangeInclusive;

use crate::calls::kind;
use crate::fault::Fault;
use crate::frame::LONGEST_FRAME;
use crate::state::refusal;
use crate::Record;

pub const LONGEST_SCRIPT: usize = 32_768;

/// One well-formed record and what stands after it.
pub enum Next<'a> {
    Frame(&'a [u8], &'a [u8]),
    Wait(u32, &'a [u8]),
    End,
}

/// What is wrong with a record.
pub enum Bad {
    UnknownMark,
    Length,
    CutShort,
}

impl Bad {
    pub fn number(self) -> u32 {
        match self {
            Self::UnknownMark => refusal::UNKNOWN_MARK,
            Self::Length => refusal::RECORD_LENGTH,
            Self::CutShort => refusal::CUT_SHORT,
        }
    }
}

/// How long a record's frame may be.
fn lengths<const FAULT: u8>() -> RangeInclusive<usize> {
    let least = if Fault::EmptyFrameAccepted.within(FAULT) { 0 } else { 1 };
    let more = if Fault::LongerFrameAccepted.within(FAULT) { 1 } else { 0 };
    least..=LONGEST_FRAME + more
}

/// The record at the front of the script's rest.
pub fn next<const FAULT: u8>(rest: &[u8]) -> Result<Next<'_>, Bad> {
    match *rest {
        [] => Ok(Next::End),
        [0x5A, 0x46, high, low, ref rest @ ..] => {
            let length = usize::from(u16::from_be_bytes([high, low]));
            if Fault::LengthCheckedLast.within(FAULT) && length > rest.len() {
                return Err(Bad::CutShort);
            }
            if !lengths::<FAULT>().contains(&length) {
                return Err(Bad::Length);
            }
            let (frame, rest) = rest.split_at_checked(length).ok_or(Bad::CutShort)?;
            Ok(Next::Frame(frame, rest))
        }
        [0x5A, 0x57, a, b, c, d, ref rest @ ..] => {
            Ok(Next::Wait(u32::from_be_bytes([a, b, c, d]), rest))
        }
        [0x5A, 0x57, ..] if Fault::ShortWaitUnknownMark.within(FAULT) => Err(Bad::UnknownMark),
        [byte] if Fault::LastByteUnknownMark.within(FAULT) && byte != 0x5A => Err(Bad::UnknownMark),
        [_] | [0x5A, 0x46 | 0x57, ..] => Err(Bad::CutShort),
        _ => Err(Bad::UnknownMark),
    }
}

pub fn read<const FAULT: u8>(script: &[u8], offset: usize) -> Record {
    let refused =
        |number| Record { number, kind: kind::REFUSED, next: offset, ..Record::default() };
    if script.len() > LONGEST_SCRIPT {
        return refused(refusal::SCRIPT_LENGTH);
    }
    let past_end = match Fault::PastEndUnknownMark.within(FAULT) {
        true => Bad::UnknownMark,
        false => Bad::CutShort,
    };
    match script.get(offset..).ok_or(past_end).and_then(next::<FAULT>) {
        Ok(Next::Frame(frame, rest)) => Record {
            kind: kind::FRAME,
            start: script.len() - rest.len() - frame.len(),
            length: frame.len(),
            next: script.len() - rest.len(),
            ..Record::default()
        },
        Ok(Next::Wait(microseconds, rest)) => Record {
            kind: kind::WAIT,
            microseconds,
            next: script.len() - rest.len(),
            ..Record::default()
        },
        Ok(Next::End) if Fault::EndIsARefusal.within(FAULT) => refused(0),
        Ok(Next::End) => Record { kind: kind::END, next: offset, ..Record::default() },
        Err(bad) => refused(bad.number()),
    }
}
