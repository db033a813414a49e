//! What stands in a sector of names, and what is to stand there (02, A7).

use crate::chip::SECTOR;
use crate::names::{Form, HEAD};
use crate::names_fault::NamesFault as Fault;
use crate::plan::plan;
use crate::state::refusal;
use crate::{Planned, State, RIGHT};

/// The names of a sector, each with where its record ends.
#[inline(always)]
pub fn records(fault: Fault, image: &[u8]) -> Records<'_> {
    Records { fault, image, at: 0 }
}

pub struct Records<'a> {
    fault: Fault,
    image: &'a [u8],
    at: usize,
}

impl<'a> Iterator for Records<'a> {
    type Item = (&'a [u8], usize);

    #[inline(always)]
    fn next(&mut self) -> Option<Self::Item> {
        let Self { fault, image, .. } = *self;
        self.at += stepped_over(fault, &image[self.at..]);
        let found = form(fault).record(&image[self.at..])?;
        self.at += found.len();
        let is_seen = self.at < SECTOR || !Fault::RecordAtEndRefused.is(fault);
        is_seen.then_some((&found[HEAD..], self.at))
    }
}

/// The bytes of the records that are there.
#[inline(always)]
pub fn front(fault: Fault, image: &[u8]) -> &[u8] {
    &image[..records(fault, image).last().map_or(0, |(_, end)| end)]
}

/// Whether a record has the name.
#[inline(always)]
pub fn has(fault: Fault, image: &[u8], name: &[u8]) -> bool {
    let last = match Fault::LastRecordNotSeen.is(fault) {
        true => front(fault, image).len(),
        false => usize::MAX,
    };
    for (record, end) in records(fault, image) {
        if end != last && is_name(fault, record, name) {
            return true;
        }
        if Fault::FirstRecordOnly.is(fault) {
            return false;
        }
    }
    false
}

/// Whether a record's name is the one that is asked for.
#[inline(always)]
fn is_name(fault: Fault, record: &[u8], name: &[u8]) -> bool {
    if Fault::BeginningIsName.is(fault) {
        record.starts_with(name)
    } else if Fault::LongerIsName.is(fault) {
        name.starts_with(record)
    } else if Fault::LastByteNotCompared.is(fault) {
        let but_last = name.len().saturating_sub(1);
        record.len() == name.len() && record.starts_with(&name[..but_last])
    } else if Fault::CaseFolded.is(fault) {
        record.eq_ignore_ascii_case(name)
    } else {
        record == name
    }
}

/// How many bytes in front of a record are left out: "the first place without a whole good record
/// ends them", so none.
#[inline(always)]
fn stepped_over(fault: Fault, rest: &[u8]) -> usize {
    if Fault::ErasedSteppedOver.is(fault) {
        usize::from(rest.first() == Some(&0xFF))
    } else if Fault::ReadOnBehindBadPlace.is(fault) {
        let starts = |at: &usize| form(fault).record(&rest[*at..]).is_some();
        (0..rest.len()).find(starts).unwrap_or(0)
    } else {
        0
    }
}

/// What a record looks like where it stands.
#[inline(always)]
fn form(fault: Fault) -> Form {
    let mut form = Form::RIGHT;
    form.whole_mark = !Fault::HalfMarkAsked.is(fault);
    form.past_end = Fault::RecordPastEndTaken.is(fault);
    if Fault::Length0Taken.is(fault) {
        form.shortest = 0;
    } else if Fault::Length1Refused.is(fault) {
        form.shortest = 2;
    } else if Fault::Length32Refused.is(fault) {
        form.longest = 31;
    } else if Fault::Length33Taken.is(fault) {
        form.longest = 33;
    } else if Fault::Byte1fTaken.is(fault) {
        form.first_byte = 0x1F;
    } else if Fault::SpaceRefused.is(fault) {
        form.first_byte = 0x21;
    } else if Fault::Byte7eRefused.is(fault) {
        form.last_byte = 0x7D;
    } else if Fault::Byte7fTaken.is(fault) {
        form.last_byte = 0x7F;
    }
    form
}

/// "Wanted is the whole sector, FF behind the last used byte"; only a wrong copy wants less of it.
pub struct Wanted {
    pub bytes: [u8; SECTOR],
    pub from: usize,
    pub until: usize,
}

impl Wanted {
    /// These bytes, FF behind them.
    pub fn padded(bytes: &[u8]) -> Self {
        let mut wanted = Self { bytes: [0xFF; SECTOR], from: 0, until: SECTOR };
        wanted.bytes[..bytes.len()].copy_from_slice(bytes);
        wanted
    }

    /// Only for a wrong copy: what stands there, with the name's record over it.
    pub fn over(image: &[u8], name: &[u8]) -> Self {
        let mut wanted = Self::padded(image);
        let record = [0x4E, 0x52, name.len() as u8];
        let bytes = wanted.bytes.iter_mut().zip(record.iter().chain(name));
        bytes.for_each(|(wanted, byte)| *wanted &= byte);
        wanted
    }

    /// The records of these names behind what stands in front: by the first plan while a byte of
    /// their lengths and names is missing, by the second with their marks; or 20.
    #[inline(always)]
    pub fn records<'a>(
        fault: Fault,
        image: &[u8; SECTOR],
        front: &[u8],
        names: impl Iterator<Item = &'a [u8]>,
    ) -> Result<Self, u32> {
        let mut first = Self::padded(front);
        let mut second = Self::padded(front);
        let mut missing = false;
        let mut at = front.len();
        for name in names {
            let end = at + HEAD + name.len();
            if is_over(fault, at, end) {
                if Fault::MovedAsFarAsFits.is(fault) {
                    break;
                }
                return Err(refusal::FULL);
            }
            let head = [0x4E, 0x52, name.len() as u8];
            // Only a wrong copy's record can pass the sector's end.
            let record = head.iter().chain(name).zip(at..SECTOR).enumerate();
            for (index, (byte, place)) in record {
                second.bytes[place] = *byte;
                if index >= 2 {
                    first.bytes[place] = *byte;
                    let asked = is_asked_for(fault, index, place + 1 == end);
                    missing |= asked && image[place] != *byte;
                } else if Fault::MarkKeptInFirstPlan.is(fault) {
                    first.bytes[place] = image[place];
                }
            }
            at = end.min(SECTOR);
        }
        if Fault::FirstPlanUntilExact.is(fault) {
            missing = *image != first.bytes;
        }
        let goes_first = missing && !Fault::MarksInFirstPlan.is(fault);
        let wanted = if goes_first { first } else { second };
        Ok(wanted.within(fault, goes_first, front.len(), at))
    }

    #[inline(always)]
    fn within(self, fault: Fault, first: bool, from: usize, until: usize) -> Self {
        if Fault::MarkNotLookedAt.is(fault) && first {
            Self { from: from + 2, until, ..self }
        } else if Fault::OwnBytesWanted.is(fault) || Fault::MarkNotLookedAt.is(fault) {
            Self { from, until, ..self }
        } else if Fault::RestNotWanted.is(fault) {
            Self { until, ..self }
        } else {
            self
        }
    }

    /// Plans it for the sector that starts here.
    #[inline(always)]
    pub fn plan(
        &self,
        fault: Fault,
        state: State,
        wp_high: bool,
        array: &[u8],
        sector: usize,
        buffer: &mut [u8],
    ) -> Result<Planned, u32> {
        let sector = if Fault::PlannedAtAddress0.is(fault) { 0 } else { sector };
        let wanted = &self.bytes[self.from..self.until];
        plan_right(state, wp_high, array, sector + self.from, wanted, buffer)
    }
}

/// The right planner, which all copies share.
fn plan_right(
    state: State,
    wp_high: bool,
    array: &[u8],
    start: usize,
    wanted: &[u8],
    buffer: &mut [u8],
) -> Result<Planned, u32> {
    plan::<RIGHT>(state, wp_high, array, start, wanted, buffer)
}

/// "20, records don't fit in 4,096 bytes."
#[inline(always)]
fn is_over(fault: Fault, start: usize, end: usize) -> bool {
    if Fault::FullOneEarly.is(fault) {
        end >= SECTOR
    } else if Fault::FullOneLate.is(fault) {
        end > SECTOR + 1
    } else if Fault::FullForLongest.is(fault) {
        start + HEAD + usize::from(Form::RIGHT.longest) > SECTOR
    } else {
        end > SECTOR
    }
}

/// Whether a byte of a record, behind its mark, is one that the second plan waits for.
#[inline(always)]
fn is_asked_for(fault: Fault, index: usize, last: bool) -> bool {
    if Fault::LengthsNotAskedFor.is(fault) {
        index > 2
    } else if Fault::NamesNotAskedFor.is(fault) {
        index == 2
    } else if Fault::LastByteAskedFor.is(fault) {
        last
    } else {
        true
    }
}
