//! Flags by name, and back again (02, A7): the four calls.

use crate::book::BOOK;
use crate::chip::SECTOR;
use crate::flag_checks::{check, sectors};
use crate::name_list::List;
use crate::name_sector::{front, has, records, Wanted};
use crate::names::{Form, HEAD};
use crate::names_fault::NamesFault as Fault;
use crate::positions::{place, read_names, scene};
use crate::state::refusal;
use crate::{Planned, Returned, State, Told};

/// Whether a record has the name.
#[inline(always)]
pub fn names_is_read(fault: Fault, state: State, array: &[u8], sector: usize, name: &[u8]) -> Told {
    Told::of(state, is_read(fault, &state, array, sector, name))
}

#[inline(always)]
fn is_read(
    fault: Fault,
    state: &State,
    array: &[u8],
    sector: usize,
    name: &[u8],
) -> Result<u32, u32> {
    let [image] = sectors(fault, state, array, [sector])?;
    let active = state.aai || state.power_down;
    if Fault::BusyQuestionRefused.is(fault) && state.left > 0
        || Fault::ActiveQuestionRefused.is(fault) && active
    {
        return Err(refusal::NOT_AT_REST);
    }
    match form(fault).is_name(name) || is_long_enough(fault, name) {
        true => Ok(has(fault, image, name).into()),
        false if Fault::BadNameUnread.is(fault) => Ok(0),
        false => Err(refusal::BAD_NAME),
    }
}

/// Plans the marking of a name.
#[inline(always)]
pub fn names_mark(
    fault: Fault,
    state: State,
    wp_high: bool,
    array: &[u8],
    sector: usize,
    name: &[u8],
    buffer: &mut [u8],
) -> Planned {
    let planned = wanted_mark(fault, &state, array, sector, name).and_then(|wanted| {
        let present = array.get(sector..).is_some_and(|rest| rest.starts_with(&wanted.bytes));
        match Fault::PresentNotPlanned.is(fault) && present {
            true => Ok(Planned::refused(0, state)),
            false => wanted.plan(fault, state, wp_high, array, sector, buffer),
        }
    });
    answered(fault, state, planned, buffer)
}

/// Plans the records of the read scenes.
#[inline(always)]
pub fn names_move(
    fault: Fault,
    state: State,
    wp_high: bool,
    array: &[u8],
    [book, sector]: [usize; 2],
    list: &[u8],
    buffer: &mut [u8],
) -> Planned {
    let planned = wanted_move(fault, &state, array, [book, sector], list)
        .and_then(|wanted| wanted.plan(fault, state, wp_high, array, sector, buffer));
    answered(fault, state, planned, buffer)
}

/// Plans the book of the names that have a record.
#[inline(always)]
pub fn names_back(
    fault: Fault,
    state: State,
    wp_high: bool,
    array: &[u8],
    [sector, book]: [usize; 2],
    list: &[u8],
    buffer: &mut [u8],
) -> Returned {
    let [sector, book] = match Fault::BackSectorsSwapped.is(fault) {
        true => [book, sector],
        false => [sector, book],
    };
    let mut counted = 0;
    let planned =
        wanted_back(fault, &state, array, [sector, book], list).and_then(|(wanted, unlisted)| {
            counted = unlisted;
            wanted.plan(fault, state, wp_high, array, book, buffer)
        });
    let planned = answered(fault, state, planned, buffer);
    let Planned { number, state, length, frames, microseconds } = planned;
    let is_told = match (number, length) {
        (0, 0) => !Fault::UnlistedNotWithEmpty.is(fault),
        (0, _) => true,
        _ => Fault::UnlistedWithRefusal.is(fault),
    };
    let unlisted = if is_told { counted } else { 0 };
    Returned { number, state, length, frames, microseconds, unlisted }
}

#[inline(always)]
fn answered(
    fault: Fault,
    state: State,
    planned: Result<Planned, u32>,
    buffer: &mut [u8],
) -> Planned {
    planned.unwrap_or_else(|number| {
        if Fault::RefusedWrites.is(fault) {
            buffer.fill(0);
        }
        Planned::refused(number, state)
    })
}

/// What a name that is asked for looks like.
#[inline(always)]
fn form(fault: Fault) -> Form {
    let mut form = Form::RIGHT;
    if Fault::EmptyNameAsked.is(fault) {
        form.shortest = 0;
    } else if Fault::Name33Asked.is(fault) {
        form.longest = 33;
    } else if Fault::Byte1fAsked.is(fault) {
        form.first_byte = 0x1F;
    } else if Fault::Byte7fAsked.is(fault) {
        form.last_byte = 0x7F;
    }
    form
}

/// Only for a wrong copy, which looks at the length alone.
#[inline(always)]
fn is_long_enough(fault: Fault, name: &[u8]) -> bool {
    Fault::LengthAloneAsked.is(fault) && (1..=32).contains(&name.len())
}

/// "Marking a name appends its record, unless one has it": then the sector as it stands.
#[inline(always)]
fn wanted_mark(
    fault: Fault,
    state: &State,
    array: &[u8],
    sector: usize,
    name: &[u8],
) -> Result<Wanted, u32> {
    let [image] = sectors::<1>(fault, state, array, [sector])?;
    let front = front(fault, image);
    let over = front.len() + HEAD + name.len() > SECTOR;
    if Fault::RestBeforeBadName.is(fault) && !state.at_rest() {
        return Err(refusal::NOT_AT_REST);
    }
    if Fault::FullBeforeBadName.is(fault) && over && !has(fault, image, name) {
        return Err(refusal::FULL);
    }
    if !form(fault).is_name(name) && !is_long_enough(fault, name) {
        return Err(refusal::BAD_NAME);
    }
    if has(fault, image, name) && !Fault::PresentAppended.is(fault) {
        return match () {
            () if Fault::PresentRefusedFull.is(fault) && over => Err(refusal::FULL),
            () if Fault::PresentWantsErased.is(fault) => Ok(Wanted::padded(front)),
            () => Ok(Wanted::padded(image)),
        };
    }
    if Fault::WrittenOverFirst.is(fault) {
        return Ok(Wanted::over(image, name));
    }
    let wanted = Wanted::records(fault, image, front, core::iter::once(name));
    wanted.map_err(|number| rest_first(fault, state, number))
}

/// "Plans records for the read scenes in list order."
#[inline(always)]
fn wanted_move(
    fault: Fault,
    state: &State,
    array: &[u8],
    starts: [usize; 2],
    list: &[u8],
) -> Result<Wanted, u32> {
    let [book, target] = sectors::<2>(fault, state, array, starts)?;
    let list = List::read(fault, list);
    let front = if Fault::MovedBehindOthers.is(fault) { front(fault, target) } else { &[] };
    let wanted = Wanted::records(fault, target, front, read_names(fault, &list, book));
    let checked = check(fault, starts, &list, Some(book));
    if Fault::FullBeforeTwice.is(fault) && checked == Err(refusal::NAME_TWICE) {
        wanted?;
        return Err(refusal::NAME_TWICE);
    }
    checked?;
    wanted.map_err(|number| rest_first(fault, state, number))
}

/// Only a wrong copy's 7 comes before 20.
#[inline(always)]
fn rest_first(fault: Fault, state: &State, number: u32) -> u32 {
    match Fault::RestBeforeFull.is(fault) && !state.at_rest() {
        true => refusal::NOT_AT_REST,
        false => number,
    }
}

/// "512 book bytes and 3,584 FF", and "how many records had a name not on the list".
#[inline(always)]
fn wanted_back(
    fault: Fault,
    state: &State,
    array: &[u8],
    starts: [usize; 2],
    list: &[u8],
) -> Result<(Wanted, u32), u32> {
    let [source, target] = sectors::<2>(fault, state, array, starts)?;
    let list = List::read(fault, list);
    let looked_at = Fault::BackLooksPastList.is(fault).then_some(target);
    check(fault, starts, &list, looked_at)?;

    let mut wanted = Wanted::padded(match Fault::BookKept.is(fault) {
        true => &target[..BOOK],
        false => &[],
    });
    let mut unlisted = set_read(fault, source, &list, &mut wanted);
    if Fault::OthersSetRead.is(fault) {
        let listed = &mut wanted.bytes[..list.names().len() / 8];
        listed.iter_mut().for_each(|byte| *byte = !*byte);
    }
    if Fault::UnrecordedCounted.is(fault) {
        let unrecorded = |name: &&&[u8]| !has(fault, source, name);
        unlisted = list.names().iter().filter(unrecorded).count() as u32;
    }
    if Fault::BookAloneWanted.is(fault) {
        wanted.until = BOOK;
    }
    Ok((wanted, unlisted))
}

/// Sets the scenes read whose name has a record; how many records are of others.
#[inline(always)]
fn set_read(fault: Fault, source: &[u8; SECTOR], list: &List, book: &mut Wanted) -> u32 {
    let sorted = list.sorted(false);
    let mut unlisted = 0;
    for (index, (name, _)) in records(fault, source).enumerate() {
        if let Some(position) = sorted.position(name) {
            let from = usize::from(Fault::BackPositionsFrom1.is(fault));
            let (byte, bit) = place(fault, scene(fault, position + from));
            book.bytes[byte] &= !bit;
        } else if Fault::UnlistedEnds.is(fault) {
            break;
        } else {
            let mut before = records(fault, source).take(index);
            let once = Fault::UnlistedNamesCounted.is(fault);
            unlisted += u32::from(!(once && before.any(|(other, _)| other == name)));
        }
    }
    unlisted
}
