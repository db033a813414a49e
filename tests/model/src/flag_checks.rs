//! What the calls about flags by name refuse before they plan (02, A7): "after 1, 2 and A2's 15: 6,
//! both sectors equal; 18, a bad name, over 4,096 names, a read scene past them; 19, a name twice".

use crate::book::SCENES;
use crate::chip::{Chip, SECTOR};
use crate::name_list::List;
use crate::names_fault::NamesFault as Fault;
use crate::positions::{is_read, reads};
use crate::state::refusal;
use crate::{State, RIGHT};

/// The sectors that start here, or the first refusal that holds: 1, 2, then 15.
#[inline(always)]
pub fn sectors<'a, const N: usize>(
    fault: Fault,
    state: &State,
    array: &'a [u8],
    starts: [usize; N],
) -> Result<[&'a [u8; SECTOR]; N], u32> {
    let chip = state.sound_chip::<RIGHT>().ok_or(refusal::STATE)?;
    let asked = match () {
        () if Fault::FirstSectorAsked.is(fault) => &starts[..1],
        () if Fault::SecondSectorAsked.is(fault) => &starts[N - 1..],
        () => &starts[..],
    };
    let right = asked.iter().all(|start| is_sector(fault, chip, *start));
    let right_length = array.len() == chip.size;
    if !right_length && (right || !Fault::SectorBeforeArray.is(fault)) {
        return Err(refusal::ARRAY_LENGTH);
    }
    if !right {
        let equal = N == 2 && starts[0] == starts[N - 1];
        return Err(match Fault::EqualBeforeSector.is(fault) && equal {
            true => refusal::SAME_SECTOR,
            false => refusal::WRONG_BOOK,
        });
    }
    let mut images = [&[0; SECTOR]; N];
    for (image, start) in images.iter_mut().zip(starts) {
        let start = match Fault::SectorModuloSize.is(fault) {
            true => chip.reduced(start),
            false => start,
        };
        // Only a wrong copy's sector can pass the chip's end.
        *image = array.get(start..).and_then(|rest| rest.first_chunk()).ok_or(refusal::REGION)?;
    }
    Ok(images)
}

/// Whether a sector of the chip starts here.
#[inline(always)]
fn is_sector(fault: Fault, chip: &Chip, start: usize) -> bool {
    let unit = if Fault::PageTakenAsSector.is(fault) { 256 } else { SECTOR };
    let inside = start < chip.size || Fault::SectorModuloSize.is(fault);
    start.is_multiple_of(unit) && inside
}

/// What may be wrong with two sectors and a list.
#[derive(Clone, Copy)]
enum Check {
    Equal,
    BadName,
    TooMany,
    PastList,
    Twice,
}

/// 6, 18, then 19.
#[inline(always)]
fn order(fault: Fault) -> [Check; 5] {
    use Check::{BadName, Equal, PastList, TooMany, Twice};
    if Fault::EqualAfterBadList.is(fault) {
        [BadName, TooMany, PastList, Equal, Twice]
    } else if Fault::EqualAfterTwice.is(fault) {
        [BadName, TooMany, PastList, Twice, Equal]
    } else if Fault::PastListAfterTwice.is(fault) {
        [Equal, BadName, TooMany, Twice, PastList]
    } else if Fault::TwiceBeforeBadList.is(fault) {
        [Equal, Twice, BadName, TooMany, PastList]
    } else if Fault::TwiceBeforeTooMany.is(fault) {
        [Equal, BadName, PastList, Twice, TooMany]
    } else {
        [Equal, BadName, TooMany, PastList, Twice]
    }
}

/// The first refusal that holds of the sectors and the list, and of the book if there is one.
#[inline(always)]
pub fn check(
    fault: Fault,
    starts: [usize; 2],
    list: &List,
    book: Option<&[u8; SECTOR]>,
) -> Result<(), u32> {
    let counts = |position| match book {
        Some(book) if Fault::ReadNamesCompared.is(fault) => reads(fault, book, position),
        _ => position > 0 || !Fault::FirstNotCompared.is(fault),
    };
    let equal = starts[0] == starts[1] && !Fault::EqualSectorsTaken.is(fault);
    let past = book.is_some_and(|book| past_list(fault, list).any(|scene| is_read(book, scene)));
    let twice = list.has_twice(fault, counts);
    for check in order(fault) {
        match check {
            Check::Equal if equal => return Err(refusal::SAME_SECTOR),
            Check::BadName if list.bad_name => return Err(refusal::BAD_NAME),
            Check::TooMany if list.too_many => return Err(refusal::BAD_NAME),
            Check::PastList if past => return Err(refusal::BAD_NAME),
            Check::Twice if twice => return Err(refusal::NAME_TWICE),
            _ => {}
        }
    }
    Ok(())
}

/// The scenes that have no name.
#[inline(always)]
fn past_list(fault: Fault, list: &List) -> impl Iterator<Item = usize> {
    let named = list.names().len();
    let all = SCENES as usize;
    match () {
        () if Fault::PastListLeftOut.is(fault) => 0..0,
        () if Fault::JustPastLeftOut.is(fault) => named + 1..all,
        () if Fault::LastSceneLeftOut.is(fault) => named..all - 1,
        () if Fault::BookTooLong.is(fault) => named..8 * SECTOR,
        () => named..all,
    }
}
