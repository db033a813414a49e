//! The flag book: scenes by position in one sector (02, A2).

use crate::chip::{Chip, SECTOR};
use crate::fault::Fault;
use crate::plan;
use crate::state::refusal;
use crate::{Planned, State};

/// How many scenes a book keeps.
pub const SCENES: u32 = 4_096;
/// How many bytes of its sector it uses.
pub const BOOK: usize = 512;

/// Whether the scene is read: 1 or 0.
pub fn is_read<const FAULT: u8>(
    state: &State,
    array: &[u8],
    sector: usize,
    scene: u32,
) -> Result<u32, u32> {
    let book = asked::<FAULT>(state, array, sector, &[scene])?;
    let (byte, bit) = place::<FAULT>(scene);
    let is_one = book[byte] & bit != 0;
    Ok(u32::from(is_one == Fault::OneIsRead.within(FAULT)))
}

/// How many scenes are read.
pub fn count<const FAULT: u8>(state: &State, array: &[u8], sector: usize) -> Result<u32, u32> {
    let book = asked::<FAULT>(state, array, sector, &[])?;
    let counted = if Fault::LastByteNotCounted.within(FAULT) {
        &book[..BOOK - 1]
    } else if Fault::WholeSectorCounted.within(FAULT) {
        &array[sector..][..SECTOR]
    } else {
        book
    };
    let zeros = counted.iter().map(|byte| byte.count_zeros()).sum();
    Ok(if Fault::OneIsRead.within(FAULT) { SCENES - zeros } else { zeros })
}

/// Plans the marking of the listed scenes.
pub fn mark<const FAULT: u8>(
    state: State,
    wp_high: bool,
    array: &[u8],
    sector: usize,
    scenes: &[u32],
    buffer: &mut [u8],
) -> Result<Planned, u32> {
    let scenes = listed::<FAULT>(scenes);
    let book = book::<FAULT>(&state, array, sector, scenes).map_err(|number| match number {
        refusal::WRONG_BOOK if Fault::BookCheckedAfterRest.within(FAULT) && !state.at_rest() => {
            refusal::NOT_AT_REST
        }
        _ => number,
    })?;
    let mut wanted = *book;
    if Fault::BookFromAddress0.within(FAULT) {
        wanted.copy_from_slice(&array[..BOOK]);
    }
    for &scene in scenes {
        let (byte, bit) = place::<FAULT>(scene);
        if Fault::RepeatToggles.within(FAULT) {
            wanted[byte] ^= bit;
        } else {
            wanted[byte] &= !bit;
        }
    }
    if Fault::NothingNewNotPlanned.within(FAULT) && wanted == *book {
        return Ok(Planned::refused(0, state));
    }
    let start = if Fault::MarkedAtAddress0.within(FAULT) { 0 } else { sector };
    plan::plan::<FAULT>(state, wp_high, array, start, &wanted, buffer)
}

/// The list; only in a wrong copy a part of it.
fn listed<const FAULT: u8>(scenes: &[u32]) -> &[u32] {
    if Fault::LastSceneDropped.within(FAULT) {
        &scenes[..scenes.len().saturating_sub(1)]
    } else if Fault::LongListCut.within(FAULT) {
        &scenes[..scenes.len().min(SCENES as usize)]
    } else {
        scenes
    }
}

/// The book that a question is about. That the chip is busy is no refusal.
#[inline(always)]
fn asked<'a, const FAULT: u8>(
    state: &State,
    array: &'a [u8],
    sector: usize,
    scenes: &[u32],
) -> Result<&'a [u8; BOOK], u32> {
    let book = book::<FAULT>(state, array, sector, scenes)?;
    if Fault::BusyQuestionRefused.within(FAULT) && state.left > 0 {
        return Err(refusal::NOT_AT_REST);
    }
    Ok(book)
}

/// The book in the sector, or the first refusal that holds: 1, 2, then 15.
#[inline(always)]
fn book<'a, const FAULT: u8>(
    state: &State,
    array: &'a [u8],
    sector: usize,
    scenes: &[u32],
) -> Result<&'a [u8; BOOK], u32> {
    let chip = state.sound_chip::<FAULT>().ok_or(refusal::STATE)?;
    let sector = match Fault::SectorModuloSize.within(FAULT) {
        true => chip.reduced(sector),
        false => sector,
    };
    let right =
        is_sector::<FAULT>(chip, sector) && scenes.iter().all(|scene| is_scene::<FAULT>(*scene));
    if Fault::BookCheckedBeforeArray.within(FAULT) && !right {
        return Err(refusal::WRONG_BOOK);
    }
    if array.len() != chip.size {
        return Err(refusal::ARRAY_LENGTH);
    }
    if !right {
        return Err(refusal::WRONG_BOOK);
    }
    // Only a wrong copy's book can pass the chip's end.
    array.get(sector..).and_then(|rest| rest.first_chunk()).ok_or(refusal::REGION)
}

/// Whether a sector of the chip starts here.
fn is_sector<const FAULT: u8>(chip: &Chip, start: usize) -> bool {
    let unit = if Fault::PageTakenAsSector.within(FAULT) { 256 } else { SECTOR };
    let size_taken = Fault::SizeTakenAsSector.within(FAULT) && start == chip.size;
    start.is_multiple_of(unit) && (start < chip.size || size_taken)
}

fn is_scene<const FAULT: u8>(scene: u32) -> bool {
    let scene = if Fault::SceneCutTo16Bits.within(FAULT) { scene & 0xFFFF } else { scene };
    if Fault::Scene4096Taken.within(FAULT) {
        scene <= SCENES
    } else if Fault::Scene4095Refused.within(FAULT) {
        scene < SCENES - 1
    } else {
        scene < SCENES
    }
}

/// The byte of the book and the bit in it. Only a wrong copy's scene can pass the book's end.
#[inline(always)]
fn place<const FAULT: u8>(scene: u32) -> (usize, u8) {
    let byte = scene as usize / 8 % BOOK;
    let bit =
        if Fault::SceneBitFromTop.within(FAULT) { 0x80 >> (scene % 8) } else { 1 << (scene % 8) };
    (byte, bit)
}
