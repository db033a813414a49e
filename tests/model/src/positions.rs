//! Which scene has which name: "the list of names by position" (02, A7).

use crate::book::BOOK;
use crate::chip::SECTOR;
use crate::name_list::List;
use crate::names_fault::NamesFault as Fault;

/// The names of the read scenes, in list order.
#[inline(always)]
pub fn read_names<'a>(
    fault: Fault,
    list: &'a List<'a>,
    book: &'a [u8; SECTOR],
) -> impl Iterator<Item = &'a [u8]> {
    let names = list.names();
    let position = move |turn: usize| match Fault::MovedInReverse.is(fault) {
        true => names.len() - 1 - turn,
        false => turn,
    };
    let positions = (0..names.len()).map(position);
    positions.filter(move |position| reads(fault, book, *position)).map(|position| names[position])
}

/// Whether the scene at this position of the list is read.
#[inline(always)]
pub fn reads(fault: Fault, book: &[u8; SECTOR], position: usize) -> bool {
    let (byte, bit) = place(fault, scene(fault, position));
    let is_one = book[byte] & bit != 0;
    is_one == Fault::OneIsRead.is(fault) || Fault::UnreadMoved.is(fault)
}

pub fn is_read(book: &[u8; SECTOR], scene: usize) -> bool {
    book[scene / 8] >> (scene % 8) & 1 == 0
}

/// The scene whose name stands at this position of the list: the same.
#[inline(always)]
pub fn scene(fault: Fault, position: usize) -> usize {
    if Fault::PositionsFrom1.is(fault) {
        position + 1
    } else if Fault::PositionCutTo8Bits.is(fault) {
        position & 0xFF
    } else {
        position
    }
}

/// The byte of the book and the bit in it. Only a wrong copy's scene can pass the book's end.
#[inline(always)]
pub fn place(fault: Fault, scene: usize) -> (usize, u8) {
    let bit = scene % 8;
    let bit = if Fault::SceneBitFromTop.is(fault) { 0x80 >> bit } else { 1 << bit };
    (scene / 8 % BOOK, bit)
}
