//! Random marks that have to be accepted.

use model::{State, BOOK};

use super::drawn::{scenes, sector};
use crate::literal::{bytes_text, state_text};
use crate::{first_protected, states, Rng};

/// What a mark is asked for with, beside the rest of the array and the buffer.
pub struct Mark {
    pub state: State,
    pub wp_high: bool,
    pub sector: usize,
    /// The book before.
    pub book: Vec<u8>,
    pub scenes: Vec<u32>,
}

impl Mark {
    /// One more, for which the chip is at rest and not locked.
    pub fn draw(rng: &mut Rng, chip: u8) -> Self {
        let sector = sector(rng, chip);
        let book = book(rng);
        let scenes = scenes(rng, &book);
        let mut mark =
            Self { state: states::at_rest(rng, chip), wp_high: rng.coin(), sector, book, scenes };
        if !mark.wp_high && sector >= first_protected(chip, mark.state.bp) {
            // Otherwise it is 9.
            mark.state.bpl = false;
        }
        mark
    }

    /// As Rust text that can be pasted, with this size of the array and this room.
    pub fn text(&self, size: usize, room: usize) -> String {
        let Self { state, wp_high, sector, book, scenes } = self;
        let lines = [
            state_text(state),
            format!("let mut array = vec![0xFF_u8; {size:#X}];"),
            format!("array[{sector:#X}..][..512].copy_from_slice(&{});", bytes_text(book)),
            format!("let scenes: [u32; {}] = {scenes:?};", scenes.len()),
            format!("let mut buffer = vec![0x5A_u8; {room}];"),
            format!(
                "Library::book_mark(state, {wp_high}, &array, {sector:#X}, &scenes, &mut buffer);"
            ),
        ];
        lines.join("\n")
    }
}

/// Erased, random, or with a few scenes read.
fn book(rng: &mut Rng) -> Vec<u8> {
    let mut book = vec![0xFF; BOOK];
    match rng.below(3) {
        0 => {}
        1 => rng.fill(&mut book),
        _ => (0..60).for_each(|_| book[rng.below(BOOK)] &= rng.byte()),
    }
    book
}
