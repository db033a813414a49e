//! How much is lent to a salvage of each slice.

use model::SECTOR;

use super::images::Image;
use super::LONGEST_LIST;
use crate::literal::bytes_text;
use crate::spoil::Planted;
use crate::Rng;

/// Lengths that a sector slice may not have.
pub const WRONG_LENGTHS: [usize; 4] = [0, SECTOR - 1, SECTOR + 1, 2 * SECTOR];
/// Longer than any list.
const LONGER: usize = 5_000;

/// The lengths of the slices.
#[derive(Clone, Copy, PartialEq, Eq)]
pub struct Lent {
    pub sector: usize,
    pub kept: usize,
    pub room: usize,
}

impl Lent {
    /// As they should be; no list is too long.
    pub const AMPLE: Self = Self { sector: SECTOR, kept: SECTOR, room: LONGEST_LIST };

    /// With every other room that matters to a list of this length; and two with sector slices of
    /// wrong lengths, once where the list, if there is any, doesn't fit either.
    pub fn others(rng: &mut Rng, list: usize) -> Vec<Self> {
        let mut rooms = vec![list, 0, LONGER];
        rooms.extend(list.checked_sub(1));
        rooms.extend(list.checked_sub(4));
        rooms.sort_unstable();
        rooms.dedup();
        rooms.retain(|room| *room != LONGEST_LIST);
        let mut all: Vec<Self> = rooms.iter().map(|&room| Self { room, ..Self::AMPLE }).collect();
        all.push(wrong(rng, list));
        all.push(wrong(rng, list.saturating_sub(1)));
        all
    }

    pub fn is_sectors(&self) -> bool {
        (self.sector, self.kept) == (SECTOR, SECTOR)
    }

    /// The refusals that hold where the list has this length.
    pub fn planted(&self, list: usize) -> Planted {
        let mut planted = Planted::default();
        if !self.is_sectors() {
            planted.plant(2);
        }
        if self.room < list {
            planted.plant(10);
        }
        planted
    }

    /// The call as Rust text that can be pasted.
    pub fn text(&self, image: &Image) -> String {
        let Self { sector, kept, room } = *self;
        let lines = [
            format!("let sector = {};", bytes_text(image.lent(sector))),
            format!("let mut kept = vec![0x5A_u8; {kept}];"),
            format!("let mut dropped = vec![0x5A_u8; {room}];"),
            "Library::salvage(&sector, &mut kept, &mut dropped);".into(),
        ];
        lines.join("\n")
    }
}

/// One of the sector slices has a wrong length, or both have.
fn wrong(rng: &mut Rng, room: usize) -> Lent {
    let wrong = [rng.pick(&WRONG_LENGTHS), rng.pick(&WRONG_LENGTHS)];
    let [sector, kept] = match rng.below(3) {
        0 => [wrong[0], SECTOR],
        1 => [SECTOR, wrong[1]],
        _ => wrong,
    };
    Lent { sector, kept, room }
}
