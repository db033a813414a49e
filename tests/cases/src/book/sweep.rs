//! Cases about books gone through one by one: scenes and sectors at their edges, on a chip at rest
//! and on one that is busy, with a wrong array and in a state that isn't sound.

use model::SECTOR;

use crate::case::{Case, On};
use crate::sweep::chips;
use crate::{size, CHIPS};

const SCENES: [u32; 10] = [0, 7, 8, 4_088, 4_095, 4_096, 4_103, 65_535, 65_541, u32::MAX];
/// More than the script takes that marks three scenes.
const ROOM: usize = 200;

/// All of them.
pub struct BookSweep(Vec<Case>);

impl BookSweep {
    pub fn new() -> Self {
        let mut cases = Vec::new();
        for chip in CHIPS {
            for on in chips(chip) {
                for sector in sectors(chip) {
                    cases.push(Case::BookCount { on: on.clone(), sector });
                    cases.extend(SCENES.into_iter().flat_map(|scene| asked(&on, sector, scene)));
                }
            }
        }
        Self(cases)
    }

    /// How many cases it has.
    pub fn length(&self) -> usize {
        self.0.len()
    }

    /// One of them, by its place.
    pub fn case(&self, number: usize) -> Case {
        self.0[number].clone()
    }
}

/// The first, the second and the last, and what isn't a sector's start.
fn sectors(chip: u8) -> [usize; 12] {
    let size = size(chip);
    [
        0,
        SECTOR,
        size - SECTOR,
        1,
        256,
        SECTOR - 1,
        size - 256,
        size,
        2 * size - SECTOR,
        (1 << 32) + SECTOR,
        usize::MAX - (SECTOR - 1),
        usize::MAX,
    ]
}

/// The scene asked for, and marked behind others.
fn asked(on: &On, sector: usize, scene: u32) -> [Case; 2] {
    let scenes = vec![9, 2_000, 9, scene];
    [
        Case::BookIsRead { on: on.clone(), sector, scene },
        Case::BookMark { on: on.clone(), sector, scenes, room: ROOM },
    ]
}
