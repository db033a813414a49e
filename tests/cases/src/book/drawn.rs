//! Sectors and lists of scenes, drawn with a liking for edges.

use model::{SCENES, SECTOR};

use super::read_scenes;
use crate::{size, Rng, BORDERS};

/// The longest list that is drawn: a list may have more entries than there are scenes.
const LONGEST_LIST: usize = 5_000;

/// Where a sector starts.
pub fn sector(rng: &mut Rng, chip: u8) -> usize {
    let last = size(chip) / SECTOR - 1;
    let sector = match rng.below(4) {
        0 => 0,
        1 => last,
        2 => rng.pick(&BORDERS) / SECTOR - rng.below(2),
        _ => rng.below(last + 1),
    };
    sector.min(last) * SECTOR
}

/// Where no sector of the chip starts.
pub fn no_sector(rng: &mut Rng, chip: u8) -> usize {
    let size = size(chip);
    match rng.below(7) {
        0 => size,
        1 => size + SECTOR * rng.between(1, 300),
        2 => sector(rng, chip) + rng.pick(&[1, 2, 255, 257, 2_047, SECTOR - 1]),
        3 => sector(rng, chip) + 256 * rng.between(1, 15),
        4 => usize::MAX - (SECTOR - 1),
        5 => (1 << 32) + sector(rng, chip),
        _ => usize::MAX - rng.below(2 * SECTOR),
    }
}

/// The number of a scene.
pub fn scene(rng: &mut Rng) -> u32 {
    match rng.below(3) {
        0 => rng.pick(&[0, 1, 6, 7, 8, 9, 4_087, 4_088, 4_094, 4_095]),
        _ => rng.below(SCENES as usize) as u32,
    }
}

/// The number of no scene.
pub fn no_scene(rng: &mut Rng) -> u32 {
    match rng.below(3) {
        0 => SCENES,
        1 => rng.pick(&[4_097, 8_191, 65_535, 65_536, 65_541, u32::MAX - 4_095, u32::MAX]),
        _ => rng.between(SCENES as usize, u32::MAX as usize) as u32,
    }
}

/// A list to mark in this book; now and then scenes stand in it more than once.
pub fn scenes(rng: &mut Rng, book: &[u8]) -> Vec<u32> {
    match rng.below(16) {
        0 => Vec::new(),
        1 | 2 => read_already(rng, book),
        3 => (0..SCENES).rev().collect(),
        4 => {
            let length = rng.between(SCENES as usize + 1, LONGEST_LIST);
            long_list(rng, length)
        }
        5 => {
            let first = scene(rng);
            (first..SCENES).take(rng.between(1, 300)).collect()
        }
        _ => short_list(rng),
    }
}

/// From one scene to a dozen.
pub fn short_list(rng: &mut Rng) -> Vec<u32> {
    let mut scenes: Vec<u32> = (0..rng.between(1, 8)).map(|_| scene(rng)).collect();
    if rng.one_in(3) {
        repeat_some(rng, &mut scenes);
    }
    scenes
}

/// Scenes of which none is new, if some are read.
fn read_already(rng: &mut Rng, book: &[u8]) -> Vec<u32> {
    let read: Vec<u32> = read_scenes(book).collect();
    match read.len() {
        0 => Vec::new(),
        _ => (0..rng.between(1, 40)).map(|_| rng.pick(&read)).collect(),
    }
}

/// So many entries from a few scenes, and one behind them that is its own.
fn long_list(rng: &mut Rng, length: usize) -> Vec<u32> {
    let few = short_list(rng);
    let mut scenes: Vec<u32> = (1..length).map(|_| rng.pick(&few)).collect();
    scenes.push(scene(rng));
    scenes
}

fn repeat_some(rng: &mut Rng, scenes: &mut Vec<u32>) {
    for _ in 0..rng.between(1, 4) {
        let again = rng.pick(scenes);
        scenes.insert(rng.below(scenes.len() + 1), again);
    }
}
