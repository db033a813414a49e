//! What each level of protection, BP2 BP1 BP0, protects, told by sector erases (20).

use model::{Calls, State};

use crate::chip::Chip;
use crate::{first_protected, refused, size, CHIPS};

/// The levels that protect otherwise, and the numbers over 7 that some call takes for one.
pub fn failing<C: Calls>() -> Vec<String> {
    CHIPS.into_iter().flat_map(failing_on::<C>).collect()
}

fn failing_on<C: Calls>(chip: u8) -> Vec<String> {
    let levels = (0..8).map(|bp| (bp, first_protected(chip, bp)));
    let levels = levels.filter(|(bp, first)| !protects_from::<C>(chip, *bp, *first));
    let over = |bp| State { bp, ..C::new_chip(chip).state };
    let others = (8..=255).filter(|bp| !refused::by_every_call::<C>(over(*bp)));
    levels
        .map(|(bp, first)| format!("chip {chip}, BP {bp:03b}: protected from {first:06X} up"))
        .chain(others.map(|bp| format!("chip {chip}, BP {bp}: no level")))
        .collect()
}

/// The first protected address and the last are protected, the one below it and 0 are not; those
/// of them that there are.
fn protects_from<C: Calls>(chip: u8, bp: u8, first: usize) -> bool {
    let size = size(chip);
    let there = (first < size).then_some(first);
    let addresses = [Some(0), first.checked_sub(1), there, Some(size - 1)];
    let is_right = |address| erases::<C>(chip, bp, address) == Some(address < first);
    addresses.into_iter().flatten().all(is_right)
}

/// Whether an erase at the address is taken; nothing if it is neither wholly taken nor ignored.
fn erases<C: Calls>(chip: u8, bp: u8, address: usize) -> Option<bool> {
    const SECTOR: usize = 4_096;
    const TIME: u32 = 90_000;
    const STATUS_TIME: u32 = 5_000;
    let mut chip = Chip::<C>::new(chip);
    chip.array.fill(0);
    let written = chip.is_silent(&[0x06]) && chip.is_silent(&[0x01, bp << 2]);
    chip.wait(STATUS_TIME);
    let ready = written && chip.is_silent(&[0x06]);
    let ignored = State { armed: false, ..chip.state };
    let taken = State { left: TIME, ..ignored };
    let mut erased = chip.array.clone();
    erased[address / SECTOR * SECTOR..][..SECTOR].fill(0xFF);

    let [_, high, middle, low] = (address as u32).to_be_bytes();
    if !ready || !chip.is_silent(&[0x20, high, middle, low]) {
        None
    } else if chip.state == ignored && chip.array.iter().all(|byte| *byte == 0) {
        Some(false)
    } else {
        (chip.state == taken && chip.array == erased).then_some(true)
    }
}
