//! Books written out, with their answers: each on both chips.

use model::{Calls, State, SCENES, SECTOR};

use super::on_chip::BookOnChip;
use crate::{scripts, size, CHIPS, F25L008A};

/// The names of the samples that fail.
pub fn failing<C: Calls>() -> Vec<String> {
    let mut failing = Vec::new();
    for chip in CHIPS {
        let samples = samples::<C>().into_iter().filter(|(_, holds)| !holds(chip));
        failing.extend(samples.map(|(name, _)| format!("chip {chip}, book: {name}")));
    }
    failing
}

/// A name, and whether it holds on a chip.
type Sample = (&'static str, fn(u8) -> bool);

fn samples<C: Calls>() -> Vec<Sample> {
    vec![
        ("scenes 0, 9, 9", |chip| {
            let mut book = BookOnChip::<C>::new(chip, 0);
            book.marks(&[0, 9, 9])
                && book.bytes()[..3] == [0xFE, 0xFD, 0xFF]
                && book.counts(2)
                && book.tells(1, &[0, 9])
                && book.tells(0, &[1, 7, 8, 10, 4_095])
        }),
        ("their script", |chip| {
            let book = BookOnChip::<C>::new(chip, 0);
            let script = script(chip);
            let short = script.len() - 1;
            book.plan(&[0, 9, 9], script.len()) == Some(script)
                && book.refuses_with(10, &[0, 9, 9], short)
        }),
        ("every scene", |chip| {
            let mut book = BookOnChip::<C>::new(chip, SECTOR);
            let all: Vec<u32> = (0..SCENES).collect();
            // One run of 256 words, or two pages.
            let length = if chip == F25L008A { 3_341 } else { 550 };
            let planned = book.plan(&all, length).is_some_and(|script| script.len() == length);
            planned && book.marks(&all) && book.counts(4_096)
        }),
        ("each scene alone", |chip| BookOnChip::<C>::new(chip, SECTOR).marks_each_alone()),
        ("two scenes of a byte, one after the other", |chip| {
            let mut book = BookOnChip::<C>::new(chip, SECTOR);
            book.marks(&[17]) && book.marks(&[22]) && book.bytes()[2] == 0b1011_1101
        }),
        ("only the book's own bytes count", |chip| {
            let mut book = BookOnChip::<C>::new(chip, SECTOR);
            book.chip.array[SECTOR - 1] = 0;
            book.chip.array[SECTOR + 512] = 0;
            let none = book.counts(0);
            book.chip.array[SECTOR + 511] = 0;
            none && book.counts(8) && book.tells(1, &[4_088, 4_095]) && book.tells(0, &[4_087])
        }),
        ("scene 4,095 is the last", |chip| {
            let mut book = BookOnChip::<C>::new(chip, 0);
            book.marks(&[4_095])
                && book.bytes()[511] == 0x7F
                && [4_096, 4_097, 4_103].into_iter().all(|scene| book.has_no_scene(scene))
        }),
        ("a scene's number isn't cut", |chip| {
            let book = BookOnChip::<C>::new(chip, 0);
            let cut = [65_535, 65_536, 65_541, 0x8000_0000, u32::MAX];
            cut.into_iter().all(|scene| book.has_no_scene(scene))
        }),
        ("the last sector is the last", |chip| {
            let (size, last) = (size(chip), size(chip) - SECTOR);
            let above = [size, size + SECTOR, 2 * size, 1 << 32, (1 << 32) + last];
            BookOnChip::<C>::new(chip, last).marks(&[0, 4_095]) && has_no_sector::<C>(chip, &above)
        }),
        ("a sector's start is a multiple of 4,096", |chip| {
            let others = [1, 2, 256, 512, 2_048, 4_095, 4_097, 4_608, size(chip) - 256];
            has_no_sector::<C>(chip, &others)
        }),
        ("a start near the top doesn't wrap", |chip| {
            let less = [0, 1, 511, 512, 4_094, SECTOR - 1, size(chip) - 1];
            has_no_sector::<C>(chip, &less.map(|less| usize::MAX - less))
        }),
        ("an empty list", |chip| BookOnChip::<C>::new(chip, 0).plan(&[], 0) == Some(Vec::new())),
        ("a list of scenes that are read", |chip| {
            let mut book = BookOnChip::<C>::new(chip, 0);
            book.marks(&[3, 2_000]) && book.plan(&[2_000, 3, 3], 0) == Some(Vec::new())
        }),
        ("a list of 5,000 entries", |chip| {
            let mut book = BookOnChip::<C>::new(chip, 0);
            let mut scenes = vec![5; 4_999];
            scenes.push(6);
            let marked = book.marks(&scenes) && book.bytes()[0] == 0b1001_1111;
            scenes.push(4_096);
            marked && book.refuses(15, &scenes)
        }),
        ("a chip that isn't at rest is asked, and not marked", |chip| {
            not_at_rest(chip).into_iter().all(|state| {
                let mut book = BookOnChip::<C>::new(chip, 0);
                book.chip.array[0] = 0xF7;
                book.chip.state = state;
                let told = book.counts(1) && book.tells(1, &[3]) && book.tells(0, &[4]);
                let lists: [&[u32]; 3] = [&[], &[3], &[4]];
                told && lists.into_iter().all(|scenes| book.refuses(7, scenes))
            })
        }),
        ("protected and locked", |chip| {
            let mut book = BookOnChip::<C>::new(chip, 0);
            book.chip.array[0] = 0xF7;
            book.chip.state = State { bp: 7, bpl: true, ..book.chip.state };
            let free = book.marks(&[4]);
            book.wp_high = false;
            free && book.refuses(9, &[5]) && book.plan(&[3, 4], 0) == Some(Vec::new())
        }),
        ("the order of refusals", |chip| {
            let mut book = BookOnChip::<C>::new(chip, 0);
            let locked = State { bp: 7, bpl: true, ..book.chip.state };
            let busy = State { wel: true, left: 5, ..locked };
            book.wp_high = false;
            book.chip.state = locked;
            let nine = book.refuses_with(9, &[0], 0);
            book.chip.state = busy;
            let seven = book.refuses_with(7, &[0], 0);
            let fifteen = book.refuses_with(15, &[0, 4_096], 0);
            book.sector = size(chip);
            let no_sector = book.refuses_with(15, &[0], 0) && book.has_no_sector();
            book.lent -= 1;
            let two = book.refuses_with(2, &[0, 4_096], 0) && book.refuses_to_tell(2);
            book.chip.state.bp = 8;
            let one = book.refuses_with(1, &[0, 4_096], 0) && book.refuses_to_tell(1);
            [nine, seven, fifteen, no_sector, two, one] == [true; 6]
        }),
    ]
}

/// The script that marks the scenes 0 and 9 of an erased book at address 0.
fn script(chip: u8) -> Vec<u8> {
    let mut script = Vec::new();
    scripts::put_frame(&mut script, &[0x06]);
    if chip == F25L008A {
        scripts::put_frame(&mut script, &[0xAD, 0x00, 0x00, 0x00, 0xFE, 0xFD]);
        scripts::put_wait(&mut script, 7);
        scripts::put_frame(&mut script, &[0x04]);
    } else {
        scripts::put_frame(&mut script, &[0x02, 0x00, 0x00, 0x00, 0xFE, 0xFD]);
        scripts::put_wait(&mut script, 1_500);
    }
    script
}

/// Busy, and in AAI or in power-down.
fn not_at_rest(chip: u8) -> [State; 2] {
    let wel = State { chip, wel: true, ..State::default() };
    let busy = State { left: 5, ..wel };
    match chip {
        F25L008A => [busy, State { aai: true, next: 2, ..wel }],
        _ => [busy, State { power_down: true, ..wel }],
    }
}

fn has_no_sector<C: Calls>(chip: u8, starts: &[usize]) -> bool {
    let mut book = BookOnChip::<C>::new(chip, 0);
    starts.iter().all(|start| {
        book.sector = *start;
        book.has_no_sector()
    })
}
