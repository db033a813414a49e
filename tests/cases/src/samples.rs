//! The samples of 01, with what the chip drives (02, A10).

use model::{Calls, State};

use crate::chip::Chip;
use crate::{listing, scripts, size, F25L008A, F25L05PA};

/// The names of the samples that fail.
pub fn failing<C: Calls>() -> Vec<String> {
    samples::<C>().into_iter().filter(|(_, holds)| !holds()).map(|(name, _)| name.into()).collect()
}

type Sample = (&'static str, fn() -> bool);

fn samples<C: Calls>() -> Vec<Sample> {
    vec![
        ("status of a new 008A", || Chip::<C>::new(F25L008A).shows(&[0x05, 0, 0], "-- 1C 1C")),
        ("JEDEC of the 008A", || {
            Chip::<C>::new(F25L008A).shows(&[0x9F, 0, 0, 0, 0], "-- 8C 20 14 --")
        }),
        ("signature of the 05PA", || {
            Chip::<C>::new(F25L05PA).shows(&[0xAB, 0, 0, 0, 0], "-- -- -- -- 05")
        }),
        ("ID of the 008A, device first", || {
            Chip::<C>::new(F25L008A).shows(&[0x90, 0, 0, 1, 0, 0, 0], "-- -- -- -- 13 8C 13")
        }),
        ("BP 001 of the 008A", || {
            let mut chip = Chip::<C>::enabled(F25L008A, 1);
            let silent = chip.is_silent(&[0x02, 0x0F, 0, 0, 0]);
            let protected = chip.array[0x0F_0000] == 0xFF;
            silent
                && chip.is_silent(&[0x02, 0x0E, 0xFF, 0xFF, 0])
                && protected
                && chip.array[0x0E_FFFF] == 0
        }),
        ("A5 programmed 0F", || {
            let mut chip = Chip::<C>::enabled(F25L008A, 0);
            chip.array[7] = 0xA5;
            chip.is_silent(&[0x02, 0, 0, 7, 0x0F]) && chip.array[7] == 0x05
        }),
        ("AAI drops address bit 0", || {
            let mut chip = Chip::<C>::enabled(F25L008A, 0);
            chip.is_silent(&[0xAD, 0x01, 0x23, 0x45, 0x11, 0x22])
                && chip.array[0x01_2344..0x01_2347] == [0x11, 0x22, 0xFF]
        }),
        ("a page write wraps in its page", || {
            let mut chip = Chip::<C>::enabled(F25L05PA, 0);
            chip.is_silent(&[0x02, 0, 0, 0xFF, 0x01, 0x02])
                && [chip.array[0xFF], chip.array[0], chip.array[0x100]] == [0x01, 0x02, 0xFF]
        }),
        ("chip erase with only BP2 set", || {
            let mut page = Chip::<C>::enabled(F25L05PA, 4);
            let mut word = Chip::<C>::enabled(F25L008A, 4);
            page.array[9] = 0;
            word.array[9] = 0;
            let silent = page.is_silent(&[0xC7]) && word.is_silent(&[0xC7]);
            silent && page.array[9] == 0xFF && word.array[9] == 0
        }),
        ("AAI at the top", || {
            let mut chip = Chip::<C>::enabled(F25L008A, 0);
            let silent = chip.is_silent(&[0xAD, 0x0F, 0xFF, 0xFE, 0x11, 0x22]);
            chip.wait(6);
            let busy = chip.shows(&[0x05, 0], "-- 43");
            chip.wait(1);
            silent && busy && chip.shows(&[0x05, 0], "-- 00")
        }),
        ("05 between 50 and 01", || {
            let mut chip = Chip::<C>::new(F25L008A);
            chip.is_silent(&[0x50])
                && chip.shows(&[0x05, 0], "-- 1C")
                && chip.is_silent(&[0x01, 0])
                && chip.state.bp == 7
        }),
        ("the plan of one byte", one_byte_plan::<C>),
        ("plans at the very end", || {
            let chip = Chip::<C>::enabled(F25L008A, 0);
            let plan = |wanted: &[u8]| {
                C::plan(chip.state, true, &chip.array, size(F25L008A), wanted, &mut [])
            };
            plan(&[]).number == 0 && plan(&[]).length == 0 && plan(&[0xFF]).number == 6
        }),
        ("frames of 4,101 and 4,102", longest_frame::<C>),
        ("05PA read of two at FFFF", || {
            let mut chip = Chip::<C>::new(F25L05PA);
            chip.array[0xFFFF] = 0x12;
            chip.array[0] = 0x34;
            chip.shows(&[0x03, 0, 0xFF, 0xFF, 0, 0], "-- -- -- -- 12 34")
        }),
        ("the script of play", play::<C>),
    ]
}

/// The longest frame reads an erased array; with one byte more nothing is touched.
fn longest_frame<C: Calls>() -> bool {
    let mut chip = Chip::<C>::new(F25L008A);
    let mut long = [vec![0xA5; 4_102], vec![0xA5; 4_102]];
    let [output, driven] = &mut long;
    let frame = [0x03; 4_102];
    let refused = C::frame(&mut chip.state, true, &mut chip.array, &frame, output, driven);
    let listing = ["-- ".repeat(4), "FF ".repeat(4_097)].concat();
    chip.shows(&frame[..4_101], &listing)
        && refused == 3
        && long.iter().flatten().all(|byte| *byte == 0xA5)
}

fn one_byte_plan<C: Calls>() -> bool {
    let state = State { chip: F25L008A, ..State::default() };
    let array = vec![0xFF; size(F25L008A)];
    let plan = |buffer: &mut [u8]| C::plan(state, true, &array, 0x01_2345, &[0xFE], buffer);
    let mut buffer = [0; 26];
    let planned = plan(&mut buffer);
    let script = [
        0x5A, 0x46, 0x00, 0x01, 0x06, 0x5A, 0x46, 0x00, 0x06, 0xAD, 0x01, 0x23, 0x44, 0xFF, 0xFE,
        0x5A, 0x57, 0x00, 0x00, 0x00, 0x07, 0x5A, 0x46, 0x00, 0x01, 0x04,
    ];
    let counts = (planned.number, planned.length, planned.frames, planned.microseconds);
    counts == (0, 26, 3, 7) && buffer == script && plan(&mut [0; 25]).number == 10
}

fn play<C: Calls>() -> bool {
    let script = scripts::sample();
    let mut chip = Chip::<C>::new(F25L05PA);
    let (mut output, mut driven) = (vec![0xA5; 18], vec![0xA5; 18]);
    let ran = C::run(chip.state, true, &mut chip.array, &script, &mut output, &mut driven);
    let listing = "-- 8C 30 10  --  -- -- -- -- --  -- 00  -- -- -- -- A5 FF";
    (output, driven) == listing::slices(listing)
        && (ran.number, ran.frames, ran.microseconds, ran.offset) == (0, 5, 1_500, 0)
        && ran.state == C::new_chip(F25L05PA).state
}
