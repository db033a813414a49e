//! Questions and marks.

use model::{Calls, State, SECTOR};

use super::on_chip::OnChip;
use super::Sample;
use crate::{scripts, F25L008A};

const LONGEST: &[u8] = b"0123456789ABCDEFGHIJKLMNOPQRSTUV";

pub fn samples<C: Calls>() -> Vec<Sample> {
    vec![
        ("rooftop by two plans", |chip| {
            let mut names = OnChip::<C>::new(chip);
            names.sector = SECTOR;
            names.marks(b"rooftop")
                && names.image()[..11] == *b"NR\x07rooftop\xFF"
                && names.marks(b"roof")
                && names.tells(1, &[b"rooftop", b"roof"])
        }),
        ("its scripts, with exactly the room and a byte less", scripts_are_right::<C>),
        ("names of 1 and 32 bytes, and of 0 and 33", |chip| {
            let mut names = OnChip::<C>::new(chip);
            let over = [LONGEST, b"W"].concat();
            let long = [&vec![b'A'; 256][..], b"B"].concat();
            names.marks(b"A")
                && names.marks(LONGEST)
                && [&b""[..], &over, &long].into_iter().all(|name| is_bad(&names, name))
        }),
        ("bytes 20 and 7E, and 1F, 7F, 00 and FF", |chip| {
            let mut names = OnChip::<C>::new(chip);
            let bad: [&[u8]; 6] = [b"\x1F", b"\x7F", b"A\x1F", b"\x7FA", b"A\0", b"A\xFFB"];
            names.marks(b" ")
                && names.marks(b"~")
                && names.marks(b" ~ ~")
                && bad.into_iter().all(|name| is_bad(&names, name))
        }),
        ("the same bytes and lengths in records", |chip| {
            let over = [&b"NR\x21"[..], LONGEST, b"W", b"NR\x01A"].concat();
            let bad: [&[u8]; 7] = [
                b"NR\x00NR\x01A",
                &over,
                b"NR\x02A\x1FNR\x01A",
                b"NR\x02\x7FANR\x01A",
                b"NS\x01ANR\x01A",
                b"MR\x01ANR\x01A",
                b"\xFFNR\x01A",
            ];
            bad.into_iter().all(|bytes| OnChip::<C>::with(chip, bytes).tells(0, &[b"A", b"W"]))
                && OnChip::<C>::with(chip, b"NR\x03 ~ NR\x01A").tells(1, &[b" ~ ", b"A"])
        }),
        ("a beginning of a name is another name, and so is a longer one", |chip| {
            let mut names = OnChip::<C>::with(chip, b"NR\x04roofNR\x07stairs!");
            names.tells(1, &[b"roof", b"stairs!"])
                && names.tells(0, &[b"roo", b"roofs", b"r", b"stairs", b"Roof", b"roog"])
                && names.marks(b"roo")
                && names.marks(b"roofs")
                && names.marks(b"Roof")
        }),
        ("the first bad place ends the records", |chip| {
            let names = OnChip::<C>::with(chip, b"NR\x01ANR\x01BNX\x01CNR\x01DNR\x01A");
            names.tells(1, &[b"A", b"B"]) && names.tells(0, &[b"C", b"D"])
        }),
        ("equal names", |chip| {
            let names = OnChip::<C>::with(chip, b"NR\x01ANR\x01ANR\x01B");
            names.tells(1, &[b"A", b"B"]) && names.is_done(&names.mark(b"A"))
        }),
        ("a record that ends at the last byte, and one that would pass it", |chip| {
            let front = b"NR\x01A".repeat(1_023);
            let mut names = OnChip::<C>::with(chip, &front);
            let full = names.refuses(20, names.mark(b"BC"));
            let marks = names.marks(b"Z");
            let cut = OnChip::<C>::with(chip, &[&front[..], b"NR\x02Z"].concat());
            full && marks && names.image().ends_with(b"NR\x01Z") && cut.tells(0, &[b"Z"])
        }),
        ("what fits exactly, and what needs one byte more", |chip| {
            let front = [&b"NR\x01A".repeat(1_014)[..], b"NR\x03BBB"].concat();
            let mut names = OnChip::<C>::with(chip, &front);
            names.refuses(20, names.mark(LONGEST)) && names.marks(&LONGEST[..31])
        }),
        ("there already in a full sector", |chip| {
            let names = OnChip::<C>::with(chip, &b"NR\x05Scene".repeat(512));
            names.is_done(&names.mark(b"Scene"))
                && names.refuses(20, names.mark(b"S"))
                && names.refuses(20, names.mark(b"Other"))
        }),
        ("there already, and dirt behind the records", |chip| {
            let names = OnChip::<C>::with(chip, b"NR\x01A\xFF\x00NR\x01B");
            names.is_done(&names.mark(b"A")) && names.refuses(8, names.mark(b"B"))
        }),
        ("dirt behind what is appended, near and at the very end", |chip| {
            [8, 9, 4_095].into_iter().all(|at| {
                let mut names = OnChip::<C>::with(chip, b"NR\x01A");
                names.chip.array[at] = 0xFE;
                names.refuses(8, names.mark(b"B"))
            })
        }),
        ("dirt where the name is to go, as it is wanted and otherwise", dirt_in_place::<C>),
        ("a mark before the name in the first plan", |chip| {
            let marks: [&[u8]; 5] = [b"NR", b"N", b"\xFFR", b"NR\xFFB", b"NR\x03B"];
            marks.into_iter().all(|mark| {
                let names = OnChip::<C>::with(chip, &[b"NR\x01A", mark].concat());
                names.refuses(8, names.mark(b"B"))
            })
        }),
        ("a cut ANR, then Y and ANR again", |chip| {
            let names = OnChip::<C>::with(chip, b"NR\x01A\xFF\xFF\xFF\xFFNR");
            let mut again = OnChip::<C>::with(chip, b"NR\x01A\xFF\xFF\xFF\xFFNR");
            names.refuses(8, names.mark(b"Y"))
                && names.refuses(8, names.mark(b"A!"))
                && again.marks(b"ANR")
        }),
        ("at rest or not", |chip| {
            super::not_at_rest(chip).into_iter().all(|state| {
                let mut names = OnChip::<C>::with(chip, b"NR\x01A");
                names.chip.state = state;
                names.tells(1, &[b"A"])
                    && names.tells(0, &[b"B"])
                    && names.refuses(7, names.mark(b"A"))
                    && names.refuses(7, names.mark(b"B"))
            })
        }),
        ("protected and locked", |chip| {
            let mut names = OnChip::<C>::with(chip, b"NR\x01A");
            names.chip.state = State { bp: 7, bpl: true, ..names.chip.state };
            let free = names.marks(b"B");
            names.wp_high = false;
            free && names.refuses(9, names.mark(b"C")) && names.is_done(&names.mark(b"B"))
        }),
    ]
}

fn is_bad<C: Calls>(names: &OnChip<C>, name: &[u8]) -> bool {
    names.refuses_to_tell(18, name) && names.refuses(18, names.mark(name))
}

/// Each half-done state of the two plans goes on to the same end; anything else is 8.
fn dirt_in_place<C: Calls>(chip: u8) -> bool {
    let goes_on: [&[u8]; 6] = [
        b"\xFF\xFF\x02\xFF\xFF",
        b"\xFF\xFF\xFFBC",
        b"\xFF\xFF\x03\xF3\xC3",
        b"\xFF\xFF\x02BC",
        b"N\xFF\x02BC",
        b"\xFE\xF3\x02BC",
    ];
    let not: [&[u8]; 4] =
        [b"\xFF\xFF\x00\xFF\xFF", b"\xFF\xFF\x02B\x00", b"\x00\xFF\x02BC", b"\xFF\xFF\x01B"];
    let ends = |begun: &&[u8]| {
        let mut names = OnChip::<C>::with(chip, &[b"NR\x01A", *begun].concat());
        let turns = 0..2;
        for _ in turns {
            let called = names.mark(b"BC");
            let first = !begun.ends_with(b"\x02BC") && names.image()[6..9] != *b"\x02BC";
            let bytes: &[u8] = if first { b"NR\x01A\xFF\xFF\x02BC" } else { b"NR\x01ANR\x02BC" };
            if !names.is_done(&called) && !names.runs(&called, 0, bytes) {
                return false;
            }
        }
        names.tells(1, &[b"A", b"BC"])
    };
    let refused = |begun: &&[u8]| {
        let names = OnChip::<C>::with(chip, &[b"NR\x01A", *begun].concat());
        names.refuses(8, names.mark(b"BC"))
    };
    goes_on.iter().all(ends) && not.iter().all(refused)
}

/// The scripts that mark "AB" in an erased sector at address 0.
fn scripts_are_right<C: Calls>(chip: u8) -> bool {
    let mut names = OnChip::<C>::new(chip);
    let images: [&[u8]; 2] = [b"\xFF\xFF\x02AB", b"NR\x02AB"];
    script_texts(chip).into_iter().zip(images).all(|(script, image)| {
        names.room = script.len() - 1;
        let short = names.refuses(10, names.mark(b"AB"));
        names.room = script.len();
        let called = names.mark(b"AB");
        short && names.script(&called) == Some(script) && names.runs(&called, 0, image)
    })
}

fn script_texts(chip: u8) -> [Vec<u8>; 2] {
    let mut scripts = [Vec::new(), Vec::new()];
    let [first, second] = &mut scripts;
    if chip == F25L008A {
        scripts::put_frame(first, &[0x06]);
        scripts::put_frame(first, &[0xAD, 0x00, 0x00, 0x02, 0x02, 0x41]);
        scripts::put_wait(first, 7);
        scripts::put_frame(first, &[0xAD, 0x42, 0xFF]);
        scripts::put_wait(first, 7);
        scripts::put_frame(first, &[0x04]);
        scripts::put_frame(second, &[0x06]);
        scripts::put_frame(second, &[0xAD, 0x00, 0x00, 0x00, 0x4E, 0x52]);
        scripts::put_wait(second, 7);
        scripts::put_frame(second, &[0x04]);
    } else {
        scripts::put_frame(first, &[0x06]);
        scripts::put_frame(first, &[0x02, 0x00, 0x00, 0x02, 0x02, 0x41, 0x42]);
        scripts::put_wait(first, 1_500);
        scripts::put_frame(second, &[0x06]);
        scripts::put_frame(second, &[0x02, 0x00, 0x00, 0x00, 0x4E, 0x52]);
        scripts::put_wait(second, 1_500);
    }
    scripts
}
