//! Moves and ways back.

use model::{Calls, State, SECTOR};

use super::on_chip::{listed, many, OnChip};
use super::Sample;
use crate::names::drawn::list;
use crate::size;

const FIVE: [&[u8]; 5] = [b"dawn", b"roof", b"rooftop", b"A", b"stairs"];

pub fn samples<C: Calls>() -> Vec<Sample> {
    vec![
        ("three read scenes of five, there and back", |chip| {
            let list = listed(&FIVE);
            let mut names = OnChip::<C>::reading(chip, &[1, 2, 4]);
            let moved = names.moves(&list, &[b"roof", b"rooftop", b"stairs"])
                && names.tells(1, &[b"roof", b"rooftop", b"stairs"])
                && names.tells(0, &[b"dawn", b"A"]);
            names.book = 5 * SECTOR;
            moved && names.returns(&list, &[1, 2, 4], 0)
        }),
        ("by list order, and not by name", |chip| {
            let mut names = OnChip::<C>::reading(chip, &[0, 1, 2]);
            names.moves(&listed(&[b"C", b"A", b"B"]), &[b"C", b"A", b"B"])
        }),
        ("scenes at the edges of bytes", |chip| {
            let all = many(20);
            let mut names = OnChip::<C>::reading(chip, &[0, 7, 8, 19]);
            names.moves(&list(&all), &[0, 7, 8, 19].map(|scene| &all[scene][..]))
        }),
        ("the empty list", |chip| {
            let mut names = OnChip::<C>::new(chip);
            let done = names.is_done(&names.there(b""));
            names.put(0, b"NR\x01ANR\x01BNR\x01A");
            done && names.refuses(8, names.there(b"")) && names.returns(b"", &[], 3)
        }),
        ("a list of one name", |chip| {
            let mut names = OnChip::<C>::reading(chip, &[0]);
            let moved = names.moves(b"\x01A", &[b"A"]);
            names.book = 5 * SECTOR;
            moved && names.returns(b"\x01A", &[0], 0)
        }),
        ("4,096 names, and one more", |chip| {
            let (most, over) = (list(&many(4_096)), list(&many(4_097)));
            let last = &many(4_096)[4_095];
            let mut names = OnChip::<C>::reading(chip, &[4_095]);
            let refuses = names.refuses_list(18, &over);
            let moved = names.moves(&most, &[last]);
            names.book = 5 * SECTOR;
            refuses && moved && names.returns(&most, &[4_095], 0) && names.refuses_list(18, &over)
        }),
        ("4,097 names with one twice", |chip| {
            let mut all = many(4_097);
            all[4_096] = all[0].clone();
            let names = OnChip::<C>::new(chip);
            names.refuses_list(18, &list(&all))
                && names.refuses_list(19, &twin(&many(4_096), 0, 4_095))
        }),
        ("bad names in a list", |chip| {
            let names = OnChip::<C>::new(chip);
            let over = [&[33][..], &[b'A'; 33]].concat();
            let longest = [&[32][..], &[b'A'; 32]].concat();
            let bad: [&[u8]; 9] = [
                b"\x00",
                b"\x01A\x00",
                b"\x00\x01A",
                b"\x01\x1F",
                b"\x02A\x7F",
                b"\x02A",
                b"\x01A\x02B",
                b"\x01A\x01",
                &over,
            ];
            bad.into_iter().all(|bad| {
                let behind = [b"\x01Z", bad].concat();
                names.refuses_list(18, bad) && names.refuses_list(18, &behind)
            }) && names.is_done(&names.there(&longest))
                && names.is_done(&names.there(b"\x02 ~"))
        }),
        ("a read scene at the list's end and past it", |chip| {
            let list = listed(&FIVE);
            let bad = [&list[..], b"\x00"].concat();
            let past = |scene: &usize| {
                let names = OnChip::<C>::reading(chip, &[*scene]);
                names.refuses(18, names.there(&list)) && names.refuses(18, names.there(&bad))
            };
            OnChip::<C>::reading(chip, &[4]).moves(&list, &[FIVE[4]])
                && [5, 6, 7, 8, 4_095].iter().all(past)
        }),
        ("the rest of the book's sector isn't looked at", |chip| {
            let mut names = OnChip::<C>::reading(chip, &[3]);
            names.chip.array[2 * SECTOR + 512] = 0;
            names.chip.array[3 * SECTOR - 1] = 0;
            names.moves(&listed(&FIVE), &[b"A"])
        }),
        ("on the way back the target's scenes past the list are 8", |chip| {
            let mut names = OnChip::<C>::reading(chip, &[4_095]);
            names.put(0, b"NR\x01A");
            names.refuses(8, names.back(&listed(&FIVE)))
        }),
        ("a name twice: beside, far apart, first and last, read or not", |chip| {
            let all = many(300);
            let names = OnChip::<C>::new(chip);
            let reading = OnChip::<C>::reading(chip, &[0, 299]);
            [(0, 299), (17, 18), (3, 200), (298, 299)].into_iter().all(|(one, other)| {
                let list = twin(&all, one, other);
                names.refuses_list(19, &list) && reading.refuses_list(19, &list)
            })
        }),
        ("a beginning of a name isn't the name twice, nor is another case", |chip| {
            let mut names = OnChip::<C>::reading(chip, &[1]);
            names.moves(&listed(&[b"roof", b"roo", b"Roof", b"roofs"]), &[b"roo"])
        }),
        ("records that need 4,096 bytes, and one more", |chip| {
            let mut all = many(600);
            let read: Vec<usize> = (0..512).collect();
            all[..512].iter_mut().for_each(|name| name.extend(b"__"));
            let names: Vec<&[u8]> = all[..512].iter().map(|name| &name[..]).collect();
            let exact = OnChip::<C>::reading(chip, &read).moves(&list(&all), &names);
            let mut over = all.clone();
            over[511].push(b'_');
            let over = list(&over);
            let names = OnChip::<C>::reading(chip, &read);
            let mut more = OnChip::<C>::reading(chip, &read);
            more.read(599);
            exact
                && names.refuses(20, names.there(&over))
                && more.refuses(20, more.there(&list(&all)))
        }),
        ("a target that isn't erased", |chip| {
            let list = listed(&FIVE);
            let dirt: [(usize, u8); 4] = [(0, 0x4E), (1, 0x52), (14, 0x00), (4_095, 0xFE)];
            dirt.into_iter().all(|(at, byte)| {
                let mut names = OnChip::<C>::reading(chip, &[1, 2]);
                names.chip.array[at] = byte;
                names.refuses(8, names.there(&list))
            })
        }),
        ("dirt in the target book, and behind it", |chip| {
            [(0, 0xFE), (511, 0x7F), (512, 0xFE), (4_095, 0x00)].into_iter().all(|(at, byte)| {
                let mut names = OnChip::<C>::with(chip, b"NR\x04roof");
                names.chip.array[2 * SECTOR + at] = byte;
                names.refuses(8, names.back(&listed(&FIVE)))
            })
        }),
        ("records that aren't on the list, each counted", |chip| {
            let bytes = b"NR\x01XNR\x04roofNR\x01XNR\x04roofNR\x03rooNR\x00NR\x01Y";
            OnChip::<C>::with(chip, bytes).returns(&listed(&FIVE), &[1], 3)
        }),
        ("there are no records on the list", |chip| {
            OnChip::<C>::with(chip, b"NR\x01XNR\x01X").returns(&listed(&FIVE), &[], 2)
        }),
        ("one sector for both", |chip| {
            let mut names = OnChip::<C>::new(chip);
            let starts = [0, SECTOR, size(chip) - SECTOR];
            starts.into_iter().all(|start| {
                (names.sector, names.book) = (start, start);
                names.refuses_list(6, &listed(&FIVE)) && names.refuses_list(6, b"\x00")
            })
        }),
        ("the first and the last sector", |chip| {
            let last = size(chip) - SECTOR;
            [(0, last), (last, 0)].into_iter().all(|(sector, book)| {
                let mut names = OnChip::<C>::new(chip);
                (names.sector, names.book) = (sector, book);
                names.read(2);
                let moved = names.moves(&listed(&FIVE), &[b"rooftop"]);
                names.book = SECTOR;
                moved && names.returns(&listed(&FIVE), &[2], 0)
            })
        }),
        ("no sectors", no_sectors::<C>),
        ("at rest or not", |chip| {
            super::not_at_rest(chip).into_iter().all(|state| {
                let mut names = OnChip::<C>::reading(chip, &[1]);
                names.chip.state = state;
                names.refuses_list(7, &listed(&FIVE))
            })
        }),
        ("protected and locked", |chip| {
            let list = listed(&FIVE);
            let mut names = OnChip::<C>::reading(chip, &[1]);
            names.chip.state = State { bp: 7, bpl: true, ..names.chip.state };
            names.wp_high = false;
            let nine = names.refuses(9, names.there(&list)) && names.refuses(8, names.back(&list));
            names.wp_high = true;
            nine && names.moves(&list, &[b"roof"])
        }),
        ("exactly the room, and a byte less", |chip| {
            let list = listed(&FIVE);
            let mut names = OnChip::<C>::reading(chip, &[1, 3]);
            let there = fits_exactly(&mut names, |names| names.there(&list));
            names.book = 5 * SECTOR;
            names.put(0, b"NR\x01ANR\x04roof");
            there && fits_exactly(&mut names, |names| names.back(&list))
        }),
    ]
}

/// Whether a call needs exactly its script's room.
fn fits_exactly<C: Calls>(
    names: &mut OnChip<C>,
    call: impl Fn(&OnChip<C>) -> super::on_chip::Called,
) -> bool {
    let Some(script) = names.script(&call(names)) else { return false };
    names.room = script.len();
    let same = names.script(&call(names)) == Some(script.clone());
    names.room = script.len() - 1;
    let short = names.refuses(10, call(names));
    names.room = crate::names::ROOMY;
    same && short && !script.is_empty()
}

fn twin(names: &[Vec<u8>], one: usize, other: usize) -> Vec<u8> {
    let mut names = names.to_vec();
    names[other] = names[one].clone();
    list(&names)
}

/// Starts at which there is no sector, on the other chip perhaps: the names' and the book's, alone
/// and both.
fn no_sectors<C: Calls>(chip: u8) -> bool {
    let size = size(chip);
    let starts =
        [1, 256, SECTOR - 1, size - 256, size, size + SECTOR, 1 << 32, usize::MAX - (SECTOR - 1)];
    let list = listed(&FIVE);
    starts.into_iter().all(|start| {
        let mut names = OnChip::<C>::new(chip);
        names.sector = start;
        let sector = names.refuses_list(15, &list)
            && names.refuses(15, names.mark(b"A"))
            && names.refuses_to_tell(15, b"A");
        names.book = start;
        let both = names.refuses_list(15, &list);
        names.sector = 0;
        sector && both && names.refuses_list(15, &list)
    })
}
