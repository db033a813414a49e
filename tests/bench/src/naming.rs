//! The operations of flags by name.

use std::hint::black_box;

use model::State;

use crate::operation::{Operation, Prepare, Subject, ROOMY, SECTOR, SIZE_008A, SIZE_05PA};

/// Where the book starts.
const BOOK: usize = 0x5000;
const MOST_NAMES: usize = 4_096;

pub struct Naming {
    state: State,
    array: Vec<u8>,
    call: Call,
    buffer: Vec<u8>,
}

enum Call {
    /// `value` is what it has to be answered with.
    IsRead {
        name: Vec<u8>,
        value: u32,
    },
    Mark {
        name: Vec<u8>,
    },
    Move {
        list: Vec<u8>,
    },
    /// `unlisted` records are what it has to be answered with.
    Back {
        list: Vec<u8>,
        unlisted: u32,
    },
}

pub const OPERATIONS: [(&str, Prepare); 15] = [
    ("a name asked for, last of 1,024", || asked(b"Z", 1)),
    ("a name asked for, not there", || asked(b"z", 0)),
    ("mark a name, first plan (008A)", || mark(8, SIZE_008A, b"")),
    ("mark a name, first plan (05PA)", || mark(5, SIZE_05PA, b"")),
    ("mark a name, second plan (008A)", || mark(8, SIZE_008A, b"\xFF\xFF\x07rooftop")),
    ("mark a name, second plan (05PA)", || mark(5, SIZE_05PA, b"\xFF\xFF\x07rooftop")),
    ("mark a name that is there", || mark(8, SIZE_008A, b"NR\x07rooftop")),
    ("move 150 of 500 names (008A)", || typical_move(8, SIZE_008A)),
    ("move 150 of 500 names (05PA)", || typical_move(5, SIZE_05PA)),
    ("move 8 of 4,096 names, alike in front", || move_few(|own| [&[b'A'; 28], own].concat())),
    ("move 8 of 4,096 names, alike behind", || move_few(|own| [own, &[b'A'; 28]].concat())),
    ("move 8 of 4,096 names of two bytes", move_few_short),
    ("back from 150 records to 500 names", typical_back),
    ("back from 819 records to 4,096 names", || back_from_full(819, 2)),
    ("back from 1,024 records to 4,096 names", || back_from_full(1_024, 1)),
];

/// At rest; all is protected.
fn protected(chip: u8) -> State {
    State { chip, bp: 7, ..State::default() }
}

fn operation(chip: u8, size: usize, call: Call) -> Naming {
    Naming { state: protected(chip), array: vec![0xFF; size], call, buffer: vec![0; ROOMY] }
}

impl Naming {
    fn put(&mut self, start: usize, bytes: &[u8]) {
        self.array[start..][..bytes.len()].copy_from_slice(bytes);
    }

    fn read(&mut self, scenes: impl Iterator<Item = usize>) {
        scenes.for_each(|scene| self.array[BOOK + scene / 8] &= !(1 << (scene % 8)));
    }

    /// Does it once; it has to be answered as it must be.
    pub fn once<S: Subject>(&mut self) {
        let state = black_box(self.state);
        let (array, buffer) = (black_box(&self.array[..]), black_box(&mut self.buffer[..]));
        let (sector, book) = (black_box(SECTOR), black_box(BOOK));
        match &self.call {
            Call::IsRead { name, value } => {
                let told = S::name_is_read(S::Chip::from(state), array, sector, black_box(name));
                assert_eq!(told, (0, *value));
            }
            Call::Mark { name } => {
                let planned = S::names_mark(state, true, array, sector, black_box(name), buffer);
                assert_eq!(planned.number, 0);
            }
            Call::Move { list } => {
                let list = black_box(&list[..]);
                let planned = S::names_move(state, true, array, book, sector, list, buffer);
                assert_eq!(planned.number, 0);
                assert_ne!(planned.length, 0);
            }
            Call::Back { list, unlisted } => {
                let list = black_box(&list[..]);
                let returned = S::names_back(state, true, array, sector, book, list, buffer);
                assert_eq!((returned.number, returned.unlisted), (0, *unlisted));
            }
        }
    }
}

fn record(name: &[u8]) -> Vec<u8> {
    [&[0x4E, 0x52, name.len() as u8], name].concat()
}

fn list(names: &[Vec<u8>]) -> Vec<u8> {
    names.iter().flat_map(|name| [&[name.len() as u8], &name[..]].concat()).collect()
}

/// A sector full of the shortest records, the last of which is the only one of its name.
fn asked(name: &[u8], value: u32) -> Operation {
    let mut naming = operation(8, SIZE_008A, Call::IsRead { name: name.to_vec(), value });
    naming.put(SECTOR, &record(b"A").repeat(1_023));
    naming.put(SECTOR + 4 * 1_023, &record(b"Z"));
    Operation::Naming(naming)
}

/// Behind 200 records, with what stands there already.
fn mark(chip: u8, size: usize, begun: &[u8]) -> Operation {
    let mut naming = operation(chip, size, Call::Mark { name: b"rooftop".to_vec() });
    let front: Vec<u8> = scenes(200).iter().flat_map(|name| record(name)).collect();
    naming.put(SECTOR, &[&front, begun].concat());
    Operation::Naming(naming)
}

/// Names as a game has them.
fn scenes(count: usize) -> Vec<Vec<u8>> {
    (0..count).map(|number| format!("scene {number:04}").into_bytes()).collect()
}

/// Every third scene is read, up to 150.
fn typical_move(chip: u8, size: usize) -> Operation {
    let mut naming = operation(chip, size, Call::Move { list: list(&scenes(500)) });
    naming.read((0..150).map(|number| 3 * number));
    Operation::Naming(naming)
}

/// The longest names, alike but for four bytes, which makes it hard to tell that none stands twice.
fn move_few(name: fn(&[u8]) -> Vec<u8>) -> Operation {
    let own = |number: usize| name(format!("{number:04}").as_bytes());
    few((0..MOST_NAMES).map(own).collect())
}

/// Of the 9,025 shortest names that are enough the first 4,096.
fn move_few_short() -> Operation {
    few((0..MOST_NAMES).map(two_bytes).collect())
}

/// Few scenes are read, so that their records fit.
fn few(names: Vec<Vec<u8>>) -> Operation {
    let mut naming = operation(8, SIZE_008A, Call::Move { list: list(&names) });
    naming.read((0..8).map(|number| 500 * number));
    Operation::Naming(naming)
}

fn two_bytes(number: usize) -> Vec<u8> {
    vec![b' ' + (number % 95) as u8, b' ' + (number / 95) as u8]
}

fn typical_back() -> Operation {
    let call = Call::Back { list: list(&scenes(500)), unlisted: 0 };
    let mut naming = operation(8, SIZE_008A, call);
    let records: Vec<u8> = scenes(150).iter().flat_map(|name| record(name)).collect();
    naming.put(SECTOR, &records);
    Operation::Naming(naming)
}

/// As many records as fit, of names of so many bytes: of one byte there are only 95 different ones,
/// of two enough. The list's names have two bytes; it ends with those of the records, so that each
/// is found late.
fn back_from_full(records: usize, length: usize) -> Operation {
    let names: Vec<Vec<u8>> = (0..MOST_NAMES).map(two_bytes).collect();
    let unlisted = if length == 1 { records as u32 } else { 0 };
    let call = Call::Back { list: list(&names), unlisted };
    let mut naming = operation(8, SIZE_008A, call);
    let name = |number: usize| names[MOST_NAMES - 1 - number][..length].to_vec();
    let bytes: Vec<u8> = (0..records).flat_map(|number| record(&name(number))).collect();
    naming.put(SECTOR, &bytes);
    Operation::Naming(naming)
}
