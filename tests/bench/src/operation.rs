//! The operations that are measured. Each can be repeated: doing one again costs the same.

use std::hint::black_box;

use model::{Calls, Model, State, Told, LONGEST_REGION, SCENES};
use zeradok::{Library, LONGEST_DROPPED};

use crate::naming::Naming;

pub const SIZE_008A: usize = 0x10_0000;
pub const SIZE_05PA: usize = 0x1_0000;
/// Longer than any plan's script, and than the outputs of its frames.
pub const ROOMY: usize = 27_000;
/// Where the books start, and the names.
pub const SECTOR: usize = 0x2000;

pub enum Operation {
    /// `number` is what it has to be answered with.
    Frame {
        state: State,
        array: Vec<u8>,
        frame: Vec<u8>,
        output: Vec<u8>,
        driven: Vec<u8>,
        number: u32,
    },
    Plan {
        state: State,
        array: Vec<u8>,
        start: usize,
        wanted: Vec<u8>,
        buffer: Vec<u8>,
    },
    Run {
        state: State,
        array: Vec<u8>,
        script: Vec<u8>,
        output: Vec<u8>,
        driven: Vec<u8>,
    },
    /// `value` is what it has to be answered with.
    IsRead {
        state: State,
        array: Vec<u8>,
        sector: usize,
        scene: u32,
        value: u32,
    },
    Count {
        state: State,
        array: Vec<u8>,
        sector: usize,
        value: u32,
    },
    Mark {
        state: State,
        array: Vec<u8>,
        sector: usize,
        scenes: Vec<u32>,
        buffer: Vec<u8>,
    },
    /// `kept` bytes are what it has to be answered with.
    Salvage {
        sector: Vec<u8>,
        buffer: Vec<u8>,
        list: Vec<u8>,
        kept: u32,
    },
    Naming(Naming),
    Copy {
        from: Vec<u8>,
        to: Vec<u8>,
    },
    Fill {
        to: Vec<u8>,
    },
}

pub type Prepare = fn() -> Operation;

pub const OPERATIONS: [(&str, Prepare); 25] = [
    ("05, status", || frame(writing(8), SIZE_008A, &[0x05, 0x00], 2)),
    ("05 while busy", || {
        let state = State { left: 1_000, ..writing(8) };
        frame(state, SIZE_008A, &[0x05, 0x00], 2)
    }),
    ("a refused frame", || refused(frame(writing(8), SIZE_008A, &[0x05, 0x00], 2))),
    ("03, 16 bytes", || frame(writing(8), SIZE_008A, &[0x03, 0x01, 0x23, 0x45], 20)),
    ("03, 4,096 bytes", || frame(writing(8), SIZE_008A, &[0x03, 0x01, 0x23, 0x45], 4_100)),
    ("01, status write (05PA)", || {
        frame(State { armed: true, ..writing(5) }, SIZE_05PA, &[0x01, 0x1C], 2)
    }),
    ("02, page of 256 (05PA)", || frame(writing(5), SIZE_05PA, &[0x02, 0x00, 0x12, 0x00], 260)),
    ("AD, one word in AAI (008A)", || {
        let state = State { aai: true, next: 0x01_2344, ..writing(8) };
        frame(state, SIZE_008A, &[0xAD, 0x5A, 0xA5], 3)
    }),
    ("20, sector erase (008A)", || frame(writing(8), SIZE_008A, &[0x20, 0x01, 0x23, 0x45], 4)),
    ("plan 4,096 bytes, worst (008A)", worst_plan_008a),
    ("plan 4,096 bytes, worst (05PA)", worst_plan_05pa),
    ("run that plan (008A)", || run(worst_plan_008a())),
    ("run that plan (05PA)", || run(worst_plan_05pa())),
    ("run 1,000 status reads", status_reads),
    ("a scene asked for", || Operation::IsRead {
        state: writing(8),
        array: book(),
        sector: SECTOR,
        scene: 1_234,
        value: 0,
    }),
    ("the scenes counted", || Operation::Count {
        state: writing(8),
        array: book(),
        sector: SECTOR,
        value: 8,
    }),
    ("mark 8 scenes (008A)", || mark(8, SIZE_008A, scattered())),
    ("mark 8 scenes (05PA)", || mark(5, SIZE_05PA, scattered())),
    ("mark all scenes (008A)", || mark(8, SIZE_008A, (0..SCENES).collect())),
    ("mark all scenes (05PA)", || mark(5, SIZE_05PA, (0..SCENES).collect())),
    ("salvage a full sector", || salvage(b"NR\x05Scene", 4_096)),
    ("salvage an erased sector", || salvage(b"\xFF", 0)),
    ("salvage zeros", || salvage(b"\x00", 0)),
    ("salvage 820 stretches", || salvage(b"\0NR\x01A", 3_276)),
    ("salvage the dearest sector", || salvage(b"NR NR NR NR NR NR NR NR NR NR NR N\0", 0)),
];

/// What no frame that shows or erases as much can cost less than: the C library does it, and
/// nobody tests or decides anything.
pub const LIMITS: [(&str, Prepare); 2] = [
    ("memcpy of 4,096 bytes", || Operation::Copy { from: vec![0x3C; 4_096], to: vec![0; 4_096] }),
    ("memset of a sector", || Operation::Fill { to: vec![0; 4_096] }),
];

/// At rest, unprotected, WEL 1.
fn writing(chip: u8) -> State {
    State { chip, wel: true, ..State::default() }
}

fn frame(state: State, size: usize, head: &[u8], length: usize) -> Operation {
    let mut frame = head.to_vec();
    frame.resize(length, 0x3C);
    let (output, driven) = (vec![0; length], vec![0; length]);
    Operation::Frame { state, array: vec![0xFF; size], frame, output, driven, number: 0 }
}

/// The same frame with an output one byte too short (01's refusal 4).
fn refused(operation: Operation) -> Operation {
    let Operation::Frame { state, array, frame, mut output, driven, .. } = operation else {
        return operation;
    };
    output.pop();
    Operation::Frame { state, array, frame, output, driven, number: 4 }
}

/// Every second word changes, so each is a run of its own, and all is protected. An odd start
/// makes it one word more.
fn worst_plan_008a() -> Operation {
    let start = 0x01_2345;
    let wanted = (start..start + LONGEST_REGION)
        .map(|address| if address / 2 % 2 == start / 2 % 2 { 0xFE } else { 0xFF })
        .collect();
    Operation::Plan {
        state: State { chip: 8, bp: 7, ..State::default() },
        array: vec![0xFF; SIZE_008A],
        start,
        wanted,
        buffer: vec![0; ROOMY],
    }
}

/// Every byte of 17 pages changes, and all is protected.
fn worst_plan_05pa() -> Operation {
    Operation::Plan {
        state: State { chip: 5, bp: 7, ..State::default() },
        array: vec![0xFF; SIZE_05PA],
        start: 0x2345,
        wanted: vec![0xFE; LONGEST_REGION],
        buffer: vec![0; ROOMY],
    }
}

/// Eight scenes, far from each other.
fn scattered() -> Vec<u32> {
    (0..8).map(|number| 512 * number + 37 * number + 5).collect()
}

/// An 008A with a book in which these are read.
fn book() -> Vec<u8> {
    let mut array = vec![0xFF; SIZE_008A];
    for scene in scattered() {
        array[SECTOR + scene as usize / 8] &= !(1 << (scene % 8));
    }
    array
}

/// In an erased book; all is protected.
fn mark(chip: u8, size: usize, scenes: Vec<u32>) -> Operation {
    Operation::Mark {
        state: State { chip, bp: 7, ..State::default() },
        array: vec![0xFF; size],
        sector: SECTOR,
        scenes,
        buffer: vec![0; ROOMY],
    }
}

/// A sector of these bytes again and again. The dearest is one where a record seems to begin as
/// often as it can, and each is read as far as it can be before a byte that no name may hold.
fn salvage(bytes: &[u8], kept: u32) -> Operation {
    let sector = bytes.iter().copied().cycle().take(4_096).collect();
    let (buffer, list) = (vec![0; 4_096], vec![0; LONGEST_DROPPED]);
    Operation::Salvage { sector, buffer, list, kept }
}

/// Running what a plan gives. Programming what is programmed already costs no less.
fn run(plan: Operation) -> Operation {
    let Operation::Plan { state, array, start, wanted, mut buffer } = plan else {
        return plan;
    };
    let planned = <Model>::plan(state, true, &array, start, &wanted, &mut buffer);
    buffer.truncate(planned.length as usize);
    let mut outputs = 0;
    let mut at = 0;
    while at < buffer.len() {
        let record = <Model>::read(&buffer, at);
        outputs += record.length;
        at = record.next;
    }
    let (output, driven) = (vec![0; outputs], vec![0; outputs]);
    Operation::Run { state, array, script: buffer, output, driven }
}

/// The cheapest frame in as many records, so that a record's own cost shows.
fn status_reads() -> Operation {
    let script = [0x5A, 0x46, 0x00, 0x02, 0x05, 0x00].repeat(1_000);
    Operation::Run {
        state: writing(8),
        array: vec![0xFF; SIZE_008A],
        script,
        output: vec![0; 2_000],
        driven: vec![0; 2_000],
    }
}

/// Somebody to be measured: frames and questions go to a chip held in the subject's own form, so
/// that no conversion is measured with them.
pub trait Subject: Calls {
    type Chip: From<State> + Copy;
    /// The frame, and the output with what is driven of it.
    fn send(chip: &mut Self::Chip, array: &mut [u8], frame: &[u8], line: [&mut [u8]; 2]) -> u32;
    /// The number and the value; so the next.
    fn is_read(chip: Self::Chip, array: &[u8], sector: usize, scene: u32) -> (u32, u32);
    fn count(chip: Self::Chip, array: &[u8], sector: usize) -> (u32, u32);
    fn name_is_read(chip: Self::Chip, array: &[u8], sector: usize, name: &[u8]) -> (u32, u32);
}

impl Subject for Library {
    type Chip = zeradok::Chip;

    fn send(chip: &mut Self::Chip, array: &mut [u8], frame: &[u8], line: [&mut [u8]; 2]) -> u32 {
        let [output, driven] = line;
        chip.frame(black_box(true), array, frame, output, driven)
    }

    fn is_read(chip: Self::Chip, array: &[u8], sector: usize, scene: u32) -> (u32, u32) {
        chip.book_is_read(array, sector, scene)
    }

    fn count(chip: Self::Chip, array: &[u8], sector: usize) -> (u32, u32) {
        chip.book_count(array, sector)
    }

    fn name_is_read(chip: Self::Chip, array: &[u8], sector: usize, name: &[u8]) -> (u32, u32) {
        chip.names_is_read(array, sector, name)
    }
}

impl Subject for Model {
    type Chip = State;

    fn send(chip: &mut Self::Chip, array: &mut [u8], frame: &[u8], line: [&mut [u8]; 2]) -> u32 {
        let [output, driven] = line;
        <Model>::frame(chip, black_box(true), array, frame, output, driven)
    }

    fn is_read(chip: Self::Chip, array: &[u8], sector: usize, scene: u32) -> (u32, u32) {
        let Told { number, value, .. } = <Model>::book_is_read(chip, array, sector, scene);
        (number, value)
    }

    fn count(chip: Self::Chip, array: &[u8], sector: usize) -> (u32, u32) {
        let Told { number, value, .. } = <Model>::book_count(chip, array, sector);
        (number, value)
    }

    fn name_is_read(chip: Self::Chip, array: &[u8], sector: usize, name: &[u8]) -> (u32, u32) {
        let Told { number, value, .. } = <Model>::names_is_read(chip, array, sector, name);
        (number, value)
    }
}

impl Operation {
    /// Does it so many times; each has to be answered as it must be.
    pub fn repeat<S: Subject>(&mut self, times: u32) {
        match self {
            Operation::Frame { state, array, frame, output, driven, number } => {
                let at_first = S::Chip::from(*state);
                for _ in 0..times {
                    let mut chip = black_box(at_first);
                    let array = black_box(&mut array[..]);
                    let line = [black_box(&mut output[..]), black_box(&mut driven[..])];
                    let given = S::send(&mut chip, array, black_box(&frame[..]), line);
                    assert_eq!(given, *number);
                    black_box(&mut chip);
                }
            }
            Operation::Plan { state, array, start, wanted, buffer } => {
                for _ in 0..times {
                    let (array, wanted) = (black_box(&array[..]), black_box(&wanted[..]));
                    let buffer = black_box(&mut buffer[..]);
                    let planned = S::plan(black_box(*state), true, array, *start, wanted, buffer);
                    assert_eq!(planned.number, 0);
                }
            }
            Operation::Run { state, array, script, output, driven } => {
                for _ in 0..times {
                    let (state, array) = (black_box(*state), black_box(&mut array[..]));
                    let (output, driven) = (black_box(&mut output[..]), black_box(&mut driven[..]));
                    let ran = S::run(state, true, array, black_box(script), output, driven);
                    assert_eq!(ran.number, 0);
                }
            }
            Operation::IsRead { state, array, sector, scene, value } => {
                let chip = S::Chip::from(*state);
                for _ in 0..times {
                    let (array, scene) = (black_box(&array[..]), black_box(*scene));
                    let told = S::is_read(black_box(chip), array, black_box(*sector), scene);
                    assert_eq!(told, (0, *value));
                }
            }
            Operation::Count { state, array, sector, value } => {
                let chip = S::Chip::from(*state);
                for _ in 0..times {
                    let array = black_box(&array[..]);
                    let told = S::count(black_box(chip), array, black_box(*sector));
                    assert_eq!(told, (0, *value));
                }
            }
            Operation::Mark { state, array, sector, scenes, buffer } => {
                for _ in 0..times {
                    let (array, scenes) = (black_box(&array[..]), black_box(&scenes[..]));
                    let (state, buffer) = (black_box(*state), black_box(&mut buffer[..]));
                    let planned = S::book_mark(state, true, array, *sector, scenes, buffer);
                    assert_eq!(planned.number, 0);
                }
            }
            Operation::Salvage { sector, buffer, list, kept } => {
                for _ in 0..times {
                    let (buffer, list) = (black_box(&mut buffer[..]), black_box(&mut list[..]));
                    let salvaged = S::salvage(black_box(&sector[..]), buffer, list);
                    assert_eq!((salvaged.number, salvaged.kept), (0, *kept));
                }
            }
            Operation::Naming(naming) => (0..times).for_each(|_| naming.once::<S>()),
            Operation::Copy { from, to } => {
                (0..times).for_each(|_| black_box(&mut to[..]).copy_from_slice(black_box(from)));
            }
            Operation::Fill { to } => (0..times).for_each(|_| black_box(&mut to[..]).fill(0xFF)),
        }
    }
}
