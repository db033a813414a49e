//! One case: a call and all that it is given.

use std::borrow::Cow;
use std::ops::{Range, RangeInclusive};

use model::{kind, Answer, Calls, Model, Planned, Ran, Record, State, Surveyed, Told, BOOK};

use crate::size;

/// A call with its arguments. Buffers to be written are given by their lengths.
#[derive(Clone, Debug)]
pub enum Case {
    New { chip: u8 },
    PowerUp { state: State },
    Wait { state: State, microseconds: u32 },
    Frame { on: On, frame: Vec<u8>, line: Line },
    Cut { on: On, frame: Vec<u8>, line: Line, mask: Mask },
    Plan { on: On, start: usize, wanted: Vec<u8>, room: usize },
    Run { on: On, script: Vec<u8>, line: Line },
    Survey { script: Vec<u8> },
    Read { script: Vec<u8>, offset: usize },
    BookIsRead { on: On, sector: usize, scene: u32 },
    BookCount { on: On, sector: usize },
    BookMark { on: On, sector: usize, scenes: Vec<u32>, room: usize },
}

/// The refusals that say what is wrong with a record.
pub const BAD_RECORD: RangeInclusive<u32> = 12..=14;

/// The chip a call is made on.
#[derive(Clone, Debug)]
pub struct On {
    pub state: State,
    pub wp_high: bool,
    /// Whose array is lent, and how much of it.
    pub array_of: u8,
    pub array: usize,
}

/// How long the two slices are in which a call shows the frames' bytes.
#[derive(Clone, Copy, Debug, PartialEq, Eq)]
pub struct Line {
    pub output: usize,
    pub driven: usize,
}

/// What is lent to be written beside the array. A call that shows no frames leaves `driven` alone.
pub struct Slices<'a> {
    pub buffer: &'a mut [u8],
    pub driven: &'a mut [u8],
}

/// A mask; a long one is given by a formula, so that it can be printed.
#[derive(Clone, Debug)]
pub enum Mask {
    Bytes(Vec<u8>),
    Mixed { salt: u32, length: usize },
}

/// What a call gave back.
#[derive(Clone, Debug, PartialEq)]
pub enum Outcome {
    Answer(Answer),
    Frame { number: u32, state: State },
    Planned(Planned),
    Ran(Ran),
    Surveyed(Surveyed),
    Record(Record),
    Told(Told),
}

impl On {
    pub fn new(state: State, wp_high: bool) -> Self {
        Self { state, wp_high, array_of: state.chip, array: size(state.chip) }
    }
}

impl Line {
    /// Both as long as what is shown.
    pub fn of(length: usize) -> Self {
        Self { output: length, driven: length }
    }
}

impl Mask {
    pub fn len(&self) -> usize {
        match self {
            Mask::Bytes(bytes) => bytes.len(),
            Mask::Mixed { length, .. } => *length,
        }
    }

    pub fn is_empty(&self) -> bool {
        self.len() == 0
    }

    pub fn bytes(&self) -> Cow<'_, [u8]> {
        match self {
            Mask::Bytes(bytes) => bytes.into(),
            Mask::Mixed { salt, length } => (0..*length as u32)
                .map(|i| ((i ^ salt).wrapping_mul(0x9E37_79B1) >> 24) as u8)
                .collect(),
        }
    }
}

impl Outcome {
    pub fn number(&self) -> u32 {
        match self {
            Outcome::Answer(answer) => answer.number,
            Outcome::Frame { number, .. } => *number,
            Outcome::Planned(planned) => planned.number,
            Outcome::Ran(ran) => ran.number,
            Outcome::Surveyed(surveyed) => surveyed.number,
            Outcome::Record(record) => record.number,
            Outcome::Told(told) => told.number,
        }
    }

    /// Where the call says that a bad record is, if it says so.
    pub fn bad_record(&self) -> Option<usize> {
        let offset = match self {
            Outcome::Ran(ran) => ran.offset,
            Outcome::Surveyed(surveyed) => surveyed.offset,
            Outcome::Record(record) => record.next,
            _ => return None,
        };
        BAD_RECORD.contains(&self.number()).then_some(offset)
    }
}

impl Case {
    pub fn call(&self) -> &'static str {
        match self {
            Case::New { .. } => "new",
            Case::PowerUp { .. } => "power_up",
            Case::Wait { .. } => "wait",
            Case::Frame { .. } => "frame",
            Case::Cut { .. } => "cut_frame",
            Case::Plan { .. } => "plan",
            Case::Run { .. } => "run",
            Case::Survey { .. } => "survey",
            Case::Read { .. } => "read",
            Case::BookIsRead { .. } => "book_is_read",
            Case::BookCount { .. } => "book_count",
            Case::BookMark { .. } => "book_mark",
        }
    }

    /// The chip it is made on, if an array is lent.
    pub fn on(&self) -> Option<&On> {
        match self {
            Case::Frame { on, .. }
            | Case::Cut { on, .. }
            | Case::Plan { on, .. }
            | Case::Run { on, .. }
            | Case::BookIsRead { on, .. }
            | Case::BookCount { on, .. }
            | Case::BookMark { on, .. } => Some(on),
            _ => None,
        }
    }

    /// The state that it is given, if it is given one.
    pub fn state(&self) -> Option<&State> {
        match self {
            Case::PowerUp { state } | Case::Wait { state, .. } => Some(state),
            _ => self.on().map(|on| &on.state),
        }
    }

    /// The sector and the scenes, if it is about a book.
    pub fn book(&self) -> Option<(usize, &[u32])> {
        match self {
            Case::BookIsRead { sector, scene, .. } => Some((*sector, std::slice::from_ref(scene))),
            Case::BookCount { sector, .. } => Some((*sector, &[])),
            Case::BookMark { sector, scenes, .. } => Some((*sector, scenes)),
            _ => None,
        }
    }

    /// The two slices, if it shows frames.
    pub fn line(&self) -> Option<Line> {
        match self {
            Case::Frame { line, .. } | Case::Cut { line, .. } | Case::Run { line, .. } => {
                Some(*line)
            }
            _ => None,
        }
    }

    /// How long the buffer to be written is, which is the output's where frames are shown.
    pub fn buffer(&self) -> usize {
        match self {
            Case::Plan { room, .. } | Case::BookMark { room, .. } => *room,
            _ => self.line().map_or(0, |line| line.output),
        }
    }

    /// How long the second slice is, where frames are shown.
    pub fn driven(&self) -> usize {
        self.line().map_or(0, |line| line.driven)
    }

    pub fn run<C: Calls>(&self, array: &mut [u8], lent: Slices) -> Outcome {
        let Slices { buffer, driven } = lent;
        match self {
            Case::New { chip } => Outcome::Answer(C::new_chip(*chip)),
            Case::PowerUp { state } => Outcome::Answer(C::power_up(*state)),
            Case::Wait { state, microseconds } => Outcome::Answer(C::wait(*state, *microseconds)),
            Case::Frame { on, frame, .. } => {
                let mut state = on.state;
                let number = C::frame(&mut state, on.wp_high, array, frame, buffer, driven);
                Outcome::Frame { number, state }
            }
            Case::Cut { on, frame, mask, .. } => {
                let mut state = on.state;
                let mask = mask.bytes();
                let number =
                    C::cut_frame(&mut state, on.wp_high, array, frame, buffer, driven, &mask);
                Outcome::Frame { number, state }
            }
            Case::Plan { on, start, wanted, .. } => {
                Outcome::Planned(C::plan(on.state, on.wp_high, array, *start, wanted, buffer))
            }
            Case::Run { on, script, .. } => {
                Outcome::Ran(C::run(on.state, on.wp_high, array, script, buffer, driven))
            }
            Case::Survey { script } => Outcome::Surveyed(C::survey(script)),
            Case::Read { script, offset } => Outcome::Record(C::read(script, *offset)),
            Case::BookIsRead { on, sector, scene } => {
                Outcome::Told(C::book_is_read(on.state, array, *sector, *scene))
            }
            Case::BookCount { on, sector } => {
                Outcome::Told(C::book_count(on.state, array, *sector))
            }
            Case::BookMark { on, sector, scenes, .. } => {
                Outcome::Planned(C::book_mark(on.state, on.wp_high, array, *sector, scenes, buffer))
            }
        }
    }

    /// The windows of the array that the call reads or changes, or could change if it were taken
    /// or accepted.
    pub fn windows(&self) -> Vec<Range<usize>> {
        let mut windows = Vec::new();
        match self {
            Case::Frame { on, frame, .. } | Case::Cut { on, frame, .. } => {
                windows.extend(footprint(&on.state, frame));
            }
            Case::Plan { on, start, wanted, .. } => {
                let size = size(on.state.chip);
                let start = start.saturating_sub(1).min(size);
                windows.push(start..(start + wanted.len() + 2).min(size));
            }
            Case::Run { on, script, .. } => {
                let mut at = 0;
                loop {
                    let record = <Model>::read(script, at);
                    if record.number != 0 || record.kind == kind::END {
                        break;
                    }
                    let frame = &script[record.start..][..record.length];
                    windows.extend(footprint(&on.state, frame));
                    at = record.next;
                }
            }
            Case::BookIsRead { on, sector, .. }
            | Case::BookCount { on, sector }
            | Case::BookMark { on, sector, .. } => {
                let start = (*sector).min(size(on.state.chip));
                windows.push(start..(start + BOOK).min(size(on.state.chip)));
            }
            _ => {}
        }
        windows.retain(|window| !window.is_empty());
        windows
    }
}

/// Where a frame may read or change the array, by its opcode, address and length alone. Only a
/// read that passes the top has a second window.
pub fn footprint(state: &State, frame: &[u8]) -> [Range<usize>; 2] {
    let size = size(state.chip);
    let address = match *frame {
        [_, high, middle, low, ..] => u32::from_be_bytes([0, high, middle, low]) as usize % size,
        _ => 0,
    };
    let aligned = |length: usize| {
        let start = address - address % length;
        [start..start + length, 0..0]
    };
    match frame.first() {
        Some(0x03 | 0x0B) => {
            let end = address + frame.len();
            [address..end.min(size), 0..end.saturating_sub(size).min(size)]
        }
        Some(0x02) => aligned(256),
        Some(0xAD) if frame.len() < 6 => {
            let next = (state.next as usize).min(size);
            [next..(next + 2).min(size), 0..0]
        }
        Some(0xAD) => aligned(2),
        Some(0x20) => aligned(4_096),
        Some(0xD8) => aligned(65_536),
        Some(0x60 | 0xC7) => [0..size, 0..0],
        _ => [0..0, 0..0],
    }
}
