//! The calls of 01 and 02 and what they give back.

/// A chip's state; `bp` is BP2 BP1 BP0 as a number, `left` the microseconds of BUSY left. While a
/// status write is `pending`, `pending_bits` are those that come when it ends, in their places in the
/// status register.
#[repr(C)]
#[derive(Clone, Copy, Debug, Default, PartialEq, Eq)]
pub struct State {
    pub chip: u8,
    pub bp: u8,
    pub tb: bool,
    pub bpl: bool,
    pub wel: bool,
    pub aai: bool,
    pub armed: bool,
    pub power_down: bool,
    pub pending: bool,
    pub pending_bits: u8,
    pub left: u32,
    pub next: u32,
}

#[derive(Clone, Copy, Debug, PartialEq, Eq)]
pub struct Answer {
    pub number: u32,
    pub state: State,
}

#[derive(Clone, Copy, Debug, PartialEq, Eq)]
pub struct Planned {
    pub number: u32,
    pub state: State,
    pub length: u32,
    pub frames: u32,
    pub microseconds: u32,
}

/// A script run; `offset` is that of the first bad record's mark, where the number is about one.
#[derive(Clone, Copy, Debug, PartialEq, Eq)]
pub struct Ran {
    pub number: u32,
    pub state: State,
    pub frames: u32,
    pub microseconds: u64,
    pub offset: usize,
}

/// A script looked through; `output` is the sum of its frames' lengths.
#[derive(Clone, Copy, Debug, Default, PartialEq, Eq)]
pub struct Surveyed {
    pub number: u32,
    pub frames: u32,
    pub microseconds: u64,
    pub offset: usize,
    pub output: usize,
}

/// A question's answer: 1 or 0, or how many; 0 with a refusal.
#[derive(Clone, Copy, Debug, PartialEq, Eq)]
pub struct Told {
    pub number: u32,
    pub state: State,
    pub value: u32,
}

/// A book planned from names; `unlisted` records have a name that isn't on the list, 0 with a
/// refusal.
#[derive(Clone, Copy, Debug, PartialEq, Eq)]
pub struct Returned {
    pub number: u32,
    pub state: State,
    pub length: u32,
    pub frames: u32,
    pub microseconds: u32,
    pub unlisted: u32,
}

/// A sector salvaged: the bytes of the list of dropped stretches and of the kept records; both 0
/// with a refusal.
#[derive(Clone, Copy, Debug, PartialEq, Eq)]
pub struct Salvaged {
    pub number: u32,
    pub length: u32,
    pub kept: u32,
}

/// One record of a script; `kind` is one of the constants of [`kind`].
#[derive(Clone, Copy, Debug, Default, PartialEq, Eq)]
pub struct Record {
    pub number: u32,
    pub kind: u32,
    pub start: usize,
    pub length: usize,
    pub microseconds: u32,
    pub next: usize,
}

/// What a record is.
pub mod kind {
    pub const REFUSED: u32 = 0;
    pub const FRAME: u32 = 1;
    pub const WAIT: u32 = 2;
    pub const END: u32 = 3;
}

/// Somebody who answers the seventeen calls: this model, a wrong copy of it, or the library. Three of
/// them fill two slices, byte by byte of the frames: `output` with what the line reads, FF where the
/// chip is silent, `driven` with 01 where the chip drove the byte and 00 where it was silent.
pub trait Calls {
    fn new_chip(chip: u8) -> Answer;
    fn power_up(state: State) -> Answer;
    fn wait(state: State, microseconds: u32) -> Answer;
    fn frame(
        state: &mut State,
        wp_high: bool,
        array: &mut [u8],
        frame: &[u8],
        output: &mut [u8],
        driven: &mut [u8],
    ) -> u32;
    fn cut_frame(
        state: &mut State,
        wp_high: bool,
        array: &mut [u8],
        frame: &[u8],
        output: &mut [u8],
        driven: &mut [u8],
        mask: &[u8],
    ) -> u32;
    fn plan(
        state: State,
        wp_high: bool,
        array: &[u8],
        start: usize,
        wanted: &[u8],
        buffer: &mut [u8],
    ) -> Planned;
    fn run(
        state: State,
        wp_high: bool,
        array: &mut [u8],
        script: &[u8],
        output: &mut [u8],
        driven: &mut [u8],
    ) -> Ran;
    fn survey(script: &[u8]) -> Surveyed;
    fn read(script: &[u8], offset: usize) -> Record;
    fn book_is_read(state: State, array: &[u8], sector: usize, scene: u32) -> Told;
    fn book_count(state: State, array: &[u8], sector: usize) -> Told;
    fn book_mark(
        state: State,
        wp_high: bool,
        array: &[u8],
        sector: usize,
        scenes: &[u32],
        buffer: &mut [u8],
    ) -> Planned;
    fn salvage(sector: &[u8], kept: &mut [u8], dropped: &mut [u8]) -> Salvaged;
    fn names_is_read(state: State, array: &[u8], sector: usize, name: &[u8]) -> Told;
    fn names_mark(
        state: State,
        wp_high: bool,
        array: &[u8],
        sector: usize,
        name: &[u8],
        buffer: &mut [u8],
    ) -> Planned;
    fn names_move(
        state: State,
        wp_high: bool,
        array: &[u8],
        book: usize,
        sector: usize,
        list: &[u8],
        buffer: &mut [u8],
    ) -> Planned;
    fn names_back(
        state: State,
        wp_high: bool,
        array: &[u8],
        sector: usize,
        book: usize,
        list: &[u8],
        buffer: &mut [u8],
    ) -> Returned;
}

impl Answer {
    pub(crate) fn accepted(state: State) -> Self {
        Self { number: 0, state }
    }

    pub(crate) fn refused(number: u32, state: State) -> Self {
        Self { number, state }
    }
}

impl Planned {
    pub(crate) fn refused(number: u32, state: State) -> Self {
        Self { number, state, length: 0, frames: 0, microseconds: 0 }
    }
}

impl Told {
    /// A value, or the refusal instead of it.
    pub(crate) fn of(state: State, value: Result<u32, u32>) -> Self {
        match value {
            Ok(value) => Self { number: 0, state, value },
            Err(number) => Self { number, state, value: 0 },
        }
    }
}

impl Ran {
    pub(crate) fn refused(number: u32, state: State, offset: usize) -> Self {
        Self { number, state, frames: 0, microseconds: 0, offset }
    }
}

impl Salvaged {
    pub(crate) fn refused(number: u32) -> Self {
        Self { number, length: 0, kept: 0 }
    }
}
