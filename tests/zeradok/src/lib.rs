//! The library as the tests call it: the binding that stands beside the header, with the model's
//! values in the place of its own.

#[path = "../../../include/zeradok.rs"]
mod binding;
mod convert;
mod layout;

pub use binding::{LONGEST_DROPPED, WORST_BYTES, WORST_FRAMES, WORST_MICROSECONDS};
use model::{Answer, Calls, Planned, Ran, Record, Returned, Salvaged, State, Surveyed, Told};

/// The verified library.
pub struct Library;

/// A chip's state as the library holds it: what a host keeps that sends many frames to one chip, or
/// asks it many questions.
#[derive(Clone, Copy)]
pub struct Chip(binding::State);

impl From<State> for Chip {
    fn from(state: State) -> Self {
        Self(state.into())
    }
}

impl From<Chip> for State {
    fn from(chip: Chip) -> Self {
        chip.0.into()
    }
}

impl Chip {
    pub fn frame(
        &mut self,
        wp_high: bool,
        array: &mut [u8],
        frame: &[u8],
        output: &mut [u8],
        driven: &mut [u8],
    ) -> u32 {
        binding::frame(&mut self.0, wp_high, array, frame, output, driven)
    }

    /// Number and value of the answer.
    pub fn book_is_read(self, array: &[u8], sector: usize, scene: u32) -> (u32, u32) {
        let told = binding::book_is_read(self.0, array, sector, scene);
        (told.number, told.value)
    }

    /// Number and value of the answer.
    pub fn book_count(self, array: &[u8], sector: usize) -> (u32, u32) {
        let told = binding::book_count(self.0, array, sector);
        (told.number, told.value)
    }

    /// Number and value of the answer.
    pub fn names_is_read(self, array: &[u8], sector: usize, name: &[u8]) -> (u32, u32) {
        let told = binding::names_is_read(self.0, array, sector, name);
        (told.number, told.value)
    }
}

impl Calls for Library {
    fn new_chip(chip: u8) -> Answer {
        binding::new(chip).into()
    }

    fn power_up(state: State) -> Answer {
        binding::power_up(state.into()).into()
    }

    fn wait(state: State, microseconds: u32) -> Answer {
        binding::wait(state.into(), microseconds).into()
    }

    fn frame(
        state: &mut State,
        wp_high: bool,
        array: &mut [u8],
        frame: &[u8],
        output: &mut [u8],
        driven: &mut [u8],
    ) -> u32 {
        let mut chip = Chip::from(*state);
        let number = chip.frame(wp_high, array, frame, output, driven);
        *state = chip.into();
        number
    }

    fn cut_frame(
        state: &mut State,
        wp_high: bool,
        array: &mut [u8],
        frame: &[u8],
        output: &mut [u8],
        driven: &mut [u8],
        mask: &[u8],
    ) -> u32 {
        let mut chip = binding::State::from(*state);
        let number = binding::cut_frame(&mut chip, wp_high, array, frame, output, driven, mask);
        *state = chip.into();
        number
    }

    fn plan(
        state: State,
        wp_high: bool,
        array: &[u8],
        start: usize,
        wanted: &[u8],
        buffer: &mut [u8],
    ) -> Planned {
        binding::plan(state.into(), wp_high, array, start, wanted, buffer).into()
    }

    fn run(
        state: State,
        wp_high: bool,
        array: &mut [u8],
        script: &[u8],
        output: &mut [u8],
        driven: &mut [u8],
    ) -> Ran {
        binding::run(state.into(), wp_high, array, script, output, driven).into()
    }

    fn survey(script: &[u8]) -> Surveyed {
        binding::survey(script).into()
    }

    fn read(script: &[u8], offset: usize) -> Record {
        binding::read(script, offset).into()
    }

    fn book_is_read(state: State, array: &[u8], sector: usize, scene: u32) -> Told {
        binding::book_is_read(state.into(), array, sector, scene).into()
    }

    fn book_count(state: State, array: &[u8], sector: usize) -> Told {
        binding::book_count(state.into(), array, sector).into()
    }

    fn book_mark(
        state: State,
        wp_high: bool,
        array: &[u8],
        sector: usize,
        scenes: &[u32],
        buffer: &mut [u8],
    ) -> Planned {
        binding::book_mark(state.into(), wp_high, array, sector, scenes, buffer).into()
    }

    fn salvage(sector: &[u8], kept: &mut [u8], dropped: &mut [u8]) -> Salvaged {
        binding::salvage(sector, kept, dropped).into()
    }

    fn names_is_read(state: State, array: &[u8], sector: usize, name: &[u8]) -> Told {
        binding::names_is_read(state.into(), array, sector, name).into()
    }

    fn names_mark(
        state: State,
        wp_high: bool,
        array: &[u8],
        sector: usize,
        name: &[u8],
        buffer: &mut [u8],
    ) -> Planned {
        binding::names_mark(state.into(), wp_high, array, sector, name, buffer).into()
    }

    fn names_move(
        state: State,
        wp_high: bool,
        array: &[u8],
        book: usize,
        sector: usize,
        list: &[u8],
        buffer: &mut [u8],
    ) -> Planned {
        binding::names_move(state.into(), wp_high, array, book, sector, list, buffer).into()
    }

    fn names_back(
        state: State,
        wp_high: bool,
        array: &[u8],
        sector: usize,
        book: usize,
        list: &[u8],
        buffer: &mut [u8],
    ) -> Returned {
        binding::names_back(state.into(), wp_high, array, sector, book, list, buffer).into()
    }
}
