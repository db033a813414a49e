//! The declarations of `zeradok.h` for Rust, with a safe call over each: a slice where C has a
//! pointer and a length. What the calls do, refuse and answer is said there.
//!
//! Take it as a module, `#[path = "..."] mod zeradok;`, and link `target/staticlib/libhost.a`.
#![allow(dead_code)] // it offers more than one program needs

/// No accepted plan is above these, on either chip; by chip they stand in `zeradok.h`.
pub const WORST_BYTES: usize = 26_672;
pub const WORST_FRAMES: u32 = 3_079;
pub const WORST_MICROSECONDS: u32 = 35_500;

/// No list of dropped stretches is longer.
pub const LONGEST_DROPPED: usize = 3_280;

/// A C `bool` as it stands in memory: that the library gives back 0 or 1 is checked, not believed.
#[repr(transparent)]
#[derive(Clone, Copy, Debug, PartialEq, Eq)]
pub struct Flag(u8);

impl From<bool> for Flag {
    fn from(flag: bool) -> Self {
        Self(flag.into())
    }
}

impl From<Flag> for bool {
    fn from(flag: Flag) -> Self {
        assert!(flag.0 <= 1, "the library gave a bool that is neither 0 nor 1");
        flag.0 == 1
    }
}

#[repr(C)]
#[derive(Clone, Copy, Debug, PartialEq, Eq)]
pub struct State {
    pub chip: u8,
    pub bp: u8,
    pub tb: Flag,
    pub bpl: Flag,
    pub wel: Flag,
    pub aai: Flag,
    pub armed: Flag,
    pub power_down: Flag,
    pub pending: Flag,
    pub pending_bits: u8,
    pub left: u32,
    pub next: u32,
}

#[repr(C)]
#[derive(Clone, Copy, Debug, PartialEq, Eq)]
pub struct Answer {
    pub number: u32,
    pub state: State,
}

#[repr(C)]
#[derive(Clone, Copy, Debug, PartialEq, Eq)]
pub struct Ran {
    pub number: u32,
    pub state: State,
    pub frames: u32,
    pub microseconds: u64,
    pub offset: usize,
}

#[repr(C)]
#[derive(Clone, Copy, Debug, PartialEq, Eq)]
pub struct Surveyed {
    pub number: u32,
    pub frames: u32,
    pub microseconds: u64,
    pub offset: usize,
    pub output: usize,
}

#[repr(C)]
#[derive(Clone, Copy, Debug, PartialEq, Eq)]
pub struct Planned {
    pub number: u32,
    pub state: State,
    pub length: u32,
    pub frames: u32,
    pub microseconds: u32,
}

#[repr(C)]
#[derive(Clone, Copy, Debug, PartialEq, Eq)]
pub struct Record {
    pub number: u32,
    pub kind: u32,
    pub start: usize,
    pub length: usize,
    pub microseconds: u32,
    pub next: usize,
}

#[repr(C)]
#[derive(Clone, Copy, Debug, PartialEq, Eq)]
pub struct Told {
    pub number: u32,
    pub state: State,
    pub value: u32,
}

#[repr(C)]
#[derive(Clone, Copy, Debug, PartialEq, Eq)]
pub struct Returned {
    pub number: u32,
    pub state: State,
    pub length: u32,
    pub frames: u32,
    pub microseconds: u32,
    pub unlisted: u32,
}

#[repr(C)]
#[derive(Clone, Copy, Debug, PartialEq, Eq)]
pub struct Salvaged {
    pub number: u32,
    pub length: u32,
    pub kept: u32,
}

#[link(name = "host", kind = "static")]
unsafe extern "C" {
    safe fn zeradok_new(chip: u8) -> Answer;
    safe fn zeradok_power_up(chip: State) -> Answer;
    safe fn zeradok_wait(chip: State, microseconds: u32) -> Answer;
    fn zeradok_frame(
        chip: *mut State,
        wp_high: bool,
        array: *mut u8,
        array_length: usize,
        frame: *const u8,
        frame_length: usize,
        output: *mut u8,
        output_length: usize,
        driven: *mut u8,
        driven_length: usize,
    ) -> u32;
    fn zeradok_cut_frame(
        chip: *mut State,
        wp_high: bool,
        array: *mut u8,
        array_length: usize,
        frame: *const u8,
        frame_length: usize,
        output: *mut u8,
        output_length: usize,
        driven: *mut u8,
        driven_length: usize,
        mask: *const u8,
        mask_length: usize,
    ) -> u32;
    fn zeradok_plan(
        chip: State,
        wp_high: bool,
        array: *const u8,
        array_length: usize,
        start: usize,
        wanted: *const u8,
        wanted_length: usize,
        buffer: *mut u8,
        buffer_length: usize,
    ) -> Planned;
    fn zeradok_survey(script: *const u8, script_length: usize) -> Surveyed;
    fn zeradok_run(
        chip: State,
        wp_high: bool,
        array: *mut u8,
        array_length: usize,
        script: *const u8,
        script_length: usize,
        output: *mut u8,
        output_length: usize,
        driven: *mut u8,
        driven_length: usize,
    ) -> Ran;
    fn zeradok_read(script: *const u8, script_length: usize, offset: usize) -> Record;
    fn zeradok_book_is_read(
        chip: State,
        array: *const u8,
        array_length: usize,
        sector: usize,
        scene: u32,
    ) -> Told;
    fn zeradok_book_count(
        chip: State,
        array: *const u8,
        array_length: usize,
        sector: usize,
    ) -> Told;
    fn zeradok_book_mark(
        chip: State,
        wp_high: bool,
        array: *const u8,
        array_length: usize,
        sector: usize,
        scenes: *const u32,
        scenes_length: usize,
        buffer: *mut u8,
        buffer_length: usize,
    ) -> Planned;
    fn zeradok_names_is_read(
        chip: State,
        array: *const u8,
        array_length: usize,
        sector: usize,
        name: *const u8,
        name_length: usize,
    ) -> Told;
    fn zeradok_names_mark(
        chip: State,
        wp_high: bool,
        array: *const u8,
        array_length: usize,
        sector: usize,
        name: *const u8,
        name_length: usize,
        buffer: *mut u8,
        buffer_length: usize,
    ) -> Planned;
    fn zeradok_names_move(
        chip: State,
        wp_high: bool,
        array: *const u8,
        array_length: usize,
        book: usize,
        sector: usize,
        list: *const u8,
        list_length: usize,
        buffer: *mut u8,
        buffer_length: usize,
    ) -> Planned;
    fn zeradok_names_back(
        chip: State,
        wp_high: bool,
        array: *const u8,
        array_length: usize,
        sector: usize,
        book: usize,
        list: *const u8,
        list_length: usize,
        buffer: *mut u8,
        buffer_length: usize,
    ) -> Returned;
    fn zeradok_salvage(
        sector: *const u8,
        sector_length: usize,
        kept: *mut u8,
        kept_length: usize,
        dropped: *mut u8,
        dropped_length: usize,
    ) -> Salvaged;
}

// Every unsafe call below lends pointers and lengths of live slices, for the call alone, and no
// two of them overlap where one is written: Rust's own rules are all that the library asks.

pub fn new(chip: u8) -> Answer {
    zeradok_new(chip)
}

pub fn power_up(chip: State) -> Answer {
    zeradok_power_up(chip)
}

pub fn wait(chip: State, microseconds: u32) -> Answer {
    zeradok_wait(chip, microseconds)
}

pub fn frame(
    chip: &mut State,
    wp_high: bool,
    array: &mut [u8],
    frame: &[u8],
    output: &mut [u8],
    driven: &mut [u8],
) -> u32 {
    unsafe {
        zeradok_frame(
            chip,
            wp_high,
            array.as_mut_ptr(),
            array.len(),
            frame.as_ptr(),
            frame.len(),
            output.as_mut_ptr(),
            output.len(),
            driven.as_mut_ptr(),
            driven.len(),
        )
    }
}

pub fn cut_frame(
    chip: &mut State,
    wp_high: bool,
    array: &mut [u8],
    frame: &[u8],
    output: &mut [u8],
    driven: &mut [u8],
    mask: &[u8],
) -> u32 {
    unsafe {
        zeradok_cut_frame(
            chip,
            wp_high,
            array.as_mut_ptr(),
            array.len(),
            frame.as_ptr(),
            frame.len(),
            output.as_mut_ptr(),
            output.len(),
            driven.as_mut_ptr(),
            driven.len(),
            mask.as_ptr(),
            mask.len(),
        )
    }
}

pub fn plan(
    chip: State,
    wp_high: bool,
    array: &[u8],
    start: usize,
    wanted: &[u8],
    buffer: &mut [u8],
) -> Planned {
    unsafe {
        zeradok_plan(
            chip,
            wp_high,
            array.as_ptr(),
            array.len(),
            start,
            wanted.as_ptr(),
            wanted.len(),
            buffer.as_mut_ptr(),
            buffer.len(),
        )
    }
}

pub fn survey(script: &[u8]) -> Surveyed {
    unsafe { zeradok_survey(script.as_ptr(), script.len()) }
}

pub fn run(
    chip: State,
    wp_high: bool,
    array: &mut [u8],
    script: &[u8],
    output: &mut [u8],
    driven: &mut [u8],
) -> Ran {
    unsafe {
        zeradok_run(
            chip,
            wp_high,
            array.as_mut_ptr(),
            array.len(),
            script.as_ptr(),
            script.len(),
            output.as_mut_ptr(),
            output.len(),
            driven.as_mut_ptr(),
            driven.len(),
        )
    }
}

pub fn read(script: &[u8], offset: usize) -> Record {
    unsafe { zeradok_read(script.as_ptr(), script.len(), offset) }
}

pub fn book_is_read(chip: State, array: &[u8], sector: usize, scene: u32) -> Told {
    unsafe { zeradok_book_is_read(chip, array.as_ptr(), array.len(), sector, scene) }
}

pub fn book_count(chip: State, array: &[u8], sector: usize) -> Told {
    unsafe { zeradok_book_count(chip, array.as_ptr(), array.len(), sector) }
}

pub fn book_mark(
    chip: State,
    wp_high: bool,
    array: &[u8],
    sector: usize,
    scenes: &[u32],
    buffer: &mut [u8],
) -> Planned {
    unsafe {
        zeradok_book_mark(
            chip,
            wp_high,
            array.as_ptr(),
            array.len(),
            sector,
            scenes.as_ptr(),
            scenes.len(),
            buffer.as_mut_ptr(),
            buffer.len(),
        )
    }
}

pub fn names_is_read(chip: State, array: &[u8], sector: usize, name: &[u8]) -> Told {
    unsafe {
        zeradok_names_is_read(chip, array.as_ptr(), array.len(), sector, name.as_ptr(), name.len())
    }
}

pub fn names_mark(
    chip: State,
    wp_high: bool,
    array: &[u8],
    sector: usize,
    name: &[u8],
    buffer: &mut [u8],
) -> Planned {
    unsafe {
        zeradok_names_mark(
            chip,
            wp_high,
            array.as_ptr(),
            array.len(),
            sector,
            name.as_ptr(),
            name.len(),
            buffer.as_mut_ptr(),
            buffer.len(),
        )
    }
}

/// From the book to the names: `book` is the source, `sector` the erased target.
pub fn names_move(
    chip: State,
    wp_high: bool,
    array: &[u8],
    book: usize,
    sector: usize,
    list: &[u8],
    buffer: &mut [u8],
) -> Planned {
    unsafe {
        zeradok_names_move(
            chip,
            wp_high,
            array.as_ptr(),
            array.len(),
            book,
            sector,
            list.as_ptr(),
            list.len(),
            buffer.as_mut_ptr(),
            buffer.len(),
        )
    }
}

/// From the names to the book: `sector` is the source, `book` the erased target.
pub fn names_back(
    chip: State,
    wp_high: bool,
    array: &[u8],
    sector: usize,
    book: usize,
    list: &[u8],
    buffer: &mut [u8],
) -> Returned {
    unsafe {
        zeradok_names_back(
            chip,
            wp_high,
            array.as_ptr(),
            array.len(),
            sector,
            book,
            list.as_ptr(),
            list.len(),
            buffer.as_mut_ptr(),
            buffer.len(),
        )
    }
}

pub fn salvage(sector: &[u8], kept: &mut [u8], dropped: &mut [u8]) -> Salvaged {
    unsafe {
        zeradok_salvage(
            sector.as_ptr(),
            sector.len(),
            kept.as_mut_ptr(),
            kept.len(),
            dropped.as_mut_ptr(),
            dropped.len(),
        )
    }
}
