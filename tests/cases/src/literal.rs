//! Cases as Rust text that can be pasted where `model::{Calls, State}` and `zeradok::Library` are
//! in use.

use std::fmt::Write;

use model::State;

use crate::board::Board;
use crate::case::{Case, Line, Mask, On};

/// Windows of the array are printed up to this many bytes.
const LONGEST_WINDOW: usize = 4_200;

/// A case with what the array holds where it matters, before the call.
pub fn text(case: &Case, board: &mut Board) -> String {
    let mut text = String::new();
    write(case, board, &mut text).expect("a string takes all text");
    text
}

fn write(case: &Case, board: &mut Board, to: &mut String) -> std::fmt::Result {
    match case {
        Case::New { chip } => writeln!(to, "Library::new_chip({chip});"),
        Case::PowerUp { state } => writeln!(to, "{}\nLibrary::power_up(state);", state_text(state)),
        Case::Wait { state, microseconds } => {
            writeln!(to, "{}\nLibrary::wait(state, {microseconds});", state_text(state))
        }
        Case::Frame { on, frame, line } => {
            write_on(case, on, board, to)?;
            writeln!(to, "let frame = {};\n{}", bytes_text(frame), line_text(line))?;
            let rest = "&mut array, &frame, &mut output, &mut driven";
            writeln!(to, "Library::frame(&mut state, wp_high, {rest});")
        }
        Case::Cut { on, frame, line, mask } => {
            write_on(case, on, board, to)?;
            writeln!(to, "let frame = {};\n{}", bytes_text(frame), line_text(line))?;
            writeln!(to, "let mask = {};", mask_text(mask))?;
            let rest = "&mut array, &frame, &mut output, &mut driven, &mask";
            writeln!(to, "Library::cut_frame(&mut state, wp_high, {rest});")
        }
        Case::Plan { on, start, wanted, room } => {
            write_on(case, on, board, to)?;
            writeln!(to, "let wanted = {};", bytes_text(wanted))?;
            writeln!(to, "let mut buffer = vec![0x5A_u8; {room}];")?;
            writeln!(to, "Library::plan(state, wp_high, &array, {start:#X}, &wanted, &mut buffer);")
        }
        Case::Run { on, script, line } => {
            write_on(case, on, board, to)?;
            writeln!(to, "let script = {};\n{}", bytes_text(script), line_text(line))?;
            let rest = "&mut array, &script, &mut output, &mut driven";
            writeln!(to, "Library::run(state, wp_high, {rest});")
        }
        Case::Survey { script } => {
            writeln!(to, "let script = {};", bytes_text(script))?;
            writeln!(to, "Library::survey(&script);")
        }
        Case::Read { script, offset } => {
            writeln!(to, "let script = {};", bytes_text(script))?;
            writeln!(to, "Library::read(&script, {offset});")
        }
        Case::BookIsRead { on, sector, scene } => {
            write_chip(case, on, board, to)?;
            writeln!(to, "Library::book_is_read(state, &array, {sector:#X}, {scene});")
        }
        Case::BookCount { on, sector } => {
            write_chip(case, on, board, to)?;
            writeln!(to, "Library::book_count(state, &array, {sector:#X});")
        }
        Case::BookMark { on, sector, scenes, room } => {
            write_on(case, on, board, to)?;
            writeln!(to, "let scenes: [u32; {}] = {scenes:?};", scenes.len())?;
            writeln!(to, "let mut buffer = vec![0x5A_u8; {room}];")?;
            writeln!(
                to,
                "Library::book_mark(state, wp_high, &array, {sector:#X}, &scenes, &mut buffer);"
            )
        }
    }
}

fn write_on(case: &Case, on: &On, board: &mut Board, to: &mut String) -> std::fmt::Result {
    writeln!(to, "let wp_high = {};", on.wp_high)?;
    write_chip(case, on, board, to)
}

fn write_chip(case: &Case, on: &On, board: &mut Board, to: &mut String) -> std::fmt::Result {
    writeln!(to, "{}", state_text(&on.state))?;
    writeln!(to, "let mut array = vec![0xFF_u8; {:#X}];", on.array)?;
    let array = board.of(on.array_of).array();
    for window in case.windows() {
        let end = window.end.min(on.array).min(array.len());
        let shown = end.min(window.start + LONGEST_WINDOW);
        if window.start >= shown {
            continue;
        }
        writeln!(
            to,
            "array[{:#X}..{shown:#X}].copy_from_slice(&{});",
            window.start,
            bytes_text(&array[window.start..shown])
        )?;
        if shown < end {
            writeln!(to, "// and so on to {end:#X}: left out, replay the seed for the whole")?;
        }
    }
    Ok(())
}

/// A state as a Rust binding.
pub fn state_text(state: &State) -> String {
    format!("let mut state = {state:?};")
}

/// The two slices in which frames are shown, as Rust bindings.
pub fn line_text(line: &Line) -> String {
    let Line { output, driven } = line;
    format!("let mut output = vec![0x5A_u8; {output}];\nlet mut driven = vec![0x5A_u8; {driven}];")
}

fn mask_text(mask: &Mask) -> String {
    match mask {
        Mask::Bytes(bytes) => bytes_text(bytes),
        Mask::Mixed { salt, length } => format!(
            "(0..{length}_u32).map(|i| ((i ^ {salt:#X}).wrapping_mul(0x9E37_79B1) >> 24) as u8)\
             .collect::<Vec<u8>>()"
        ),
    }
}

/// Bytes as a Rust array.
pub fn bytes_text(bytes: &[u8]) -> String {
    if let [first, .., last] = bytes {
        if bytes.len() > 8 && bytes.iter().all(|byte| byte == first) {
            return format!("[{last:#04X}_u8; {}]", bytes.len());
        }
    }
    let mut text = String::from("[");
    for (index, byte) in bytes.iter().enumerate() {
        let comma = if index > 0 { ", " } else { "" };
        let kind = if index == 0 { "_u8" } else { "" };
        write!(text, "{comma}{byte:#04X}{kind}").expect("a string takes all text");
    }
    if bytes.is_empty() {
        text.push_str("0_u8; 0");
    }
    text.push(']');
    text
}
