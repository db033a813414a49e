//! One case: one of the four calls and all that it is given.

use model::{Planned, Returned, Told};

use super::calls::Names;
use crate::case::On;
use crate::literal::{bytes_text, state_text};

/// A call on a chip.
#[derive(Clone)]
pub struct Case {
    pub on: On,
    pub asked: Asked,
}

/// What is asked of the chip; the buffer is given by its length.
#[derive(Clone)]
pub enum Asked {
    IsRead { sector: usize, name: Vec<u8> },
    Mark { sector: usize, name: Vec<u8>, room: usize },
    Move { book: usize, sector: usize, list: Vec<u8>, room: usize },
    Back { sector: usize, book: usize, list: Vec<u8>, room: usize },
}

/// What a call gave back.
#[derive(Clone, Copy, Debug, PartialEq)]
pub enum Outcome {
    Told(Told),
    Planned(Planned),
    Returned(Returned),
}

impl Outcome {
    pub fn number(&self) -> u32 {
        match self {
            Outcome::Told(told) => told.number,
            Outcome::Planned(planned) => planned.number,
            Outcome::Returned(returned) => returned.number,
        }
    }

    /// How long the script is, if one is given.
    pub fn length(&self) -> usize {
        let length = match self {
            Outcome::Told(_) => 0,
            Outcome::Planned(planned) => planned.length,
            Outcome::Returned(returned) => returned.length,
        };
        length as usize
    }
}

impl Asked {
    pub fn set_room(&mut self, given: usize) {
        match self {
            Asked::IsRead { .. } => {}
            Asked::Mark { room, .. } | Asked::Move { room, .. } | Asked::Back { room, .. } => {
                *room = given;
            }
        }
    }
}

impl Case {
    pub fn call(&self) -> &'static str {
        match self.asked {
            Asked::IsRead { .. } => "names_is_read",
            Asked::Mark { .. } => "names_mark",
            Asked::Move { .. } => "names_move",
            Asked::Back { .. } => "names_back",
        }
    }

    /// How long the buffer is.
    pub fn room(&self) -> usize {
        match self.asked {
            Asked::IsRead { .. } => 0,
            Asked::Mark { room, .. } | Asked::Move { room, .. } | Asked::Back { room, .. } => room,
        }
    }

    /// The sectors that it is about: what is written, then what is read, if that is another.
    pub fn sectors(&self) -> Vec<usize> {
        match self.asked {
            Asked::IsRead { sector, .. } | Asked::Mark { sector, .. } => vec![sector],
            Asked::Move { book, sector, .. } => vec![sector, book],
            Asked::Back { sector, book, .. } => vec![book, sector],
        }
    }

    pub fn run(&self, names: &Names, array: &[u8], buffer: &mut [u8]) -> Outcome {
        let On { state, wp_high, .. } = self.on;
        match &self.asked {
            Asked::IsRead { sector, name } => {
                Outcome::Told((names.is_read)(state, array, *sector, name))
            }
            Asked::Mark { sector, name, .. } => {
                Outcome::Planned((names.mark)(state, wp_high, array, *sector, name, buffer))
            }
            Asked::Move { book, sector, list, .. } => {
                Outcome::Planned((names.there)(state, wp_high, array, *book, *sector, list, buffer))
            }
            Asked::Back { sector, book, list, .. } => {
                Outcome::Returned((names.back)(state, wp_high, array, *sector, *book, list, buffer))
            }
        }
    }

    /// As Rust text that can be pasted, with what these sectors hold.
    pub fn text<'a>(&self, sectors: impl Iterator<Item = (usize, &'a [u8])>) -> String {
        let On { state, wp_high, array, .. } = &self.on;
        let mut lines = vec![
            state_text(state),
            format!("let wp_high = {wp_high};"),
            format!("let mut array = vec![0xFF_u8; {array:#X}];"),
        ];
        for (start, image) in sectors {
            let image = bytes_text(image);
            lines.push(format!("array[{start:#X}..][..4_096].copy_from_slice(&{image});"));
        }
        lines.push(format!("let mut buffer = vec![0x5A_u8; {}];", self.room()));
        lines.extend(self.call_text());
        lines.join("\n")
    }

    fn call_text(&self) -> [String; 2] {
        let (given, call) = match &self.asked {
            Asked::IsRead { sector, name } => (name, format!("is_read(state, &array, {sector:#X}")),
            Asked::Mark { sector, name, .. } => {
                (name, format!("mark(state, wp_high, &array, {sector:#X}"))
            }
            Asked::Move { book, sector, list, .. } => {
                (list, format!("move(state, wp_high, &array, {book:#X}, {sector:#X}"))
            }
            Asked::Back { sector, book, list, .. } => {
                (list, format!("back(state, wp_high, &array, {sector:#X}, {book:#X}"))
            }
        };
        let buffer = if matches!(self.asked, Asked::IsRead { .. }) { "" } else { ", &mut buffer" };
        [
            format!("let given = {};", bytes_text(given)),
            format!("Library::names_{call}, &given{buffer});"),
        ]
    }
}
