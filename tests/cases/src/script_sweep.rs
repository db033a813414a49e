//! Scripts gone through one by one: a good one with every cut, with every other byte in each of
//! its marks, and with records of every length at an edge, long enough and not.

use model::{State, LONGEST_FRAME, LONGEST_SCRIPT};

use crate::case::{Case, Line, On};
use crate::spoil::{self, Planted};
use crate::{scripts, Rng, F25L05PA};

/// What is done to the good script.
enum Edit {
    CutAt(usize),
    Byte {
        at: usize,
        byte: u8,
    },
    /// From there on it is a frame's mark, this length and so many bytes.
    Length {
        at: usize,
        length: usize,
        behind: usize,
    },
}

pub struct ScriptSweep {
    good: Vec<u8>,
    edits: Vec<Edit>,
}

/// Each script is surveyed, run and read.
const CALLS: usize = 3;

impl ScriptSweep {
    pub fn new() -> Self {
        let good = scripts::sample();
        let boundaries = scripts::boundaries(&good);
        let (end, starts) = boundaries.split_last().expect("where a script begins");
        let marks = starts.iter().flat_map(|start| [*start, start + 1]);
        let edits = (0..=*end)
            .map(Edit::CutAt)
            .chain(marks.flat_map(|at| (0..=255).map(move |byte| Edit::Byte { at, byte })))
            .chain(boundaries.iter().flat_map(|at| lengths(*at)))
            .collect();
        Self { good, edits }
    }

    /// How many cases it has.
    pub fn length(&self) -> usize {
        CALLS * self.edits.len()
    }

    pub fn case(&self, number: usize, rng: &mut Rng) -> Case {
        let script = self.edited(&self.edits[number / CALLS]);
        match number % CALLS {
            0 => Case::Survey { script },
            1 => run(rng, script),
            _ => Case::Read { offset: scripts::boundaries(&script).pop().unwrap_or(0), script },
        }
    }

    fn edited(&self, edit: &Edit) -> Vec<u8> {
        let mut script = self.good.clone();
        match *edit {
            Edit::CutAt(at) => script.truncate(at),
            Edit::Byte { at, byte } => script[at] = byte,
            Edit::Length { at, length, behind } => {
                script.truncate(at);
                script.extend([0x5A, 0x46]);
                script.extend((length as u16).to_be_bytes());
                script.resize(script.len() + behind, 0x05);
            }
        }
        script
    }
}

/// Lengths at their edges, each with bytes enough behind it, with too few and with more; at most
/// one byte more than a script may have.
fn lengths(at: usize) -> impl Iterator<Item = Edit> {
    const LENGTHS: [usize; 11] = [
        0,
        1,
        2,
        256,
        LONGEST_FRAME - 1,
        LONGEST_FRAME,
        LONGEST_FRAME + 1,
        LONGEST_FRAME + 2,
        0x7000,
        0x8000,
        0xFFFF,
    ];
    LENGTHS.into_iter().flat_map(move |length| {
        [0, 1, length.saturating_sub(1), length, length + 1].map(|behind| Edit::Length {
            at,
            length,
            behind: behind.min(LONGEST_SCRIPT - 3 - at),
        })
    })
}

/// Run on an 05PA, mostly a sound one with its own array, with slices of one length or another.
fn run(rng: &mut Rng, script: Vec<u8>) -> Case {
    let mut on = On::new(State { chip: F25L05PA, ..State::default() }, true);
    spoil::chip(rng, &mut on, &mut Planted::default());
    let right = scripts::frame_bytes(&script);
    let line = if rng.coin() { Line::of(right) } else { spoil::line(rng, right) };
    Case::Run { on, script, line }
}
