//! The two slices in which frames are shown, gone through by their lengths: each pair from no byte to
//! two too many, in each of the three calls, where other refusals hold and where none does.

use crate::case::{Case, Line, Mask, On};
use crate::sweep::chips;
use crate::{scripts, CHIPS};

/// Answered, silent, with an opcode that there isn't, and none at all.
const FRAMES: [&[u8]; 6] =
    [&[0x05, 0], &[0x9F, 0, 0, 0, 0], &[0x03, 0x00, 0x12, 0x34, 0, 0], &[0x06], &[0x70, 0], &[]];

/// All of them.
pub struct LineSweep(Vec<Case>);

impl LineSweep {
    pub fn new() -> Self {
        let mut cases = Vec::new();
        for on in CHIPS.into_iter().flat_map(chips) {
            for frame in FRAMES {
                cases.extend(pairs(frame.len()).flat_map(|line| shown(&on, frame, line)));
            }
            for script in scripts() {
                let length = scripts::frame_bytes(&script);
                cases.extend(pairs(length).map(|line| Case::Run {
                    on: on.clone(),
                    script: script.clone(),
                    line,
                }));
            }
        }
        Self(cases)
    }

    /// How many cases it has.
    pub fn length(&self) -> usize {
        self.0.len()
    }

    /// One of them, by its place.
    pub fn case(&self, number: usize) -> Case {
        self.0[number].clone()
    }
}

fn pairs(right: usize) -> impl Iterator<Item = Line> {
    let lengths = 0..=right + 2;
    lengths
        .clone()
        .flat_map(move |output| lengths.clone().map(move |driven| Line { output, driven }))
}

/// Whole, and interrupted with the mask of a frame that programs nothing and with one that is too long.
fn shown(on: &On, frame: &[u8], line: Line) -> [Case; 3] {
    let cut = |mask| {
        let mask = Mask::Bytes(mask);
        Case::Cut { on: on.clone(), frame: frame.to_vec(), line, mask }
    };
    let whole = Case::Frame { on: on.clone(), frame: frame.to_vec(), line };
    [whole, cut(Vec::new()), cut(vec![0xFF])]
}

/// Of no record, of one frame, of two with a wait between them, and the same with a bad record behind.
fn scripts() -> [Vec<u8>; 4] {
    let mut one = Vec::new();
    scripts::put_frame(&mut one, &[0x05, 0]);
    let mut two = Vec::new();
    scripts::put_frame(&mut two, &[0x06]);
    scripts::put_wait(&mut two, 7);
    scripts::put_frame(&mut two, &[0x9F, 0, 0, 0]);
    let bad = [&two[..], &[0x5A]].concat();
    [Vec::new(), one, two, bad]
}
