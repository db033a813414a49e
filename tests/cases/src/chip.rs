//! A chip of somebody who answers the calls, for the cases that are written out frame by frame.

use std::marker::PhantomData;

use model::{Calls, Ran, State};

use crate::{listing, scripts, size};

/// What stands in a slice before a call: nothing that a call writes there.
const UNTOUCHED: u8 = 0xA5;

/// A chip with an erased array.
pub struct Chip<C> {
    pub state: State,
    pub wp_high: bool,
    pub array: Vec<u8>,
    calls: PhantomData<C>,
}

impl<C: Calls> Chip<C> {
    pub fn new(chip: u8) -> Self {
        let (state, array) = (C::new_chip(chip).state, vec![0xFF; size(chip)]);
        Self { state, wp_high: true, array, calls: PhantomData }
    }

    /// With this protection and WEL 1.
    pub fn enabled(chip: u8, bp: u8) -> Self {
        let mut new = Self::new(chip);
        new.state = State { bp, wel: true, ..new.state };
        new
    }

    /// Sends a frame: whether this is shown, written as `play` prints it.
    pub fn shows(&mut self, frame: &[u8], listing: &str) -> bool {
        self.send(frame) == Some(listing::slices(listing))
    }

    /// Sends a frame: whether nothing is driven.
    pub fn is_silent(&mut self, frame: &[u8]) -> bool {
        self.send(frame) == Some((vec![0xFF; frame.len()], vec![0; frame.len()]))
    }

    /// Both slices behind a frame; none if it is refused.
    fn send(&mut self, frame: &[u8]) -> Option<(Vec<u8>, Vec<u8>)> {
        let mut output = vec![UNTOUCHED; frame.len()];
        let mut driven = output.clone();
        let Self { state, wp_high, array, .. } = self;
        let number = C::frame(state, *wp_high, array, frame, &mut output, &mut driven);
        (number == 0).then_some((output, driven))
    }

    /// Sends a frame that is cut with this mask; the number.
    pub fn cut(&mut self, frame: &[u8], mask: &[u8]) -> u32 {
        let mut output = vec![UNTOUCHED; frame.len()];
        let mut driven = output.clone();
        let Self { state, wp_high, array, .. } = self;
        C::cut_frame(state, *wp_high, array, frame, &mut output, &mut driven, mask)
    }

    /// Runs a script of frames: whether each shows what stands beside it, as `play` prints it. Behind
    /// each that has one comes a wait.
    pub fn runs(&mut self, steps: &[(&[u8], &str, u32)]) -> bool {
        let (mut script, mut shown) = (Vec::new(), Vec::new());
        for (frame, listing, wait) in steps {
            scripts::put_frame(&mut script, frame);
            shown.push(*listing);
            if *wait > 0 {
                scripts::put_wait(&mut script, *wait);
            }
        }
        let slices = listing::slices(&shown.join(" "));
        let mut output = vec![UNTOUCHED; slices.0.len()];
        let mut driven = output.clone();
        let Self { state, wp_high, array, .. } = self;
        let ran = C::run(*state, *wp_high, array, &script, &mut output, &mut driven);
        *state = ran.state;
        ran.number == 0 && (output, driven) == slices
    }

    /// What a run of a script answers, from the chip's state, which stays; none if a byte is driven,
    /// as none is in a plan's frames.
    pub fn run_silent(&mut self, wp_high: bool, script: &[u8]) -> Option<Ran> {
        let length = C::survey(script).output;
        let mut output = vec![UNTOUCHED; length];
        let mut driven = output.clone();
        let ran = C::run(self.state, wp_high, &mut self.array, script, &mut output, &mut driven);
        (output == vec![0xFF; length] && driven == vec![0; length]).then_some(ran)
    }

    pub fn wait(&mut self, microseconds: u32) {
        self.state = C::wait(self.state, microseconds).state;
    }

    /// The power goes and comes back.
    pub fn power_up(&mut self) {
        self.state = C::power_up(self.state).state;
    }

    /// Whether all of its array is FF.
    pub fn is_erased(&self) -> bool {
        self.array.iter().all(|byte| *byte == 0xFF)
    }
}
