//! A chip on which plans are run, whole or until the power goes.

use model::{Answer, Calls, Ran, State};

use crate::{scripts, size, Rng, F25L05PA};

type Run = fn(State, bool, &mut [u8], &[u8], &mut [u8], &mut [u8]) -> Ran;
type CutFrame = fn(&mut State, bool, &mut [u8], &[u8], &mut [u8], &mut [u8], &[u8]) -> u32;
type PowerUp = fn(State) -> Answer;

/// Where a plan is cut.
#[derive(Clone, Copy, Debug, PartialEq, Eq)]
pub enum Cut {
    Never,
    /// Before the record of this number, or behind the last.
    Before(usize),
    /// Inside it; of a wait some has passed, but not all.
    Inside(usize, Mask),
}

/// Which bits are programmed where a frame is cut.
#[derive(Clone, Copy, Debug, PartialEq, Eq)]
pub enum Mask {
    /// All, none or any; or whole bytes, but for a bit here and there.
    Any,
    /// All but those of so many bytes in front.
    AllBut(usize),
    /// All but one, of the last byte.
    AllButOneBit,
}

impl Cut {
    /// Somewhere in a script of so many records.
    fn draw(rng: &mut Rng, records: usize) -> Self {
        match rng.below(3) {
            0 => Cut::Before(rng.below(records + 1)),
            _ if records == 0 => Cut::Before(0),
            _ => Cut::Inside(rng.below(records), Mask::Any),
        }
    }

    /// Every second script is run whole.
    pub fn maybe(rng: &mut Rng, script: &[u8]) -> Self {
        match rng.coin() {
            true => Cut::Never,
            false => Cut::draw(rng, scripts::boundaries(script).len() - 1),
        }
    }

    /// Inside the first frame of a script that programs, if there is one.
    pub fn inside_first_program(script: &[u8], mask: Mask) -> Self {
        let programs = |record: &&[u8]| matches!(record, [0x5A, 0x46, _, _, 0x02 | 0xAD, ..]);
        let records = scripts::records(script);
        records.iter().position(programs).map_or(Cut::Never, |record| Cut::Inside(record, mask))
    }
}

/// A chip of somebody who answers the calls.
pub struct Powered {
    pub state: State,
    pub wp_high: bool,
    pub array: Vec<u8>,
    run: Run,
    cut_frame: CutFrame,
    power_up: PowerUp,
}

impl Powered {
    pub fn new<C: Calls>(chip: u8) -> Self {
        Self {
            state: C::new_chip(chip).state,
            wp_high: true,
            array: vec![0xFF; size(chip)],
            run: C::run,
            cut_frame: C::cut_frame,
            power_up: C::power_up,
        }
    }

    /// Runs a script, up to a cut if there is one, behind which it is powered up; or the number of
    /// what is refused.
    pub fn run(&mut self, rng: &mut Rng, script: &[u8], cut: Cut) -> Result<(), u32> {
        let places = scripts::boundaries(script);
        let (until, inside) = match cut {
            Cut::Never => (script.len(), None),
            Cut::Before(record) => (places[record], None),
            Cut::Inside(record, mask) => {
                let inside = &script[places[record]..places[record + 1]];
                (places[record], Some((inside, mask)))
            }
        };
        self.run_part(&script[..until])?;
        match inside {
            Some(([0x5A, 0x46, _, _, frame @ ..], mask)) => {
                return self.cut_inside(rng, frame, mask);
            }
            Some(([0x5A, 0x57, a, b, c, d], _)) => {
                let microseconds = u32::from_be_bytes([*a, *b, *c, *d]);
                let mut part = Vec::new();
                scripts::put_wait(&mut part, rng.below(microseconds as usize) as u32);
                self.run_part(&part)?;
            }
            _ => {}
        }
        if cut != Cut::Never {
            let answer = (self.power_up)(self.state);
            accepted(answer.number)?;
            self.state = answer.state;
        }
        Ok(())
    }

    fn run_part(&mut self, part: &[u8]) -> Result<(), u32> {
        let mut output = vec![0; scripts::frame_bytes(part)];
        let mut driven = output.clone();
        let Self { state, wp_high, array, .. } = self;
        let ran = (self.run)(*state, *wp_high, array, part, &mut output, &mut driven);
        accepted(ran.number)?;
        self.state = ran.state;
        Ok(())
    }

    fn cut_inside(&mut self, rng: &mut Rng, frame: &[u8], mask: Mask) -> Result<(), u32> {
        let mask = match frame[0] {
            0xAD => mask.bytes(rng, 2),
            0x02 => mask.bytes(rng, frame.len() - 4),
            // The old bits, or the new (02, A4).
            0x01 if self.state.chip == F25L05PA => vec![rng.pick(&[0x00, 0xFF])],
            _ => Vec::new(),
        };
        let mut output = vec![0; frame.len()];
        let mut driven = output.clone();
        let number = (self.cut_frame)(
            &mut self.state,
            self.wp_high,
            &mut self.array,
            frame,
            &mut output,
            &mut driven,
            &mask,
        );
        accepted(number)
    }
}

impl Mask {
    fn bytes(self, rng: &mut Rng, length: usize) -> Vec<u8> {
        let style = rng.below(6);
        let mut byte = |at: usize| match self {
            Mask::AllBut(front) if at < front => 0x00,
            Mask::AllButOneBit if at + 1 == length => !(1 << rng.below(7)),
            Mask::AllBut(_) | Mask::AllButOneBit => 0xFF,
            Mask::Any => match style {
                0 => 0x00,
                1 => 0xFF,
                2 => rng.byte(),
                3 if rng.one_in(4) => !(1 << rng.below(8)),
                _ => rng.pick(&[0x00, 0xFF]),
            },
        };
        (0..length).map(&mut byte).collect()
    }
}

fn accepted(number: u32) -> Result<(), u32> {
    match number {
        0 => Ok(()),
        _ => Err(number),
    }
}
