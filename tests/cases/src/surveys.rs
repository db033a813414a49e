//! What a survey says of a script, and what running and reading the script then do: they agree.

use model::{kind, Calls, Ran, Surveyed};

use crate::chip::Chip;
use crate::literal::bytes_text;
use crate::{malform, scripts, states, Rng, CHIPS};

const SEED: u64 = 1;
const SCRIPTS: usize = 600;
/// Up to this length every shorter slice is tried, and some longer ones.
const SHORT: usize = 64;
/// What stands in a slice before a call.
const UNTOUCHED: u8 = 0xA5;

/// The scripts, good and bad, for which a survey and the other calls don't agree.
pub fn failing<C: Calls>() -> Vec<String> {
    let mut rng = Rng::new(SEED);
    let mut failing = Vec::new();
    for number in CHIPS {
        let mut chip = Chip::<C>::new(number);
        for _ in 0..SCRIPTS {
            let mut script = scripts::script(&mut rng, number);
            if rng.one_in(3) {
                malform::somewhere(&mut rng, &mut script);
            }
            chip.state = states::sound(&mut rng, number);
            if !agrees(&mut chip, &script) {
                failing.push(format!("chip {number}: {}", bytes_text(&script)));
            }
        }
    }
    failing
}

/// Whether the survey says what the reader does, and a run is accepted where the survey accepts,
/// with its counts and slices of its length; with another length of either it is 4. Where the survey
/// refuses, so does a run, with any slices.
fn agrees<C: Calls>(chip: &mut Chip<C>, script: &[u8]) -> bool {
    let surveyed = C::survey(script);
    let Surveyed { number, frames, microseconds, offset, output } = surveyed;
    if surveyed != walked::<C>(script) {
        return false;
    }
    if number != 0 {
        let pairs = [[0, 0], [1, 0], [18, 18], [18, 4_101], [4_101, 1]];
        return is_refused(chip, script, pairs.into_iter(), number, offset);
    }
    let others =
        other_lengths(output).flat_map(|other| [[other, output], [output, other], [other, other]]);
    let others = is_refused(chip, script, others, 4, 0);
    let [mut shown, mut driven] = [vec![UNTOUCHED; output], vec![UNTOUCHED; output]];
    let ran = C::run(chip.state, true, &mut chip.array, script, &mut shown, &mut driven);
    others
        && ran == Ran { number: 0, state: ran.state, frames, microseconds, offset: 0 }
        && driven.iter().all(|byte| *byte <= 1)
}

/// What the reader says of all records, one by one, or of the first bad one.
fn walked<C: Calls>(script: &[u8]) -> Surveyed {
    let mut walked = Surveyed::default();
    let mut offset = 0;
    loop {
        let record = C::read(script, offset);
        match record.kind {
            kind::END => return walked,
            kind::FRAME => walked.frames += 1,
            kind::WAIT => walked.microseconds += u64::from(record.microseconds),
            _ => return Surveyed { number: record.number, offset, ..Surveyed::default() },
        }
        walked.output += record.length;
        offset = record.next;
    }
}

fn other_lengths(output: usize) -> impl Iterator<Item = usize> {
    let shorter = if output <= SHORT { 0..output } else { output - 2..output };
    shorter.chain([output + 1, output + 2, output + 4_101, 2 * output + 1])
}

/// Whether a run is refused with each of these lengths of its slices, and changes nothing.
fn is_refused<C: Calls>(
    chip: &mut Chip<C>,
    script: &[u8],
    mut pairs: impl Iterator<Item = [usize; 2]>,
    number: u32,
    offset: usize,
) -> bool {
    let refused = Ran { number, state: chip.state, frames: 0, microseconds: 0, offset };
    let before = chip.array.clone();
    pairs.all(|pair| {
        let mut slices = pair.map(|length| vec![UNTOUCHED; length]);
        let [output, driven] = &mut slices;
        let ran = C::run(chip.state, true, &mut chip.array, script, output, driven);
        ran == refused && slices.iter().flatten().all(|byte| *byte == UNTOUCHED)
    }) && chip.array == before
}
