//! Which bytes the chip drives (02, A10), written out: frames on chips that stand in every way, sessions
//! of frames and waits, and what 4 says of the two slices.

mod frames;
mod lengths;
mod on_chip;
mod sessions;

use model::Calls;

/// The frames and the sessions that are shown otherwise, and the slices that are refused otherwise or
/// aren't.
pub fn failing<C: Calls>() -> Vec<String> {
    [frames::failing::<C>(), sessions::failing::<C>(), lengths::failing::<C>()].concat()
}
