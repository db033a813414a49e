//! Going through images with the right model on one side and somebody else on the other.

use model::{Calls, Model, Salvaged};

use super::images::Image;
use super::lent::Lent;
use super::Salvage;
use crate::board::MARGIN;
use crate::Rng;

/// A call in which the other side answered otherwise, or changed what it must not.
pub struct Difference {
    /// The number of the image.
    pub index: usize,
    pub what: String,
    /// The call as Rust text that can be pasted.
    pub text: String,
}

/// What a call that went well was given, and what it gave.
pub struct Call<'a> {
    pub image: &'a Image,
    pub lent: Lent,
    pub salvaged: Salvaged,
    /// The list where there is room for it.
    pub list: &'a [u8],
}

impl Call<'_> {
    /// The refusals that hold.
    pub fn planted(&self) -> impl Iterator<Item = u32> {
        self.lent.planted(self.list.len()).numbers()
    }
}

/// Goes through so many random images, each with every room that matters, up to the first
/// difference. `note` sees each call that went well.
pub fn explore(
    other: Salvage,
    seed: u64,
    images: usize,
    mut note: impl FnMut(&Call),
) -> Result<(), Difference> {
    let mut rng = Rng::new(seed);
    let mut comparison = Comparison { other, sides: [Side::default(), Side::default()], calls: 0 };
    for index in 0..images {
        let image = Image::draw(&mut rng);
        let at = |(lent, what): (Lent, String)| Difference { index, what, text: lent.text(&image) };
        let first = comparison.compare(&image, Lent::AMPLE).map_err(at)?;
        let list = comparison.sides[0].list[MARGIN..][..first.length as usize].to_vec();
        let mut went_well = |lent, salvaged| {
            note(&Call { image: &image, lent, salvaged, list: &list });
        };
        went_well(Lent::AMPLE, first);
        for lent in Lent::others(&mut rng, list.len()) {
            went_well(lent, comparison.compare(&image, lent).map_err(at)?);
        }
    }
    Ok(())
}

struct Comparison {
    other: Salvage,
    /// The right model's and the other's.
    sides: [Side; 2],
    calls: usize,
}

/// The buffers of one side, with margins.
#[derive(Default, PartialEq)]
struct Side {
    kept: Vec<u8>,
    list: Vec<u8>,
}

impl Side {
    fn clear(&mut self, lent: Lent, untouched: u8) {
        for (buffer, length) in [(&mut self.kept, lent.kept), (&mut self.list, lent.room)] {
            buffer.clear();
            buffer.resize(length + 2 * MARGIN, untouched);
        }
    }

    fn call(&mut self, salvage: Salvage, image: &Image, lent: Lent) -> Salvaged {
        let kept = &mut self.kept[MARGIN..][..lent.kept];
        let list = &mut self.list[MARGIN..][..lent.room];
        salvage(image.lent(lent.sector), kept, list)
    }

    /// Whether nothing is written outside the kept records' buffer and the list, and with a refusal
    /// nothing at all.
    fn is_right(&self, salvaged: &Salvaged, lent: Lent, untouched: u8) -> bool {
        let accepted = salvaged.number == 0;
        let kept = if accepted { lent.kept } else { 0 };
        let list = if accepted { salvaged.length as usize } else { 0 };
        [(&self.kept, kept), (&self.list, list)].into_iter().all(|(buffer, written)| {
            let (front, behind) = (&buffer[..MARGIN], &buffer[MARGIN + written..]);
            front.iter().chain(behind).all(|byte| *byte == untouched)
        })
    }
}

impl Comparison {
    /// Makes the call on both sides; what differs, if anything does.
    fn compare(&mut self, image: &Image, lent: Lent) -> Result<Salvaged, (Lent, String)> {
        // Never FF, which is what a kept records' buffer is filled up with.
        let untouched = 0xA5 ^ (self.calls % 64) as u8;
        self.calls += 1;
        self.sides.iter_mut().for_each(|side| side.clear(lent, untouched));
        let [right, other] = &mut self.sides;
        let before = image.sector().to_vec();
        let salvaged = right.call(<Model>::salvage, image, lent);
        let given = other.call(self.other, image, lent);
        let what = if given != salvaged {
            format!("answer {given:?}\nright  {salvaged:?}")
        } else if image.sector() != before {
            "the sector is changed".into()
        } else if let Some(what) = differs("kept records", &other.kept, &right.kept) {
            what
        } else if let Some(what) = differs("list", &other.list, &right.list) {
            what
        } else if !right.is_right(&salvaged, lent, untouched) {
            "both sides wrote where nothing is to be written".into()
        } else {
            return Ok(salvaged);
        };
        Err((lent, what))
    }
}

/// The first byte at which a buffer isn't as the right model's.
fn differs(name: &str, given: &[u8], right: &[u8]) -> Option<String> {
    if given == right {
        return None;
    }
    let at = given.iter().zip(right).position(|(given, right)| given != right)?;
    let place = at as isize - MARGIN as isize;
    Some(format!("{name}, byte {place}: {:#04X}, right {:#04X}", given[at], right[at]))
}
