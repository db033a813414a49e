//! The story of `examples/c/save.c` again, with the binding `include/zeradok.rs`: save chip.img

#[path = "../../include/zeradok.rs"]
mod zeradok;

use std::{env, fs, io::ErrorKind};

const WAIT: u32 = 2;
const END: u32 = 3;
const WANTS_A_ONE: u32 = 8;

struct Cartridge {
    chip: zeradok::State,
    array: Vec<u8>,
    power_fails: bool, // once, while the first word is written
}

impl Cartridge {
    /// Here a driver's transfer stands. False: the power went and is back. A save doesn't look at
    /// what the chip says; `read.rs` does.
    fn send(&mut self, frame: &[u8]) -> bool {
        let (chip, array) = (&mut self.chip, &mut self.array);
        let (output, driven) = (&mut vec![0; frame.len()], &mut vec![0; frame.len()]);
        let cut = self.power_fails && frame[0] == 0xAD;
        let number = match cut {
            true => zeradok::cut_frame(chip, true, array, frame, output, driven, &[0x3C, 0x3C]),
            false => zeradok::frame(chip, true, array, frame, output, driven),
        };
        assert_eq!(number, 0);
        self.power_fails &= !cut;
        !cut
    }

    /// Sends a script, record by record. False: the power went.
    fn send_script(&mut self, script: &[u8]) -> bool {
        let mut record = zeradok::read(script, 0);
        while record.kind != END {
            if record.kind == WAIT {
                self.chip = zeradok::wait(self.chip, record.microseconds).state;
            } else if !self.send(&script[record.start..][..record.length]) {
                return false;
            }
            record = zeradok::read(script, record.next);
        }
        true
    }

    /// Makes the flags, 64 bytes, as wanted. The answer: 0, or the refusal that the game has to meet.
    fn save(&mut self, wanted: &[u8]) -> u32 {
        let mut script = [0; zeradok::WORST_BYTES]; // no plan is longer, so refusal 10 is never met
        loop {
            let plan = zeradok::plan(self.chip, true, &self.array, 0, &wanted[..64], &mut script);
            let zeradok::Planned { number, length, frames, microseconds, .. } = plan;
            println!("number {number}, {length} bytes, {frames} frames, {microseconds} microseconds");
            if self.send_script(&script[..length as usize]) {
                return number;
            }
            println!("the power went and is back");
        }
    }
}

fn main() {
    let path = env::args().nth(1).expect("run it as: save chip.img");
    let array = match fs::read(&path) {
        Err(error) if error.kind() == ErrorKind::NotFound => vec![0xFF; 1_048_576],
        image => image.expect("an image that can be read"),
    };
    let mut wanted = array.clone();
    let mut cartridge = Cartridge { chip: zeradok::new(8).state, array, power_fails: true };
    assert!(cartridge.send(&[0x50]) && cartridge.send(&[0x01, 0x00]));

    (9..=20).for_each(|scene| wanted[scene / 8] &= !(1 << (scene % 8)));
    assert!(cartridge.save(&wanted) == 0 && cartridge.array == wanted);
    wanted[9 / 8] |= 1 << (9 % 8);
    assert_eq!(cartridge.save(&wanted), WANTS_A_ONE);
    println!("scene 9 stays read: only an erase makes it unread");
    fs::write(path, cartridge.array).expect("an image that can be written");
}
