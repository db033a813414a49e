//! The story of `examples/c/read.c` again, with the binding `include/zeradok.rs`.

#[path = "../../include/zeradok.rs"]
mod zeradok;

struct Cartridge {
    chip: zeradok::State,
    array: Vec<u8>,
}

impl Cartridge {
    /// What the chip says while each byte of the frame goes in; `None` where nobody speaks.
    fn send(&mut self, frame: &[u8]) -> Vec<Option<u8>> {
        let (mut output, mut driven) = (vec![0; frame.len()], vec![0; frame.len()]);
        let (chip, array) = (&mut self.chip, &mut self.array);
        assert_eq!(zeradok::frame(chip, true, array, frame, &mut output, &mut driven), 0);
        output.into_iter().zip(driven).map(|(byte, driven)| (driven == 1).then_some(byte)).collect()
    }

    /// Reads the first two bytes of flags (03); in front of them go the opcode and the address.
    fn show(&mut self, when: &str) {
        match self.send(&[0x03, 0x00, 0x00, 0x00, 0x00, 0x00])[4..] {
            [Some(a), Some(b)] => println!("{when}: the chip says {a:02X} {b:02X}"),
            _ => println!("{when}: nobody speaks"),
        }
    }
}

fn main() {
    let mut cartridge = Cartridge { chip: zeradok::new(5).state, array: vec![0xFF; 65_536] };
    cartridge.show("erased");
    cartridge.send(&[0x06]);
    cartridge.send(&[0x02, 0x00, 0x00, 0x00, 0xFE]);
    cartridge.show("asked too early");
    cartridge.chip = zeradok::wait(cartridge.chip, 1500).state;
    cartridge.show("scene 0 marked");
    cartridge.send(&[0xB9]);
    cartridge.show("in power-down");
    cartridge.send(&[0xAB]);
    cartridge.show("awake");
}
