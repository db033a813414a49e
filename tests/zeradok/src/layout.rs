//! The binding's structs lie in memory as `tests/c/layout.c` says of the header's, and its numbers
//! of the worst case and of the longest list are the header's.

use std::mem::{align_of, offset_of, size_of};

use crate::binding::{Answer, Planned, Ran, Record, Returned, Salvaged, State, Surveyed, Told};
use crate::binding::{LONGEST_DROPPED, WORST_BYTES, WORST_FRAMES, WORST_MICROSECONDS};

/// Fails to compile unless the struct has this size and alignment and its fields these offsets.
macro_rules! layout {
    ($name:ident: $size:literal, $align:literal; $($field:ident $offset:literal),*) => {
        const _: () = {
            assert!(size_of::<$name>() == $size);
            assert!(align_of::<$name>() == $align);
            $(assert!(offset_of!($name, $field) == $offset);)*
        };
    };
}

layout!(State: 20, 4; chip 0, bp 1, tb 2, bpl 3, wel 4, aai 5, armed 6, power_down 7, pending 8,
    pending_bits 9, left 12, next 16);
layout!(Answer: 24, 4; number 0, state 4);
layout!(Ran: 48, 8; number 0, state 4, frames 24, microseconds 32, offset 40);
layout!(Surveyed: 32, 8; number 0, frames 4, microseconds 8, offset 16, output 24);
layout!(Planned: 36, 4; number 0, state 4, length 24, frames 28, microseconds 32);
layout!(Told: 28, 4; number 0, state 4, value 24);
layout!(Returned: 40, 4; number 0, state 4, length 24, frames 28, microseconds 32, unlisted 36);
layout!(Salvaged: 12, 4; number 0, length 4, kept 8);
layout!(Record: 40, 8; number 0, kind 4, start 8, length 16, microseconds 24, next 32);

const _: () = {
    assert!(WORST_BYTES == 26_672);
    assert!(WORST_FRAMES == 3_079);
    assert!(WORST_MICROSECONDS == 35_500);
    assert!(LONGEST_DROPPED == 3_280);
};
