//! Building a request, by document 02, §1: the eight forms, and each limit from both sides.

use crate::drawn::FUNCTIONS;
use crate::lists::{asked, Entry};
use crate::master::Request;

#[rustfmt::skip]
pub const BUILDS: &[Entry] = &[
    // The eight functions.
    ("frame|14 01 00 18 00 03 *|kept", "build|20 1 24 3|256 170 0|"),
    ("frame|14 02 00 18 00 03 *|kept", "build|20 2 24 3|256 170 0|"),
    ("frame|14 03 00 01 00 02 97 0E|kept", "build|20 3 1 2|256 170 0|"),
    ("frame|14 04 00 01 00 02 *|kept", "build|20 4 1 2|256 170 0|"),
    ("frame|14 05 00 18 FF 00 0E F8|kept", "build|20 5 24 65280|256 170 0|"),
    ("frame|14 05 00 18 00 00 4F 08|kept", "build|20 5 24 0|256 170 0|"),
    ("frame|14 06 00 08 00 01 CB 0D|kept", "build|20 6 8 1|256 170 0|"),
    ("frame|14 0F 00 18 00 03 01 05 *|kept", "build|20 15 24 3|256 170 0|05"),
    ("frame|14 10 00 01 00 02 04 12 34 56 78 *|kept", "build|20 16 1 2|256 170 0|12 34 56 78"),
    // Numbers high byte first; the start as on the line, wherever it lies.
    ("frame|FF 03 12 34 00 50 *|kept", "build|255 3 4660 80|256 0 1|"),
    ("frame|FF 01 12 34 01 00 *|kept", "build|255 1 4660 256|256 0 1|"),
    ("frame|01 06 FF FF AB CD *|kept", "build|1 6 65535 43981|256 0 1|"),
    ("frame|01 06 00 00 FF FF *|kept", "build|1 6 0 65535|512 255 255|"),
    ("frame|01 10 FF FF 00 02 04 00 01 00 02 *|kept", "build|1 16 65535 2|512 255 255|00 01 00 02"),
    // The longest of both kinds, and one over.
    ("frame|14 10 00 01 00 50 A0 55^160 *|kept", "build|20 16 1 80|256 170 0|55^160"),
    ("refused 70||kept", "build|20 16 1 81|256 170 0|55^162"),
    ("frame|14 0F 00 01 01 00 20 55^32 *|kept", "build|20 15 1 256|256 170 0|55^32"),
    ("refused 70||kept", "build|20 15 1 257|256 170 0|55^33"),
    // Spare bits are built as 0.
    ("frame|14 0F 00 18 00 01 01 01 *|kept", "build|20 15 24 1|256 170 0|FF"),
    ("frame|14 0F 00 18 00 02 01 03 *|kept", "build|20 15 24 2|256 170 0|FF"),
    ("frame|14 0F 00 18 00 03 01 07 *|kept", "build|20 15 24 3|256 170 0|FF"),
    ("frame|14 0F 00 18 00 04 01 0F *|kept", "build|20 15 24 4|256 170 0|FF"),
    ("frame|14 0F 00 18 00 05 01 1F *|kept", "build|20 15 24 5|256 170 0|FF"),
    ("frame|14 0F 00 18 00 06 01 3F *|kept", "build|20 15 24 6|256 170 0|FF"),
    ("frame|14 0F 00 18 00 07 01 7F *|kept", "build|20 15 24 7|256 170 0|FF"),
    ("frame|14 0F 00 18 00 08 01 FF *|kept", "build|20 15 24 8|256 170 0|FF"),
    ("frame|14 0F 00 18 00 09 02 FF 01 *|kept", "build|20 15 24 9|256 170 0|FF FF"),
    ("frame|14 0F 00 18 00 0F 02 FF 7F *|kept", "build|20 15 24 15|256 170 0|FF FF"),
    ("frame|14 0F 00 18 00 10 02 FF FF *|kept", "build|20 15 24 16|256 170 0|FF FF"),
    ("frame|14 0F 00 18 00 F9 20 FF^31 01 *|kept", "build|20 15 24 249|256 170 0|FF^32"),
    ("frame|14 0F 00 18 00 FF 20 FF^31 7F *|kept", "build|20 15 24 255|256 170 0|FF^32"),
    ("frame|14 0F 00 18 01 00 20 FF^32 *|kept", "build|20 15 24 256|256 170 0|FF^32"),
    ("frame|14 0F 00 18 00 03 01 00 *|kept", "build|20 15 24 3|256 170 0|08"),
    ("frame|14 0F 00 18 00 03 01 00 *|kept", "build|20 15 24 3|256 170 0|F8"),
    ("frame|14 0F 00 18 00 03 01 02 *|kept", "build|20 15 24 3|256 170 0|82"),
    ("frame|14 0F 00 18 00 0B 02 F8 00 *|kept", "build|20 15 24 11|256 170 0|F8 F8"),
    // Data of the other kind's size, or of the quantity's number.
    ("refused 70||kept", "build|20 15 24 16|256 170 0|00^32"),
    ("refused 70||kept", "build|20 15 24 16|256 170 0|00^16"),
    ("refused 70||kept", "build|20 16 1 16|256 170 0|00^2"),
    ("refused 70||kept", "build|20 16 1 16|256 170 0|00^16"),
    ("refused 70||kept", "build|20 16 1 1|256 170 0|00^258"),
    ("refused 70||kept", "build|20 15 1 1|256 170 0|00^257"),
    ("refused 70||kept", "build|20 3 1 2|256 170 0|00^300"),
    // Several wrong at once.
    ("refused 70||kept", "build|0 16 1 0|255 170 0|12"),
    ("refused 70||kept", "build|0 1 0 0|0 0 0|"),
    ("refused 70||kept", "build|0 5 24 1|255 0 1|00"),
];

/// Functions, operands of theirs, and whether each is inside the limits.
pub type Operands = (&'static [u8], &'static [(u16, bool)]);

/// Operands about the limits; all of 06 are inside.
#[rustfmt::skip]
pub const OPERANDS: &[Operands] = &[
    (&[0x01, 0x02, 0x0F], &[
        (0, false), (1, true), (8, true), (9, true), (80, true), (81, true), (255, true), (256, true), (257, false), (512, false),
        (0x0801, false), (0x8000, false), (0xFF00, false), (0xFFFF, false),
    ]),
    (&[0x03, 0x04, 0x10], &[
        (0, false), (1, true), (2, true), (79, true), (80, true), (81, false), (128, false), (129, false), (256, false), (257, false),
        (0x8001, false), (0xFF00, false), (0xFFFF, false),
    ]),
    (&[0x05], &[
        (0xFF00, true), (0x0000, true), (0x00FF, false), (0xFF01, false), (0x0001, false), (0xFEFF, false), (0xFE00, false),
        (0x0100, false), (0x8000, false), (0xFFFF, false),
    ]),
    (&[0x06], &[(0, true), (1, true), (81, true), (257, true), (0x00FF, true), (0xFF00, true), (0xFF01, true), (0xFFFF, true)]),
];

/// A request inside all limits.
pub fn right(function: u8) -> Request {
    Request {
        station: 20,
        function,
        start: 24,
        operand: if function == 0x05 { 0xFF00 } else { 11 },
    }
}

/// How many bytes of data the quantity has; no more than a line can say.
fn size(request: Request) -> usize {
    let quantity = usize::from(request.operand);
    match request.function {
        0x0F => quantity.div_ceil(8).min(299),
        0x10 => (quantity * 2).min(299),
        _ => 0,
    }
}

/// Each function with each of its operands and data of the right size, a byte less and a byte more;
/// then with stations, starts and lent buffers.
pub fn limits() -> Vec<(&'static str, String)> {
    let mut found = Vec::new();
    let mut add = |inside: bool, request: Request, room: usize, size: usize| {
        let given = if inside { "frame" } else { "refused 70||kept" };
        found.push((given, asked("build", request, room, &vec![0xC3; size])));
    };
    for (functions, operands) in OPERANDS {
        for &function in *functions {
            for &(operand, inside) in *operands {
                let request = Request {
                    operand,
                    ..right(function)
                };
                let size = size(request);
                add(inside, request, 256, size);
                add(false, request, 256, size + 1);
                if size > 0 {
                    add(false, request, 256, size - 1);
                    add(false, request, 256, 0);
                }
            }
        }
    }
    for request in FUNCTIONS.map(right) {
        for station in [0, 1, 2, 127, 128, 247, 248, 255] {
            let request = Request { station, ..request };
            add(station > 0, request, 256, size(request));
        }
        for start in [0, 1, 4095, 32768, 65535] {
            add(true, Request { start, ..request }, 256, size(request));
        }
        for room in [0, 8, 169, 254, 255, 256, 257, 511, 512] {
            add(room > 255, request, room, size(request));
        }
    }
    found
}

#[cfg(test)]
mod tests {
    use super::*;
    use crate::lists::{self, tests::are_answered_so};

    #[test]
    fn both_sides_of_each_limit() {
        are_answered_so(lists::of_entries(BUILDS));
        are_answered_so(limits().into_iter());
    }
}
