//! Reading a reply, by document 02, §1: each way in which one does not fit its request, and what fits.

use crate::builds::{self, OPERANDS};
use crate::check_word::seal;
use crate::drawn::FUNCTIONS;
use crate::lists::{self, asked, Entry};
use crate::master::Request;

const FITS_NOT: &str = "refused 72||kept";
const DAMAGED: &str = "refused 71||kept";
const NOT_ASKED: &str = "refused 70||kept";

/// Replies of the manual beside their requests, as printed and as they should be, and others.
#[rustfmt::skip]
pub const READINGS: &[Entry] = &[
    // 004, 2.8: both with its check words.
    ("data|03 E8 01 F4|kept", "read|20 3 1 2|256 170 0|14 03 04 03 E8 01 F4 3E 95"),
    ("written||kept", "read|20 5 24 65280|256 170 0|14 05 00 18 FF 00 0E F8"),
    (FITS_NOT, "read|20 5 24 0|256 170 0|14 05 00 18 FF 00 0E F8"),
    // 2.6: a reply to quantity 0, which is not asked for, and the same code to quantity 1.
    (NOT_ASKED, "read|1 2 0 0|256 170 0|01 82 01 *"),
    ("exception 1||kept", "read|1 2 0 1|256 170 0|01 82 01 *"),
    ("exception 2||kept", "read|1 2 1552 1|256 170 0|01 82 02 *"),
    // 3.1 and 3.5: four bits, two bits.
    ("data|0F|kept", "read|10 1 880 4|256 170 0|0A 01 01 0F *"),
    (FITS_NOT, "read|10 1 880 4|256 170 0|0A 01 01 1F *"),
    ("written||kept", "read|20 15 1872 2|256 170 0|14 0F 07 50 00 02 *"),
    (FITS_NOT, "read|20 15 1872 3|256 170 0|14 0F 07 50 00 02 *"),
    // 3.2: byte count printed 10 for six words.
    (FITS_NOT, "read|20 3 49 6|256 170 0|14 03 10 19 99 43 48 4C CC 43 48 26 66 43 96 *"),
    (FITS_NOT, "read|20 3 49 6|256 170 0|14 03 0A 19 99 43 48 4C CC 43 48 26 66 43 96 *"),
    ("data|19 99 43 48 4C CC 43 48 26 66 43 96|kept",
        "read|20 3 49 6|256 170 0|14 03 0C 19 99 43 48 4C CC 43 48 26 66 43 96 *"),
    // 4.2: step 1 is printed with another value, step 4 with another function, step 7 with one word of two.
    (FITS_NOT, "read|1 6 249 1|256 170 0|01 06 00 F9 00 05 *"),
    ("written||kept", "read|1 6 249 1|256 170 0|01 06 00 F9 00 01 *"),
    (FITS_NOT, "read|1 16 251 2|256 170 0|01 06 00 FB 00 02 *"),
    ("written||kept", "read|1 16 251 2|256 170 0|01 10 00 FB 00 02 *"),
    (FITS_NOT, "read|1 3 250 2|256 170 0|01 03 02 00 00 *"),
    ("data|00 00|kept", "read|1 3 250 1|256 170 0|01 03 02 00 00 *"),
    // Application Protocol V1.1b3, 6.1 to 6.4 and 7.
    ("data|CD 6B 05|kept", "read|17 1 19 19|256 0 1|11 01 03 CD 6B 05 *"),
    (FITS_NOT, "read|17 1 19 18|256 0 1|11 01 03 CD 6B 05 *"),
    ("data|AC DB 35|kept", "read|17 2 196 22|256 0 1|11 02 03 AC DB 35 *"),
    ("data|02 2B 00 00 00 64|kept", "read|17 3 107 3|256 0 1|11 03 06 02 2B 00 00 00 64 *"),
    ("data|00 0A|kept", "read|17 4 8 1|256 0 1|11 04 02 00 0A *"),
    ("exception 2||kept", "read|10 1 1185 1|256 0 1|0A 81 02 *"),
    // The longest of both kinds, other backgrounds and longer buffers.
    ("data|55^160|kept", "read|20 3 1 80|256 170 0|14 03 A0 55^160 *"),
    ("data|55^160|kept", "read|20 4 1 80|512 0 1|14 04 A0 55^160 *"),
    ("data|FF^32|kept", "read|20 1 1 256|257 255 255|14 01 20 FF^32 *"),
    ("data|FF^31 7F|kept", "read|20 2 1 255|512 0 0|14 02 20 FF^31 7F *"),
    // Other replies with the length and the function of a right one.
    (FITS_NOT, "read|20 3 1 1|256 170 0|14 03 02 00 00 00 *"),
    (FITS_NOT, "read|20 3 1 2|256 170 0|14 03 00 01 00 02 *"),
    (FITS_NOT, "read|20 3 2 1|256 170 0|14 03 00 02 00 01 *"),
    (FITS_NOT, "read|20 3 1 2|256 170 0|14 03 00 *"),
    (FITS_NOT, "read|20 3 1 2|256 170 0|14 03 02 *"),
    (FITS_NOT, "read|20 3 1 2|256 170 0|14 83 04 03 E8 01 F4 *"),
    (FITS_NOT, "read|20 5 24 65280|256 170 0|14 05 02 FF 00 *"),
    (FITS_NOT, "read|20 6 24 2|256 170 0|14 86 00 18 00 02 *"),
    (FITS_NOT, "read|20 15 24 3|256 170 0|14 0F 00 18 00 03 01 05 *"),
    (FITS_NOT, "read|20 16 1 1|256 170 0|14 10 00 01 00 01 02 12 34 *"),
    // Replies of no sense: the check words of nothing and of zeros; long ones.
    (DAMAGED, "read|20 3 1 2|256 170 0|"),
    (DAMAGED, "read|20 3 1 2|256 170 0|FF FF"),
    (DAMAGED, "read|20 3 1 2|256 170 0|00 00 00 00 00"),
    (DAMAGED, "read|20 3 1 2|256 170 0|FF FF FF FF FF"),
    (FITS_NOT, "read|20 3 1 2|256 170 0|00 00 00 *"),
    (FITS_NOT, "read|20 3 1 2|256 170 0|14 03 04 03 E8 01 F4 * *"),
    (FITS_NOT, "read|20 3 1 2|256 170 0|14 03 04 03 E8 01 F4 * 14 03 04 03 E8 01 F4 *"),
    (FITS_NOT, "read|20 3 1 80|256 170 0|14 03 FB 00^251 *"),
    (FITS_NOT, "read|20 3 1 80|256 170 0|14 03 FC 00^252 *"),
    (FITS_NOT, "read|20 3 1 80|256 170 0|14 03 A0 00^295 *"),
];

/// A request, a reply to it that fits, without its check word, and what it is read as.
type Right = ([u16; 3], &'static str, &'static str);

/// Function, start, operand; all to station 20.
#[rustfmt::skip]
const RIGHT: [Right; 10] = [
    ([1, 24, 11], "14 01 02 E8 03", "data|E8 03|kept"),
    ([2, 24, 11], "14 02 02 E8 03", "data|E8 03|kept"),
    ([3, 1, 2], "14 03 04 03 E8 01 F4", "data|03 E8 01 F4|kept"),
    ([3, 1, 1], "14 03 02 03 E8", "data|03 E8|kept"),
    ([4, 1, 2], "14 04 04 03 E8 01 F4", "data|03 E8 01 F4|kept"),
    ([5, 24, 0xFF00], "14 05 00 18 FF 00", "written||kept"),
    ([5, 24, 0x0000], "14 05 00 18 00 00", "written||kept"),
    ([6, 8, 0x01FF], "14 06 00 08 01 FF", "written||kept"),
    ([15, 24, 11], "14 0F 00 18 00 0B", "written||kept"),
    ([16, 1, 2], "14 10 00 01 00 02", "written||kept"),
];

/// A change that leaves a reply, its check word made right again, not fitting the request.
type Wrong = fn(&mut Vec<u8>);

#[rustfmt::skip]
const OF_ANY: &[Wrong] = &[
    // Station: one more, one less, 0, another's.
    |b| b[0] += 1,
    |b| b[0] -= 1,
    |b| b[0] = 0,
    |b| b[0] |= 0x80,
    // The exception bit, and a function outside the table.
    |b| b[1] |= 0x80,
    |b| b[1] = 0x07,
    |b| b[1] = 0x00,
    // A byte more, a byte less, five bytes, two more.
    |b| b.push(0),
    |b| b.truncate(b.len() - 1),
    |b| b.truncate(3),
    |b| b.extend([0, 0]),
    // 255, 256, 257 and 300 bytes.
    |b| b.resize(253, 0),
    |b| b.resize(254, 0),
    |b| b.resize(255, 0),
    |b| b.resize(298, 0),
];

#[rustfmt::skip]
const OF_READS: &[Wrong] = &[
    // The byte count, the length right; both, right for each other; none.
    |b| b[2] += 1,
    |b| b[2] -= 1,
    |b| b[2] = 0,
    |b| b[2] |= 0x80,
    |b| { b[2] += 1; b.push(0) },
    |b| { b[2] -= 1; b.truncate(b.len() - 1) },
    |b| { b[2] += 2; b.extend([0, 0]) },
    |b| { b[2] -= 2; b.truncate(b.len() - 2) },
    |b| { b[2] = 0; b.truncate(3) },
    |b| { b[2] = 251; b.resize(254, 0) },
    |b| { b[2] = 252; b.resize(255, 0) },
    // An echo instead.
    |b| { b.truncate(2); b.extend([0, 24, 0, 11]) },
    |b| { b.truncate(2); b.extend([0, 1, 0, 2]) },
];

#[rustfmt::skip]
const OF_WRITES: &[Wrong] = &[
    // The start and what follows it: each byte one more, one less; the start's swapped; one for the other.
    |b| b[2] = b[2].wrapping_add(1),
    |b| b[2] = b[2].wrapping_sub(1),
    |b| b[3] = b[3].wrapping_add(1),
    |b| b[3] = b[3].wrapping_sub(1),
    |b| b[4] = b[4].wrapping_add(1),
    |b| b[4] = b[4].wrapping_sub(1),
    |b| b[5] = b[5].wrapping_add(1),
    |b| b[5] = b[5].wrapping_sub(1),
    |b| b.swap(2, 3),
    |b| { b.swap(2, 4); b.swap(3, 5) },
    // Data as in a reply to a read, or in the request.
    |b| { b.truncate(2); b.extend([2, 0, 0]) },
    |b| b.extend([2, 0, 0]),
];

fn request([function, start, operand]: [u16; 3]) -> Request {
    Request {
        station: 20,
        function: function as u8,
        start,
        operand,
    }
}

fn sealed(bytes: &[u8]) -> Vec<u8> {
    let mut frame = bytes.to_vec();
    seal(&mut frame);
    frame
}

/// Each right reply, and with it all that is wrong in one place; then under 5 bytes of it.
pub fn misfits() -> Vec<(&'static str, String)> {
    let mut found = Vec::new();
    for (fields, template, given) in RIGHT {
        let (request, body) = (request(fields), lists::frame(template));
        let mut add = |given, body: &[u8]| {
            found.push((given, asked("read", request, 256, &sealed(body))));
        };
        add(given, &body);
        let own = if request.reads() { OF_READS } else { OF_WRITES };
        for wrong in OF_ANY.iter().chain(own) {
            let mut other = body.clone();
            wrong(&mut other);
            add(FITS_NOT, &other);
        }
        for function in FUNCTIONS.into_iter().filter(|one| *one != request.function) {
            let mut other = body.clone();
            other[1] = function;
            add(FITS_NOT, &other);
            add(FITS_NOT, &[20, function | 0x80, 2]);
        }
        for left in 0..3 {
            add(DAMAGED, &body[..left]);
        }
        for left in 0..5 {
            let cut = &sealed(&body)[..left];
            found.push((DAMAGED, asked("read", request, 256, cut)));
        }
    }
    found
}

/// Exceptions: each code near the five, another station's, and other lengths.
pub fn exceptions() -> Vec<(&'static str, String)> {
    let mut found = Vec::new();
    for request in FUNCTIONS.map(builds::right) {
        let mut add = |given, body: &[u8]| {
            found.push((given, asked("read", request, 256, &sealed(body))));
        };
        let function = request.function | 0x80;
        for code in (0..=17).chain([127, 128, 129, 130, 136, 254, 255]) {
            let given = match code {
                1 => "exception 1||kept",
                2 => "exception 2||kept",
                3 => "exception 3||kept",
                4 => "exception 4||kept",
                8 => "exception 8||kept",
                _ => FITS_NOT,
            };
            add(given, &[20, function, code]);
        }
        add(FITS_NOT, &[21, function, 2]);
        add(FITS_NOT, &[0, function, 2]);
        add(FITS_NOT, &[20, request.function, 2]);
        add(FITS_NOT, &[20, 0x80, 2]);
        add(DAMAGED, &[20, function]);
        add(FITS_NOT, &[20, function, 2, 0]);
        add(FITS_NOT, &[20, function, 0, 2]);
        add(FITS_NOT, &[20, function, 2, 0, 24, 0, 11]);
    }
    found
}

/// Bits read with every number of spare bits: all of them 0, and each of them set alone.
pub fn spare_bits() -> Vec<(&'static str, String)> {
    let mut found = Vec::new();
    for function in [1, 2] {
        for quantity in (1..=16).chain([249, 254, 255, 256]) {
            let request = request([function, 24, quantity]);
            let count = quantity.div_ceil(8);
            let mut body = vec![20, function as u8, count as u8];
            let bit = |k: u16| u8::from(k < quantity) << (k % 8);
            body.extend((0..count).map(|byte| (0..8).map(|k| bit(byte * 8 + k)).sum::<u8>()));
            found.push(("data", asked("read", request, 256, &sealed(&body))));
            for k in quantity..count * 8 {
                let mut other = body.clone();
                other[3 + usize::from(k / 8)] |= 1 << (k % 8);
                found.push((FITS_NOT, asked("read", request, 256, &sealed(&other))));
            }
        }
    }
    found
}

/// A right reply to a request, as far as it can have one.
fn reply(request: Request) -> Vec<u8> {
    let mut body = vec![request.station, request.function];
    let quantity = usize::from(request.operand);
    let count = match request.function {
        1 | 2 => quantity.div_ceil(8),
        _ => quantity * 2,
    };
    if request.reads() {
        body.push(count as u8);
        body.resize(3 + count.min(295), 0);
    } else {
        body.extend(request.start.to_be_bytes());
        body.extend(request.operand.to_be_bytes());
    }
    sealed(&body)
}

/// What is checked of the request and the buffer, from both sides: operands, stations, buffers, starts.
pub fn limits() -> Vec<(&'static str, String)> {
    let mut found = Vec::new();
    let mut add = |inside: bool, request: Request, room: usize| {
        let given = match request.function {
            _ if !inside => NOT_ASKED,
            1..=4 => "data",
            _ => "written||kept",
        };
        found.push((given, asked("read", request, room, &reply(request))));
    };
    for (functions, operands) in OPERANDS {
        for &function in *functions {
            for &(operand, inside) in *operands {
                let right = builds::right(function);
                add(inside, Request { operand, ..right }, 256);
            }
        }
    }
    for request in FUNCTIONS.map(builds::right) {
        for station in [0, 1, 2, 127, 128, 247, 248, 255] {
            add(station > 0, Request { station, ..request }, 256);
        }
        for start in [0, 1, 4095, 32768, 65535] {
            add(true, Request { start, ..request }, 256);
        }
        for room in [0, 2, 165, 254, 255, 256, 257, 511, 512] {
            add(room > 255, request, room);
        }
    }
    found
}

/// The refusals alone and together, each function: the first of 70, 71 and 72 that applies decides.
pub fn orders() -> Vec<(&'static str, String)> {
    let mut found = Vec::new();
    let unasked: [fn(&mut Request, &mut usize); 4] = [
        |_, _| {},
        |request, _| request.station = 0,
        |request, _| request.operand = if request.function == 5 { 0xFF01 } else { 0 },
        |_, room| *room = 255,
    ];
    let unfit: [Wrong; 4] = [
        |_| {},
        |b| b[0] += 1,
        |b| b.push(0),
        |b| {
            b[1] |= 0x80;
            b.truncate(2);
            b.push(5)
        },
    ];
    let damage: [Wrong; 5] = [
        |_| {},
        |f| {
            let low = f.len() - 2;
            f[low] ^= 1
        },
        |f| {
            let high = f.len() - 1;
            f[high] ^= 0x80
        },
        |f| {
            let low = f.len() - 2;
            f.swap(low, low + 1)
        },
        |f| {
            f.truncate(2);
            seal(f)
        },
    ];
    for right in FUNCTIONS.map(builds::right) {
        let rights = reply(right);
        for (upper, unasked) in unasked.iter().enumerate() {
            for (middle, damage) in damage.iter().enumerate() {
                for (lower, unfit) in unfit.iter().enumerate() {
                    let (mut request, mut room) = (right, 256);
                    unasked(&mut request, &mut room);
                    let mut body = rights[..rights.len() - 2].to_vec();
                    unfit(&mut body);
                    seal(&mut body);
                    damage(&mut body);
                    let refused = upper > 0 && !(upper == 2 && right.function == 6);
                    let given = match (refused, middle, lower) {
                        (true, ..) => NOT_ASKED,
                        (_, 1.., _) => DAMAGED,
                        (_, _, 1..) => FITS_NOT,
                        // A word of 0 was asked for and another echoed.
                        _ if upper == 2 => FITS_NOT,
                        _ if right.reads() => "data",
                        _ => "written||kept",
                    };
                    found.push((given, asked("read", request, room, &body)));
                }
            }
        }
    }
    found
}

#[cfg(test)]
mod tests {
    use super::*;
    use crate::lists::tests::are_answered_so;

    #[test]
    fn what_fits_and_what_does_not() {
        are_answered_so(lists::of_entries(READINGS));
        are_answered_so(misfits().into_iter());
        are_answered_so(exceptions().into_iter());
        are_answered_so(spare_bits().into_iter());
    }

    #[test]
    fn what_may_be_asked() {
        are_answered_so(limits().into_iter());
        are_answered_so(orders().into_iter());
    }
}
