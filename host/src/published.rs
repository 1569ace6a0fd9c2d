//! Frames published in document 004 and in the public MODBUS specifications, each for a station under
//! which the published reply comes out. What is odd in 004 is said at its place and sent both ways.

use crate::lists::{Entry, Group};

/// 004, with areas of its section 6 as far as the frames need them, or the bench's.
#[rustfmt::skip]
pub const MANUAL: &[Group] = &[
    // 2.6: quantity 0 is printed with reply code 1; by the same section there is none. 82 would give it.
    ("1 m r|0 47 r,47 50 r|97 0 0|256 170 0", &[
        ("silent 15", "01 02 00 00 00 00 *"),
        ("exception 1|01 82 01 *|kept|", "01 82 00 00 00 00 *"),
        ("reply|01 02 01 00 *|kept|", "01 02 00 00 00 01 *"),
        ("exception 2|01 82 02 *|kept|", "01 02 06 10 00 01 *"),
    ]),
    // 2.8, examples 1 and 2; section 6.1.1 has words 1 and 2 read-only and with other values.
    ("20 m r|0 8 w,8 8 r|16 0 0,1 1000,2 500|256 170 0", &[
        ("reply|14 03 04 03 E8 01 F4 3E 95|kept|", "14 03 00 01 00 02 97 0E"),
        ("reply|14 05 00 18 FF 00 0E F8|kept|", "14 05 00 18 FF 00 0E F8"),
    ]),
    ("20 m r|0 8 w,8 8 r|16 0 0,1 744,2 500|256 170 0", &[
        ("reply|14 05 00 18 FF 00 0E F8|kept|1 1000", "14 05 00 18 FF 00 0E F8"),
    ]),
    ("20 m r|0 47 r,47 50 r|97 0 0|256 170 0", &[
        ("exception 8|14 85 08 *|kept|", "14 05 00 18 FF 00 0E F8"),
    ]),
    // 3.1: the bits beyond the four asked for are set here, and answered with 0.
    ("10 m r|0 47 r,47 50 r|97 0 0,55 65535|256 170 0", &[
        ("reply|0A 01 01 0F *|kept|", "0A 01 03 70 00 04 *"),
        ("reply|0A 02 01 0F *|kept|", "0A 02 03 70 00 04 *"),
    ]),
    // 3.2: byte count printed 10 for six words; they have 0C. Eight words would have 10 hex, five 10.
    ("20 m r|0 47 r,47 50 r|97 0 0,49 6553,50 17224,51 19660,52 17224,53 9830,54 17302|256 170 0", &[
        ("reply|14 03 0C 19 99 43 48 4C CC 43 48 26 66 43 96 *|kept|", "14 03 00 31 00 06 *"),
        ("reply|14 03 10 19 99 43 48 4C CC 43 48 26 66 43 96 00 00 00 00 *|kept|", "14 03 00 31 00 08 *"),
        ("reply|14 03 0A 19 99 43 48 4C CC 43 48 26 66 *|kept|", "14 03 00 31 00 05 *"),
        ("reply|14 04 0C 19 99 43 48 4C CC 43 48 26 66 43 96 *|kept|", "14 04 00 31 00 06 *"),
    ]),
    // 3.3, 3.4, 3.6; 3.5: three status bits (1, 0, 1) in the text, two in the frame; both are sent.
    ("20 m r|47 50 r,117 20 w,157 56 w,233 6 w,249 8 w|257 0 0|256 170 0", &[
        ("reply|14 05 07 50 FF 00 *|kept|117 1", "14 05 07 50 FF 00 *"),
        ("reply|14 06 00 EB 00 01 *|kept|235 1", "14 06 00 EB 00 01 *"),
        ("reply|14 0F 07 50 00 02 *|kept|117 1", "14 0F 07 50 00 02 01 01 *"),
        ("reply|14 0F 07 50 00 03 *|kept|117 5", "14 0F 07 50 00 03 01 05 *"),
        ("reply|14 10 00 77 00 02 *|kept|119 16706,120 17152", "14 10 00 77 00 02 04 41 42 43 00 *"),
    ]),
    // 4.1, steps 1 to 4, with status bit 1 not set yet; then with it and the reserve flag set.
    ("1 m r|157 56 w,233 6 w,249 8 w|257 0 0|256 170 0", &[
        ("reply|01 06 00 E9 00 01 *|kept|233 1", "01 06 00 E9 00 01 *"),
        ("reply|01 01 01 00 *|kept|", "01 01 0E 91 00 01 *"),
        ("reply|01 03 02 00 00 *|kept|", "01 03 00 EA 00 01 *"),
    ]),
    ("1 m r|157 56 w,233 6 w,249 8 w|257 0 0,233 2,238 1|256 170 0", &[
        ("reply|01 01 01 01 *|kept|", "01 01 0E 91 00 01 *"),
        ("reply|01 03 02 00 01 *|kept|", "01 03 00 EE 00 01 *"),
    ]),
    ("1 m r|0 47 r,233 6 w,249 8 w|257 0 0|256 170 0", &[
        // 4.2, step 1: 0001 is written and 0005 printed as the echo; the echo is 0001. Then the frame of step 5.
        ("reply|01 06 00 F9 00 01 *|kept|249 1", "01 06 00 F9 00 01 *"),
        ("reply|01 06 00 F9 00 05 *|kept|249 5", "01 06 00 F9 00 05 *"),
        // 4.2, steps 2 and 3.
        ("reply|01 01 01 00 *|kept|", "01 01 0F 91 00 01 *"),
        ("reply|01 03 02 00 00 *|kept|", "01 03 00 FA 00 01 *"),
        // 4.2, step 4: the reply to function 10 is printed with 06; it has 10.
        ("reply|01 10 00 FB 00 02 *|kept|251 36700,252 16802", "01 10 00 FB 00 02 04 8F 5C 41 A2 *"),
        ("reply|01 06 00 FB 00 02 *|kept|251 2", "01 06 00 FB 00 02 *"),
        // 4.2, step 6: the word address 00F9 stands where bit address 0F91 is meant.
        ("reply|01 01 01 00 *|kept|", "01 01 00 F9 00 01 *"),
        // 4.2, step 7: two words are asked for and one printed as the reply; one is meant.
        ("reply|01 03 04 00 00 00 00 *|kept|", "01 03 00 FA 00 02 *"),
        // 4.3: both frames with the manual's own check words.
        ("reply|01 06 00 EB 00 01 38 3E|kept|235 1", "01 06 00 EB 00 01 38 3E"),
        ("reply|01 10 00 FB 00 02 *|kept|251 32768,252 17417", "01 10 00 FB 00 02 04 80 00 44 09 67 9E"),
    ]),
    // 4.2, steps 2 and 6 with status bit 1 set: as printed, step 6 looks at word 15, bit 9 instead.
    ("1 m r|0 47 r,233 6 w,249 8 w|257 0 0,249 2|256 170 0", &[
        ("reply|01 01 01 01 *|kept|", "01 01 0F 91 00 01 *"),
        ("reply|01 01 01 00 *|kept|", "01 01 00 F9 00 01 *"),
    ]),
    ("1 m r|0 47 r,233 6 w,249 8 w|257 0 0,15 512|256 170 0", &[
        ("reply|01 01 01 00 *|kept|", "01 01 0F 91 00 01 *"),
        ("reply|01 01 01 01 *|kept|", "01 01 00 F9 00 01 *"),
    ]),
    // 2.7: the same word and the same bit, counted from one.
    ("20 j r|0 8 w,8 8 r|16 0 0,1 1000,2 500|256 170 0", &[
        ("reply|14 03 04 03 E8 01 F4 3E 95|kept|", "14 03 00 02 00 02 *"),
        ("reply|14 05 00 19 00 00 *|kept|1 744", "14 05 00 19 00 00 *"),
    ]),
];

/// MODBUS Application Protocol V1.1b3, 6.1 to 6.6, 6.11, 6.12 and 7, with an address and a check word;
/// Serial Line V1.02, CRC example. Bits next to those asked for are set.
#[rustfmt::skip]
pub const PUBLIC: &[Entry] = &[
    ("reply|11 01 03 CD 6B 05 *|kept|", "17 m r|0 8 r|8 0 0,1 24175,2 65515|256 0 1|11 01 00 13 00 13 *"),
    ("reply|11 02 03 AC DB 35 *|kept|", "17 m r|12 2 r|14 0 0,12 47823,13 65373|256 0 1|11 02 00 C4 00 16 *"),
    ("reply|11 03 06 02 2B 00 00 00 64 *|kept|", "17 m r|107 3 w|110 0 0,107 555,109 100|256 0 1|11 03 00 6B 00 03 *"),
    ("reply|11 04 02 00 0A *|kept|", "17 m r|8 1 r|9 10 0|256 0 1|11 04 00 08 00 01 *"),
    ("reply|11 05 00 AC FF 00 *|kept|10 4096", "17 m r|10 1 w|11 0 0|256 0 1|11 05 00 AC FF 00 *"),
    ("reply|11 06 00 01 00 03 *|kept|1 3", "17 m r|1 1 w|2 0 0|256 0 1|11 06 00 01 00 03 *"),
    ("reply|11 0F 00 13 00 0A *|kept|1 3688", "17 m r|1 1 w|2 0 0|256 0 1|11 0F 00 13 00 0A 02 CD 01 *"),
    ("reply|11 0F 00 13 00 0A *|kept|1 61039", "17 m r|1 1 w|2 65535 0|256 0 1|11 0F 00 13 00 0A 02 CD 01 *"),
    ("reply|11 10 00 01 00 02 *|kept|1 10,2 258", "17 m r|1 2 w|3 0 0|256 0 1|11 10 00 01 00 02 04 00 0A 01 02 *"),
    ("exception 2|0A 81 02 *|kept|", "10 m r|0 74 r|74 0 0|256 0 1|0A 01 04 A1 00 01 *"),
    ("exception 1|02 87 01 *|kept|", "2 m r|0 1 w|1 0 0|256 0 1|02 07 41 12"),
];

#[cfg(test)]
mod tests {
    use super::*;
    use crate::lists::{self, tests::are_answered_so};

    #[test]
    fn published_replies() {
        are_answered_so(lists::of_groups(MANUAL));
        are_answered_so(lists::of_entries(PUBLIC));
    }
}
