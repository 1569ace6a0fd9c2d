//! Document 01's answer table from both sides, its "Both sides of each edge", and its slips.

use crate::check_word::seal;
use crate::lists::{hex_text, Entry, Group};

/// Lines 1 to 4: what is lent and set. The frame is right unless a comment says otherwise.
#[rustfmt::skip]
pub const LENT: &[Entry] = &[
    // Line 1: own address 0, 1, 255.
    ("refused 1||kept|", "0 m r|0 16 w|16 0 0|256 170 0|00 03 00 00 00 01 *"),
    ("reply|01 03 02 00 00 *|kept|", "1 m r|0 16 w|16 0 0|256 170 0|01 03 00 00 00 01 *"),
    ("reply|FF 03 02 00 00 *|kept|", "255 m r|0 16 w|16 0 0|256 170 0|FF 03 00 00 00 01 *"),
    ("silent 12||kept|", "255 m r|0 16 w|16 0 0|256 170 0|FE 03 00 00 00 01 *"),
    ("silent 12||kept|", "1 m r|0 16 w|16 0 0|256 170 0|00 06 00 00 00 01 *"),
    // Line 2: images of 0, 1, 4,095 and 4,096 words.
    ("refused 2||kept|", "20 m r||0 0 0|256 170 0|14 03 00 00 00 01 *"),
    ("exception 2|14 83 02 *|kept|", "20 m r||1 0 0|256 170 0|14 03 00 00 00 01 *"),
    ("reply|14 03 02 00 09 *|kept|", "20 m r|0 1 r|1 9 0|256 170 0|14 03 00 00 00 01 *"),
    ("exception 2", "20 m r|0 1 r|1 9 0|256 170 0|14 03 00 01 00 01 *"),
    ("exception 2", "20 m r|0 1 r|1 9 0|256 170 0|14 03 00 00 00 02 *"),
    ("reply|14 03 02 0F FE *|kept|", "20 m r|0 4095 w|4095 0 1|256 170 0|14 03 0F FE 00 01 *"),
    ("exception 2", "20 m r|0 4095 w|4095 0 1|256 170 0|14 03 0F FF 00 01 *"),
    ("exception 2", "20 m r|0 4095 w|4095 0 1|256 170 0|14 03 0F FE 00 02 *"),
    ("reply|14 06 0F FE 00 01 *|kept|4094 1", "20 m r|0 4095 w|4095 0 1|256 170 0|14 06 0F FE 00 01 *"),
    ("reply|14 05 FF EF FF 00 *|kept|4094 32768", "20 m r|4094 1 w|4095 0 0|256 170 0|14 05 FF EF FF 00 *"),
    ("exception 2", "20 m r|4094 1 w|4095 0 0|256 170 0|14 05 FF F0 FF 00 *"),
    ("reply|14 05 FF F0 FF 00 *|kept|4094 32768", "20 j r|4094 1 w|4095 0 0|256 170 0|14 05 FF F0 FF 00 *"),
    ("exception 2", "20 j r|4094 1 w|4095 0 0|256 170 0|14 05 FF F1 FF 00 *"),
    ("exception 2", "20 m r|0 4095 w|4095 0 0|256 170 0|14 01 FF FF 01 00 *"),
    ("reply|14 01 20 00^32 *|kept|", "20 m r|0 4095 w|4095 0 0|256 170 0|14 01 FE F0 01 00 *"),
    ("exception 2", "20 m r|0 4095 w|4095 0 0|256 170 0|14 01 FE F1 01 00 *"),
    ("refused 2||kept|", "20 m r|0 4095 w|4096 0 1|256 170 0|14 03 0F FE 00 01 *"),
    ("refused 2", "20 m r|0 4096 w|4096 0 1|256 170 0|14 03 00 00 00 01 *"),
    ("refused 2", "20 m r|0 1 w|4097 0 1|256 170 0|14 03 00 00 00 01 *"),
    ("refused 2", "20 m r|0 1 w|8192 0 1|256 170 0|14 03 00 00 00 01 *"),
    // Line 3: a count of 0, at the start, at the end, between.
    ("reply", "20 m r|0 1 w|16 0 0|256 170 0|14 03 00 00 00 01 *"),
    ("refused 3||kept|", "20 m r|0 0 w|16 0 0|256 170 0|14 03 00 00 00 01 *"),
    ("refused 3", "20 m r|0 1 w,16 0 r|16 0 0|256 170 0|14 03 00 00 00 01 *"),
    ("refused 3", "20 m r|0 1 w,1 0 w,1 1 w|16 0 0|256 170 0|14 03 00 00 00 01 *"),
    ("refused 3", "20 m r|0 1 w,15 0 r|16 0 0|256 170 0|14 03 00 00 00 01 *"),
    // Line 3: ending at the image's end, and one past it.
    ("reply", "20 m r|0 16 w|16 0 0|256 170 0|14 03 00 00 00 01 *"),
    ("refused 3", "20 m r|0 17 w|16 0 0|256 170 0|14 03 00 00 00 01 *"),
    ("reply", "20 m r|0 1 w,15 1 r|16 0 0|256 170 0|14 03 00 0F 00 01 *"),
    ("refused 3", "20 m r|0 1 w,15 2 r|16 0 0|256 170 0|14 03 00 0F 00 01 *"),
    ("refused 3", "20 m r|0 1 w,16 1 r|16 0 0|256 170 0|14 03 00 00 00 01 *"),
    ("reply", "20 m r|4094 1 w|4095 0 0|256 170 0|14 03 0F FE 00 01 *"),
    ("refused 3", "20 m r|4094 2 w|4095 0 0|256 170 0|14 03 0F FE 00 01 *"),
    ("refused 3", "20 m r|4095 1 w|4095 0 0|256 170 0|14 03 0F FE 00 01 *"),
    // Line 3: touching, a hole of one, overlapping by one, one inside another, the same twice.
    ("reply", "20 m r|0 8 w,8 8 r|16 0 0|256 170 0|14 03 00 07 00 02 *"),
    ("exception 2", "20 m r|0 7 w,8 8 r|16 0 0|256 170 0|14 03 00 06 00 03 *"),
    ("refused 3", "20 m r|0 9 w,8 8 r|16 0 0|256 170 0|14 03 00 07 00 02 *"),
    ("refused 3", "20 m r|0 8 w,2 2 r|16 0 0|256 170 0|14 03 00 00 00 01 *"),
    ("refused 3", "20 m r|0 8 w,0 8 w|16 0 0|256 170 0|14 03 00 00 00 01 *"),
    ("refused 3", "20 m r|0 8 w,8 1 r,4 1 w|16 0 0|256 170 0|14 03 00 00 00 01 *"),
    // Line 3: descending, touching and not.
    ("refused 3", "20 m r|8 8 r,0 8 w|16 0 0|256 170 0|14 03 00 00 00 01 *"),
    ("refused 3", "20 m r|0 1 w,8 2 r,5 2 w|16 0 0|256 170 0|14 03 00 00 00 01 *"),
    // Line 3: 0, 16, 17 and 18 areas, 17 with each other refusal, and a rule broken by the sixteenth only.
    ("exception 2", "20 m r||17 0 0|256 170 0|14 03 00 00 00 01 *"),
    ("reply", "20 m r|0 1 w,1 1 w,2 1 w,3 1 w,4 1 w,5 1 w,6 1 w,7 1 w,8 1 w,9 1 w,10 1 w,11 1 w,12 1 w,13 1 w,14 1 w,15 1 w|17 0 0|256 170 0|14 03 00 00 00 10 *"),
    ("exception 2", "20 m r|0 1 w,1 1 w,2 1 w,3 1 w,4 1 w,5 1 w,6 1 w,7 1 w,8 1 w,9 1 w,10 1 w,11 1 w,12 1 w,13 1 w,14 1 w,15 1 w|17 0 0|256 170 0|14 03 00 00 00 11 *"),
    ("refused 3||kept|", "20 m r|0 1 w,1 1 w,2 1 w,3 1 w,4 1 w,5 1 w,6 1 w,7 1 w,8 1 w,9 1 w,10 1 w,11 1 w,12 1 w,13 1 w,14 1 w,15 1 w,16 1 w|17 0 0|256 170 0|14 03 00 00 00 10 *"),
    ("refused 3||kept|", "20 m r|0 1 w,1 1 w,2 1 w,3 1 w,4 1 w,5 1 w,6 1 w,7 1 w,8 1 w,9 1 w,10 1 w,11 1 w,12 1 w,13 1 w,14 1 w,15 1 w,16 1 w,17 1 w|18 0 0|256 170 0|14 03 00 00 00 10 *"),
    ("refused 2||kept|", "20 m r|0 1 w,1 1 w,2 1 w,3 1 w,4 1 w,5 1 w,6 1 w,7 1 w,8 1 w,9 1 w,10 1 w,11 1 w,12 1 w,13 1 w,14 1 w,15 1 w,16 1 w|0 0 0|256 170 0|14 03 00 00 00 10 *"),
    ("refused 1||kept|", "0 m r|0 1 w,1 1 w,2 1 w,3 1 w,4 1 w,5 1 w,6 1 w,7 1 w,8 1 w,9 1 w,10 1 w,11 1 w,12 1 w,13 1 w,14 1 w,15 1 w,16 1 w|17 0 0|256 170 0|14 03 00 00 00 10 *"),
    ("refused 3||kept|", "20 m r|0 1 w,1 1 w,2 1 w,3 1 w,4 1 w,5 1 w,6 1 w,7 1 w,8 1 w,9 1 w,10 1 w,11 1 w,12 1 w,13 1 w,14 1 w,15 1 w,16 1 w|17 0 0|255 170 0|14 03 00 00 00 10 *"),
    ("refused 3", "20 m r|0 1 w,1 1 w,2 1 w,3 1 w,4 1 w,5 1 w,6 1 w,7 1 w,8 1 w,9 1 w,10 1 w,11 1 w,12 1 w,13 1 w,14 1 w,15 0 w|17 0 0|256 170 0|14 03 00 00 00 10 *"),
    ("refused 3", "20 m r|0 1 w,1 1 w,2 1 w,3 1 w,4 1 w,5 1 w,6 1 w,7 1 w,8 1 w,9 1 w,10 1 w,11 1 w,12 1 w,13 1 w,14 1 w,13 1 w|17 0 0|256 170 0|14 03 00 00 00 10 *"),
    // Line 3: first + count past 16 bits.
    ("refused 3", "20 m r|1 65535 w|16 0 0|256 170 0|14 03 00 00 00 01 *"),
    ("refused 3", "20 m r|8 65528 w|16 0 0|256 170 0|14 03 00 08 00 01 *"),
    ("refused 3", "20 m r|8 65530 w|16 0 0|256 170 0|14 03 00 08 00 01 *"),
    ("refused 3", "20 m r|65535 1 w|16 0 0|256 170 0|14 03 00 00 00 01 *"),
    ("refused 3", "20 m r|65535 2 w|16 0 0|256 170 0|14 03 00 00 00 01 *"),
    ("refused 3", "20 m r|0 8 w,8 65535 r|16 0 0|256 170 0|14 03 00 00 00 01 *"),
    ("refused 3", "20 m r|65535 65535 w|4095 0 0|256 170 0|14 03 00 00 00 01 *"),
    ("refused 3", "20 m r|4000 61536 w,0 1 w|4095 0 0|256 170 0|14 03 00 00 00 01 *"),
    // Line 4: buffers under 256 bytes, of 256, and over.
    ("refused 4||kept|", "20 m r|0 16 w|16 0 0|0 170 0|14 03 00 00 00 01 *"),
    ("refused 4", "20 m r|0 16 w|16 0 0|7 170 0|14 03 00 00 00 01 *"),
    ("refused 4||kept|", "20 m r|0 16 w|16 0 0|255 0 1|14 06 00 00 00 01 *"),
    ("reply|14 06 00 00 00 01 *|kept|0 1", "20 m r|0 16 w|16 0 0|256 0 1|14 06 00 00 00 01 *"),
    ("reply", "20 m r|0 16 w|16 0 0|257 255 255|14 03 00 00 00 10 *"),
    ("reply", "20 m r|0 16 w|16 0 0|512 65535 65535|14 03 00 00 00 10 *"),
    // Two adjacent lines apply at once: the upper decides.
    ("refused 1", "0 m r||0 0 0|256 170 0|00 03 00 00 00 01 *"),
    ("refused 2", "20 m r|0 1 w|0 0 0|256 170 0|14 03 00 00 00 01 *"),
    ("refused 2", "20 m r|0 0 w|4096 0 0|256 170 0|14 03 00 00 00 01 *"),
    ("refused 3", "20 m r|0 0 w|16 0 0|255 170 0|14 03 00 00 00 01 *"),
    ("refused 4", "20 m r|0 16 w|16 0 0|255 170 0|"),
    ("silent 10", "20 m r|0 16 w|16 0 0|256 170 0|"),
    ("silent 11", "20 m k|0 16 w|16 0 0|256 170 0|15 03 00 00 00 01 00 00"),
    ("silent 12", "20 m k|0 16 w|16 0 0|256 170 0|15 03 00 00 00 01 *"),
    ("silent 12", "20 m n|0 16 w|16 0 0|256 170 0|15 03 00 00 00 01 *"),
    ("silent 13", "20 m k|0 16 w|16 0 0|256 170 0|14 07 *"),
    ("exception 4|14 87 04 *|kept|", "20 m n|0 16 w|16 0 0|256 170 0|14 07 *"),
    ("exception 4|14 83 04 *|kept|", "20 m n|0 16 w|16 0 0|256 170 0|14 03 *"),
    ("exception 4|14 83 04 *|kept|", "20 m n|0 16 w|16 0 0|256 170 0|14 03 00 00 00 00 *"),
    ("exception 4|14 86 04 *|kept|", "20 m n|0 16 r|16 0 0|256 170 0|14 06 00 00 00 01 *"),
    ("silent 13||kept|", "20 m k|0 16 w|16 0 0|256 170 0|14 06 00 00 00 01 *"),
];

/// Lines 10 to E8, by frames alone.
#[rustfmt::skip]
pub const FRAMES: &[Group] = &[
    ("20 m r|0 8 w,8 8 r|16 0 0,1 1000,2 500|256 170 0", &[
        // Line 10: frames of 0 to 4, 255 to 257 and 300 bytes, their check words right.
        ("silent 10||kept|", ""),
        ("silent 10", "14"),
        ("silent 10", "FF FF"),
        ("silent 10", "14 *"),
        ("silent 14||kept|", "14 03 *"),
        ("exception 1|14 87 01 *|kept|", "14 07 *"),
        ("exception 1|14 83 01 *|kept|", "14 83 *"),
        ("exception 1|14 FF 01 *|kept|", "14 FF *"),
        ("exception 1|14 80 01 *|kept|", "14 00 *"),
        ("silent 14", "14 03 00 *"),
        ("silent 12", "00 00 *"),
        ("silent 11", "00 00 00 00"),
        ("silent 11", "FF FF FF FF"),
        ("exception 1", "14 07 00^251 *"),
        ("exception 1", "14 07 00^252 *"),
        ("silent 10||kept|", "14 07 00^253 *"),
        ("silent 10", "14 07 00^296 *"),
        ("silent 10", "14 07 00^252 00 00 00"),
        ("silent 10", "15 07 00"),
        ("silent 14", "14 03 00^251 *"),
        ("silent 14", "14 03 00^252 *"),
        ("exception 3|14 90 03 *|kept|", "14 10 00 00 00 50 F7 00^247 *"),
        ("exception 3|14 8F 03 *|kept|", "14 0F 00 00 01 00 F7 FF^247 *"),
        ("silent 14", "14 10 00 00 00 50 F6 00^247 *"),
        ("silent 14", "14 10 00 00 00 50 F8 00^247 *"),
        ("silent 10", "14 10 00 00 00 50 F8 00^248 *"),
        // Line 11: each byte of the check word off, both swapped, and one for another's frame.
        ("reply|14 03 04 03 E8 01 F4 3E 95|kept|", "14 03 00 01 00 02 97 0E"),
        ("silent 11||kept|", "14 03 00 01 00 02 97 0F"),
        ("silent 11", "14 03 00 01 00 02 96 0E"),
        ("silent 11", "14 03 00 01 00 02 0E 97"),
        ("silent 11", "14 03 00 01 00 03 97 0E"),
        ("silent 11", "14 83 00 00"),
        // Slip: the address looked at before the check word.
        ("silent 11", "15 03 00 01 00 02 97 0E"),
        ("silent 11", "00 03 00 01 00 02 97 0E"),
        // Line 12: a neighbour's address, and 0.
        ("silent 12||kept|", "15 03 00 01 00 02 *"),
        ("silent 12", "13 03 00 01 00 02 *"),
        ("silent 12", "00 06 00 01 00 02 *"),
        ("silent 12", "94 03 00 01 00 02 *"),
        // Line 12 and E1, 14 and 15 at once.
        ("silent 12", "15 07 *"),
        ("silent 12", "15 03 *"),
        ("silent 12", "15 03 00 01 00 00 *"),
        // Line 14: 7 and 9 bytes where 8 are right.
        ("silent 14", "14 01 00 01 00 *"),
        ("reply", "14 01 00 01 00 01 *"),
        ("silent 14", "14 01 00 01 00 01 00 *"),
        ("silent 14", "14 02 00 01 00 *"),
        ("reply", "14 02 00 01 00 01 *"),
        ("silent 14", "14 02 00 01 00 01 00 *"),
        ("silent 14", "14 03 00 01 00 *"),
        ("reply", "14 03 00 01 00 01 *"),
        ("silent 14", "14 03 00 01 00 01 00 *"),
        ("silent 14", "14 04 00 01 00 *"),
        ("reply", "14 04 00 01 00 01 *"),
        ("silent 14", "14 04 00 01 00 01 00 *"),
        ("silent 14", "14 05 00 01 FF *"),
        ("reply", "14 05 00 01 FF 00 *"),
        ("silent 14||kept|", "14 05 00 01 FF 00 00 *"),
        ("silent 14", "14 06 00 01 00 *"),
        ("reply", "14 06 00 01 00 01 *"),
        ("silent 14||kept|", "14 06 00 01 00 01 00 *"),
        // Line 14: a byte less and a byte more than the byte count says; no byte count at all.
        ("silent 14", "14 0F 00 01 00 09 02 FF *"),
        ("reply|14 0F 00 01 00 09 *|kept|0 1022", "14 0F 00 01 00 09 02 FF FF *"),
        ("silent 14||kept|", "14 0F 00 01 00 09 02 FF FF FF *"),
        ("silent 14", "14 10 00 01 00 01 02 FF *"),
        ("reply|14 10 00 01 00 01 *|kept|1 65535", "14 10 00 01 00 01 02 FF FF *"),
        ("silent 14||kept|", "14 10 00 01 00 01 02 FF FF FF *"),
        ("silent 14", "14 0F *"),
        ("silent 14", "14 10 00 01 *"),
        ("silent 14", "14 0F 00 01 00 01 *"),
        ("silent 14", "14 10 00 01 00 01 *"),
        ("silent 14", "14 0F 00 01 00 01 01 *"),
        // Lines 14 and 15, 14 and E3, 14 and E2 at once.
        ("silent 14", "14 03 00 01 00 00 00 *"),
        ("silent 14", "14 10 00 01 00 00 01 *"),
        ("silent 14", "14 03 00 01 00 51 00 *"),
        ("silent 14", "14 05 00 01 FF 01 00 *"),
        ("silent 14", "14 10 00 01 00 02 02 00 00 00 00 *"),
        ("silent 14", "14 03 00 10 00 01 00 *"),
        // Line 15: quantity 0, each function that has one; a value of 0 is none.
        ("silent 15||kept|", "14 01 00 01 00 00 *"),
        ("silent 15", "14 02 00 01 00 00 *"),
        ("silent 15", "14 03 00 01 00 00 *"),
        ("silent 15", "14 04 00 01 00 00 *"),
        ("silent 15", "14 0F 00 01 00 00 00 *"),
        ("silent 15", "14 10 00 01 00 00 00 *"),
        ("reply|14 05 00 18 00 00 *|kept|1 744", "14 05 00 18 00 00 *"),
        ("reply|14 06 00 01 00 00 *|kept|1 0", "14 06 00 01 00 00 *"),
        // Lines 15 and E3, 15 and E2 at once.
        ("silent 15", "14 0F 00 01 00 00 01 FF *"),
        ("silent 15", "14 10 00 01 00 00 02 00 00 *"),
        ("silent 15", "14 03 00 10 00 00 *"),
        ("silent 15", "14 10 00 08 00 00 00 *"),
        // E3: 256 bits are read and 257 are not; 2 to the 16 counts nowhere round.
        ("reply|14 01 20 00 00 E8 03 F4 01 00^26 *|kept|", "14 01 00 00 01 00 *"),
        ("exception 3|14 81 03 *|kept|", "14 01 00 00 01 01 *"),
        ("reply|14 02 20 00 00 E8 03 F4 01 00^26 *|kept|", "14 02 00 00 01 00 *"),
        ("exception 3|14 82 03 *|kept|", "14 02 00 00 01 01 *"),
        ("reply|14 01 20 00 00 E8 03 F4 01 00^26 *|kept|", "14 01 00 00 00 FF *"),
        ("exception 3", "14 01 00 00 80 00 *"),
        ("exception 3", "14 01 00 00 FF FF *"),
        ("exception 3", "14 03 00 00 01 00 *"),
        ("exception 3", "14 03 00 00 01 01 *"),
        ("exception 3", "14 04 00 00 FF FF *"),
        // E3: the byte count one off, each way, for bits and for words.
        ("reply|14 0F 00 00 00 08 *|kept|0 255", "14 0F 00 00 00 08 01 FF *"),
        ("exception 3|14 8F 03 *|kept|", "14 0F 00 00 00 08 02 FF FF *"),
        ("exception 3", "14 0F 00 00 00 09 01 FF *"),
        ("exception 3", "14 0F 00 00 00 08 00 *"),
        ("reply|14 0F 00 00 00 10 *|kept|0 65535", "14 0F 00 00 00 10 02 FF FF *"),
        ("exception 3", "14 0F 00 00 00 11 02 FF FF *"),
        ("exception 3", "14 10 00 01 00 02 03 00 00 00 *"),
        ("exception 3", "14 10 00 01 00 02 05 00 00 00 00 00 *"),
        ("exception 3", "14 10 00 01 00 01 01 00 *"),
        ("exception 3", "14 10 00 01 00 01 03 00 00 00 *"),
        ("exception 3", "14 10 00 01 00 02 02 00 00 *"),
        // E3: a quantity whose byte count would fit if it were cut to a byte.
        ("exception 3", "14 10 00 01 00 81 02 00 00 *"),
        ("exception 3", "14 10 00 01 80 01 02 00 00 *"),
        ("exception 3", "14 0F 00 01 08 01 01 00 *"),
        ("exception 3", "14 0F 00 01 08 08 01 00 *"),
        // E3: bit values next to FF00 and 0000.
        ("exception 3|14 85 03 *|kept|", "14 05 00 18 FF 01 *"),
        ("exception 3", "14 05 00 18 FE FF *"),
        ("exception 3", "14 05 00 18 FE 00 *"),
        ("exception 3", "14 05 00 18 00 01 *"),
        ("exception 3", "14 05 00 18 01 00 *"),
        ("exception 3", "14 05 00 18 00 FF *"),
        ("exception 3", "14 05 00 18 FF FF *"),
        ("exception 3", "14 05 00 18 80 00 *"),
        // E3 and E2, E3 and E8 at once.
        ("exception 3", "14 03 00 10 00 51 *"),
        ("exception 3", "14 01 01 00 01 01 *"),
        ("exception 3", "14 05 01 00 FF 01 *"),
        ("exception 3", "14 05 00 80 FF 01 *"),
        ("exception 3", "14 10 00 08 00 01 01 00 *"),
        // E2: the last word and bit, and the one past it; the top of the numbers.
        ("reply", "14 03 00 0F 00 01 *"),
        ("exception 2|14 83 02 *|kept|", "14 03 00 10 00 01 *"),
        ("exception 2", "14 03 00 0F 00 02 *"),
        ("reply", "14 01 00 FF 00 01 *"),
        ("exception 2|14 81 02 *|kept|", "14 01 01 00 00 01 *"),
        ("exception 2", "14 01 00 FF 00 02 *"),
        ("reply", "14 01 00 F0 00 10 *"),
        ("exception 2", "14 01 00 F0 00 11 *"),
        ("exception 2", "14 02 00 01 01 00 *"),
        ("exception 2", "14 03 FF FF 00 01 *"),
        ("exception 2", "14 03 FF FF 00 02 *"),
        ("exception 2", "14 04 FF FF 00 03 *"),
        ("exception 2", "14 01 FF FF 00 01 *"),
        ("exception 2", "14 01 FF FF 00 02 *"),
        ("exception 2", "14 01 FF FF 00 12 *"),
        ("exception 2", "14 06 10 00 00 01 *"),
        ("exception 2", "14 06 10 01 00 01 *"),
        ("exception 2|14 86 02 *|kept|", "14 06 FF FF 00 01 *"),
        ("exception 2|14 85 02 *|kept|", "14 05 FF FF FF 00 *"),
        ("exception 2|14 90 02 *|kept|", "14 10 FF FF 00 02 04 00 01 00 02 *"),
        ("exception 2|14 8F 02 *|kept|", "14 0F FF FF 00 02 01 03 *"),
        ("exception 2", "14 03 00 00 00 50 *"),
        ("exception 3", "14 03 00 00 00 51 *"),
        // E2 and E8 at once: a write from a read-only word to beyond the image.
        ("exception 2|14 90 02 *|kept|", "14 10 00 0F 00 02 04 00 01 00 02 *"),
        ("exception 2", "14 0F 00 FF 00 02 01 03 *"),
        // E8: the last read-write word and bit, and the first read-only ones.
        ("reply|14 06 00 07 00 01 *|kept|7 1", "14 06 00 07 00 01 *"),
        ("exception 8|14 86 08 52 62|kept|", "14 06 00 08 00 01 *"),
        ("reply|14 05 00 7F FF 00 *|kept|7 32768", "14 05 00 7F FF 00 *"),
        ("exception 8|14 85 08 *|kept|", "14 05 00 80 FF 00 *"),
        ("exception 8", "14 05 00 80 00 00 *"),
        ("reply|14 0F 00 7C 00 04 *|kept|7 61440", "14 0F 00 7C 00 04 01 FF *"),
        ("exception 8|14 8F 08 *|kept|", "14 0F 00 7C 00 05 01 FF *"),
        ("reply|14 10 00 06 00 02 *|kept|6 258,7 772", "14 10 00 06 00 02 04 01 02 03 04 *"),
        // Words 7 and 8 are read together; written together, E8, and word 7 keeps its value (a slip).
        ("reply|14 03 04 00 00 00 00 *|kept|", "14 03 00 07 00 02 *"),
        ("reply|14 04 04 00 00 00 00 *|kept|", "14 04 00 07 00 02 *"),
        ("exception 8|14 90 08 *|kept|", "14 10 00 07 00 02 04 01 02 03 04 *"),
        ("reply|14 01 02 00 00 *|kept|", "14 01 00 78 00 10 *"),
        ("exception 8|14 8F 08 *|kept|", "14 0F 00 78 00 10 02 FF FF *"),
        ("exception 8", "14 10 00 00 00 09 12 01^18 *"),
        // P: three bits from bit 24 of 1000 give 03; bit 24 off turns 1000 into 744.
        ("reply|14 01 01 03 *|kept|", "14 01 00 18 00 03 *"),
        ("reply|14 05 00 18 00 00 4F 08|kept|1 744", "14 05 00 18 00 00 4F 08"),
        ("reply|14 05 00 17 00 00 *|kept|1 872", "14 05 00 17 00 00 *"),
    ]),
    // E3: 80 words and 81, in an image that has them, with room behind; 256 bits and 257, written.
    ("20 m r|0 200 w|200 258 257|256 170 0", &[
        ("reply", "14 03 00 00 00 50 *"),
        ("exception 3|14 83 03 *|kept|", "14 03 00 00 00 51 *"),
        ("reply", "14 04 00 78 00 50 *"),
        ("exception 2", "14 04 00 79 00 50 *"),
        ("exception 3|14 84 03 *|kept|", "14 04 00 00 00 51 *"),
        ("reply", "14 10 00 00 00 50 A0 FF^160 *"),
        ("exception 3|14 90 03 *|kept|", "14 10 00 00 00 51 A2 FF^162 *"),
        ("reply", "14 0F 00 03 01 00 20 00^32 *"),
        ("exception 3|14 8F 03 *|kept|", "14 0F 00 03 01 01 21 00^33 *"),
        ("reply", "14 0F 00 03 00 FF 20 00^32 *"),
        ("reply", "14 01 00 03 01 00 *"),
        ("exception 3", "14 01 00 03 01 01 *"),
    ]),
    // E2: J-Bus start 0, each function; start 1 is address 0 (P). Echoed starts are as received.
    ("20 j r|0 8 w,8 8 r|16 0 0,0 4660,15 43981|256 170 0", &[
        ("exception 2|14 81 02 *|kept|", "14 01 00 00 00 01 *"),
        ("exception 2|14 82 02 *|kept|", "14 02 00 00 00 01 *"),
        ("exception 2|14 83 02 *|kept|", "14 03 00 00 00 01 *"),
        ("exception 2|14 84 02 *|kept|", "14 04 00 00 00 01 *"),
        ("exception 2|14 85 02 *|kept|", "14 05 00 00 FF 00 *"),
        ("exception 2|14 86 02 *|kept|", "14 06 00 00 00 01 *"),
        ("exception 2|14 8F 02 *|kept|", "14 0F 00 00 00 01 01 01 *"),
        ("exception 2|14 90 02 *|kept|", "14 10 00 00 00 01 02 00 01 *"),
        ("reply|14 01 01 04 *|kept|", "14 01 00 01 00 03 *"),
        ("reply|14 02 01 04 *|kept|", "14 02 00 01 00 03 *"),
        ("reply|14 03 02 12 34 *|kept|", "14 03 00 01 00 01 *"),
        ("reply|14 04 02 12 34 *|kept|", "14 04 00 01 00 01 *"),
        ("reply|14 05 00 01 FF 00 *|kept|0 4661", "14 05 00 01 FF 00 *"),
        ("reply|14 06 00 01 00 01 *|kept|0 1", "14 06 00 01 00 01 *"),
        ("reply|14 0F 00 01 00 01 *|kept|0 4661", "14 0F 00 01 00 01 01 01 *"),
        ("reply|14 10 00 01 00 01 *|kept|0 1", "14 10 00 01 00 01 02 00 01 *"),
        ("reply|14 03 02 AB CD *|kept|", "14 03 00 10 00 01 *"),
        ("exception 2", "14 03 00 11 00 01 *"),
        ("reply|14 01 01 01 *|kept|", "14 01 01 00 00 01 *"),
        ("exception 2", "14 01 01 01 00 01 *"),
        ("reply|14 06 00 08 00 01 *|kept|7 1", "14 06 00 08 00 01 *"),
        ("exception 8", "14 06 00 09 00 01 *"),
        ("exception 2", "14 03 FF FF 00 02 *"),
        // J-Bus start 0 together with lines 14, 15 and E3.
        ("silent 14", "14 03 00 00 00 01 00 *"),
        ("silent 15", "14 03 00 00 00 00 *"),
        ("exception 3", "14 03 00 00 00 51 *"),
        ("exception 3", "14 05 00 00 FF 01 *"),
    ]),
    ("20 j r|0 8 r,8 8 w|16 0 0|256 170 0", &[
        ("exception 2", "14 06 00 00 00 01 *"),
        ("exception 8", "14 06 00 01 00 01 *"),
    ]),
    // P: bit 0E91 hex is word 00E9 hex, bit 1.
    ("1 m r|233 1 w|234 0 0|256 170 0", &[
        ("reply|01 05 0E 91 FF 00 *|kept|233 2", "01 05 0E 91 FF 00 *"),
        ("exception 2", "01 05 0E 8F FF 00 *"),
        ("exception 2", "01 05 0E A0 FF 00 *"),
    ]),
    // Slip: only the first and the last word tested, with a hole between; all but word 2 is there.
    ("20 m r|0 2 w,3 2 w|5 65535 0|256 170 0", &[
        ("exception 2", "14 03 00 00 00 05 *"),
        ("exception 2", "14 03 00 01 00 03 *"),
        ("reply", "14 03 00 00 00 02 *"),
        ("reply", "14 03 00 03 00 02 *"),
        ("exception 2", "14 01 00 1F 00 12 *"),
        ("exception 2|14 90 02 *|kept|", "14 10 00 00 00 05 0A 00^10 *"),
        ("exception 2|14 8F 02 *|kept|", "14 0F 00 1F 00 12 03 00^3 *"),
        ("exception 2|14 90 02 *|kept|", "14 10 00 01 00 02 04 00^4 *"),
        ("reply|14 10 00 03 00 02 *|kept|3 0,4 0", "14 10 00 03 00 02 04 00^4 *"),
    ]),
    // Slip: a request refused because it runs across areas that touch; a read-only one between.
    ("20 m r|1 1 w,2 1 w,3 2 w,5 1 r,6 1 w|8 0 0|256 170 0", &[
        ("reply|14 03 0C 00^12 *|kept|", "14 03 00 01 00 06 *"),
        ("reply|14 10 00 01 00 04 *|kept|1 257,2 257,3 257,4 257", "14 10 00 01 00 04 08 01^8 *"),
        ("exception 8|14 90 08 *|kept|", "14 10 00 04 00 03 06 01^6 *"),
        ("exception 8|14 8F 08 *|kept|", "14 0F 00 4F 00 12 03 FF^3 *"),
        ("exception 2", "14 03 00 01 00 07 *"),
        ("exception 2", "14 03 00 00 00 02 *"),
        ("reply|14 06 00 06 00 01 *|kept|6 1", "14 06 00 06 00 01 *"),
    ]),
    // Slips: bits counted from the high end; all eight bits of a last byte that carries three.
    ("20 m r|0 4 w|4 65535 0,3 1|256 170 0", &[
        ("reply|14 05 00 00 00 00 *|kept|0 65534", "14 05 00 00 00 00 *"),
        ("reply|14 05 00 0F 00 00 *|kept|0 32767", "14 05 00 0F 00 00 *"),
        ("reply|14 01 01 01 *|kept|", "14 01 00 30 00 08 *"),
        ("reply|14 01 02 01 00 *|kept|", "14 01 00 30 00 10 *"),
        ("reply|14 01 01 07 *|kept|", "14 01 00 00 00 03 *"),
        ("reply|14 0F 00 00 00 03 *|kept|0 65528", "14 0F 00 00 00 03 01 00 *"),
        ("reply|14 0F 00 00 00 03 *|kept|0 65528", "14 0F 00 00 00 03 01 F8 *"),
        ("reply|14 0F 00 00 00 03 *|kept|", "14 0F 00 00 00 03 01 07 *"),
        ("reply|14 0F 00 08 00 0B *|kept|0 255,1 65528", "14 0F 00 08 00 0B 02 00 00 *"),
        ("reply|14 0F 00 0F 00 12 *|kept|0 32767,1 0,2 65534", "14 0F 00 0F 00 12 03 00^3 *"),
        ("reply|14 06 00 03 01 02 *|kept|3 258", "14 06 00 03 01 02 *"),
        ("reply|14 06 00 02 FF FF *|kept|", "14 06 00 02 FF FF *"),
    ]),
];

/// The same 8 bytes with every function: eight are in the table, the others give E1.
pub fn every_function() -> impl Iterator<Item = String> {
    (0..=255).map(|function| {
        let mut frame = vec![20, function, 0, 1, 0, 1];
        seal(&mut frame);
        line(
            "20",
            "r",
            "0 8 w,8 8 r",
            "16 0 0,1 1000,2 500",
            "256",
            &frame,
        )
    })
}

fn line(own: &str, state: &str, areas: &str, image: &str, buffer: &str, frame: &[u8]) -> String {
    let frame = hex_text(frame);
    format!("{own} m {state}|{areas}|{image}|{buffer} 170 0|{frame}")
}

/// A right request to write bits, in parts that can each be made wrong.
struct Parts {
    own: &'static str,
    state: &'static str,
    areas: &'static str,
    image: &'static str,
    buffer: &'static str,
    address: u8,
    function: u8,
    start: u8,
    quantity: u8,
    count: u8,
    more: usize,
    flip: u8,
}

type Wrong = (&'static str, fn(&mut Parts));

/// For each line of the answer table, what makes it apply.
#[rustfmt::skip]
const WRONGS: [Wrong; 15] = [
    ("refused 1",   |p| p.own = "0"),
    ("refused 2",   |p| p.image = "4096 65535 0"),
    ("refused 3",   |p| p.areas = "0 4 w,3 3 r"),
    ("refused 4",   |p| p.buffer = "255"),
    ("silent 10",   |p| p.more += 256),
    ("silent 11",   |p| p.flip = 1),
    ("silent 12",   |p| p.address = 21),
    ("silent 13",   |p| p.state = "k"),
    ("exception 4", |p| p.state = "n"),
    ("exception 1", |p| p.function = 0x0E),
    ("silent 14",   |p| p.more += 1),
    ("silent 15",   |p| p.quantity = 0),
    ("exception 3", |p| p.count += 1),
    ("exception 2", |p| p.start = 16 * 6),
    ("exception 8", |p| p.start = 16 * 4),
];

/// Every line of the table alone, and what makes each two apply, where both can: then the upper decides.
/// These two cannot, or not in this way: 13 and E4; 15 and E2 or E8; E2 and E8; E1 and a line below it.
pub fn pairs() -> Vec<(&'static str, String)> {
    let mut found = Vec::new();
    for (upper, (given, wrong)) in WRONGS.iter().enumerate() {
        for (lower, (_, other)) in WRONGS.iter().enumerate().skip(upper) {
            let mut parts = Parts {
                own: "20",
                state: "r",
                areas: "0 4 w,4 2 r",
                image: "8 65535 0",
                buffer: "256",
                address: 20,
                function: 0x0F,
                start: 0,
                quantity: 9,
                count: 2,
                more: 0,
                flip: 0,
            };
            other(&mut parts);
            if lower != upper {
                wrong(&mut parts);
            }
            let Parts {
                address,
                function,
                start,
                quantity,
                count,
                ..
            } = parts;
            let mut frame = vec![address, function, 0, start, 0, quantity, count];
            frame.resize(7 + usize::from(count) + parts.more, 0);
            seal(&mut frame);
            frame[0] ^= parts.flip;
            let Parts {
                own,
                state,
                areas,
                image,
                buffer,
                ..
            } = parts;
            found.push((*given, line(own, state, areas, image, buffer, &frame)));
        }
    }
    found
}

#[cfg(test)]
mod tests {
    use super::*;
    use crate::lists::{self, tests::are_answered_so};

    #[test]
    fn both_sides_of_each_edge() {
        are_answered_so(lists::of_entries(LENT));
        are_answered_so(lists::of_groups(FRAMES));
        are_answered_so(pairs().into_iter());
    }

    #[test]
    fn functions_outside_the_table() {
        let given = (0u8..=255).map(|function| match function {
            0x01..=0x04 | 0x06 => "reply",
            0x05 => "exception 3",
            0x0F | 0x10 => "silent 14",
            _ => "exception 1",
        });
        are_answered_so(given.zip(every_function()));
    }
}
