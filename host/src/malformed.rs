//! Bad lines of each kind, and good ones that only just are, for the grammar of docs/CASES.md.

/// A good line of each kind, in two parts: zeros may stand before the second.
const GOOD: [(&str, &str); 4] = [
    (
        "",
        "20 m r|0 8 w,8 8 r|16 0 0,1 1000,2 500|256 170 0|14 03 00 01 00 02 97 0E",
    ),
    ("build|", "20 16 1 2|256 170 0|12 34 56 78"),
    ("read|", "20 3 1 2|256 170 0|14 03 04 03 E8 01 F4 3E 95"),
    (
        "exchange|",
        "20 15 24 3|20 m r|0 8 w,8 8 r|16 0 0,1 1000|256 170 0|07",
    ),
];

#[rustfmt::skip]
const BAD: &[&str] = &[
    "", " ", "|", "||||", "|||||", "bad line", "20", "20 m r",
    // Station.
    "256 m r||1 0 0|256 0 0|", "65536 m r||1 0 0|256 0 0|", "-1 m r||1 0 0|256 0 0|", "+1 m r||1 0 0|256 0 0|",
    "276 m r||1 0 0|256 0 0|", "0x14 m r||1 0 0|256 0 0|", "1.0 m r||1 0 0|256 0 0|", "m r||1 0 0|256 0 0|",
    "20 M r||1 0 0|256 0 0|", "20 m R||1 0 0|256 0 0|", "20 b r||1 0 0|256 0 0|", "20 m w||1 0 0|256 0 0|",
    "20 mm r||1 0 0|256 0 0|", "20 m rr||1 0 0|256 0 0|", "20 m||1 0 0|256 0 0|", "20 m ||1 0 0|256 0 0|",
    "20  m r||1 0 0|256 0 0|", " 20 m r||1 0 0|256 0 0|", "20 m r ||1 0 0|256 0 0|", "20 m r 0||1 0 0|256 0 0|",
    "20\tm r||1 0 0|256 0 0|", "20,m,r||1 0 0|256 0 0|", "20mr||1 0 0|256 0 0|", "||1 0 0|256 0 0|",
    // Areas.
    "20 m r| |1 0 0|256 0 0|", "20 m r|,|1 0 0|256 0 0|", "20 m r|0 1 w,|1 0 0|256 0 0|", "20 m r|,0 1 w|1 0 0|256 0 0|",
    "20 m r|0 1 w,,0 1 w|1 0 0|256 0 0|", "20 m r|0 1 w, 0 1 w|1 0 0|256 0 0|", "20 m r|0 1|1 0 0|256 0 0|",
    "20 m r|0 1 x|1 0 0|256 0 0|", "20 m r|0 1 W|1 0 0|256 0 0|", "20 m r|0 1 rw|1 0 0|256 0 0|", "20 m r|0 1 w w|1 0 0|256 0 0|",
    "20 m r|0  1 w|1 0 0|256 0 0|", "20 m r|65536 1 w|1 0 0|256 0 0|", "20 m r|0 65536 w|1 0 0|256 0 0|", "20 m r|0 -1 w|1 0 0|256 0 0|",
    "20 m r|w|1 0 0|256 0 0|", "20 m r|0 1 w;0 1 w|1 0 0|256 0 0|", "20 m r|0 99999999999999999999 w|1 0 0|256 0 0|",
    // Image.
    "20 m r|||256 0 0|", "20 m r||1|256 0 0|", "20 m r||1 0|256 0 0|", "20 m r||1 0 0 0|256 0 0|", "20 m r||8193 0 0|256 0 0|",
    "20 m r||65536 0 0|256 0 0|", "20 m r||1 65536 0|256 0 0|", "20 m r||1 0 65536|256 0 0|", "20 m r||1 0 0,|256 0 0|",
    "20 m r||1 0 0,0|256 0 0|", "20 m r||1 0 0,1 0|256 0 0|", "20 m r||0 0 0,0 0|256 0 0|", "20 m r||1 0 0,0 65536|256 0 0|",
    "20 m r||1 0 0,0 1 2|256 0 0|", "20 m r||1 0 0, 0 1|256 0 0|", "20 m r||1 0 0 ,0 1|256 0 0|", "20 m r||,0 1|256 0 0|",
    "20 m r||8192 0 0,8192 1|256 0 0|", "20 m r||0x1 0 0|256 0 0|", "20 m r||1 0 0,65536 0|256 0 0|",
    // Reply buffer.
    "20 m r||1 0 0||", "20 m r||1 0 0|256|", "20 m r||1 0 0|256 0|", "20 m r||1 0 0|256 0 0 0|", "20 m r||1 0 0|513 0 0|",
    "20 m r||1 0 0|256 65536 0|", "20 m r||1 0 0|256 0 65536|", "20 m r||1 0 0|65536 0 0|", "20 m r||1 0 0| 256 0 0|",
    "20 m r||1 0 0|256 0 0 |", "20 m r||1 0 0|256 0 0,0 1|", "20 m r||1 0 0|-256 0 0|",
    // Frame, and too many parts.
    "20 m r||1 0 0|256 0 0| ", "20 m r||1 0 0|256 0 0|1", "20 m r||1 0 0|256 0 0|144", "20 m r||1 0 0|256 0 0|14 ",
    "20 m r||1 0 0|256 0 0| 14", "20 m r||1 0 0|256 0 0|14  03", "20 m r||1 0 0|256 0 0|1403", "20 m r||1 0 0|256 0 0|14,03",
    "20 m r||1 0 0|256 0 0|0g", "20 m r||1 0 0|256 0 0|0G", "20 m r||1 0 0|256 0 0|+1", "20 m r||1 0 0|256 0 0|-1",
    "20 m r||1 0 0|256 0 0|14\t03", "20 m r||1 0 0|256 0 0|14 03\r", "20 m r||1 0 0|256 0 0|\r", "20 m r||1 0 0|256 0 0|14 0\0",
    "20 m r||1 0 0|256 0 0|\0", "20 m r||1 0 0|256 0 0|14 03|", "20 m r||1 0 0|256 0 0|14 03|00", "20 m r||1 0 0|256 0 0",
    // The words of the other kinds.
    "build", "read", "exchange", "build|", "read||", "exchange|||||||", "built|20 3 1 2|256 0 0|", "Build|20 3 1 2|256 0 0|",
    "BUILD|20 3 1 2|256 0 0|", "buil|20 3 1 2|256 0 0|", " build|20 3 1 2|256 0 0|", "build |20 3 1 2|256 0 0|",
    "build 20 3 1 2|256 0 0|", "|build|20 3 1 2|256 0 0|", "build||20 3 1 2|256 0 0|", "READ|20 3 1 2|256 0 0|",
    "call|20 m r||1 0 0|256 0 0|", "slave|20 m r||1 0 0|256 0 0|", "build|20 m r||1 0 0|256 0 0|", "read|20 m r||1 0 0|256 0 0|",
    "exchange|20 m r||1 0 0|256 0 0|", "exchange|20 3 1 2|256 0 0|", "build|20 3 1 2|20 m r||1 0 0|256 0 0|",
    "read|20 3 1 2|20 m r||1 0 0|256 0 0|", "build|read|20 3 1 2|256 0 0|", "exchange|20 m r||1 0 0|256 0 0|20 3 1 2|",
    // Fields of a request.
    "build|256 3 1 2|256 0 0|", "read|276 3 1 2|256 0 0|", "build|65536 3 1 2|256 0 0|", "build|-1 3 1 2|256 0 0|",
    "build|20 0 1 2|256 0 0|", "build|20 7 1 2|256 0 0|", "build|20 8 1 2|256 0 0|", "read|20 14 1 2|256 0 0|",
    "build|20 17 1 2|256 0 0|", "read|20 131 1 2|256 0 0|", "exchange|20 7 1 2|20 m r||1 0 0|256 0 0|", "build|20 257 1 2|256 0 0|",
    "build|20 259 1 2|256 0 0|", "build|20 65539 1 2|256 0 0|", "build|20 0F 1 2|256 0 0|00", "build|20 0x03 1 2|256 0 0|",
    "build|20 3 65536 2|256 0 0|", "build|20 3 1 65536|256 0 0|", "build|20 5 1 FF00|256 0 0|", "build|20 3 1|256 0 0|",
    "build|20 3 1 2 3|256 0 0|", "build|20 3 1 |256 0 0|", "build| 20 3 1 2|256 0 0|", "build|20  3 1 2|256 0 0|",
    "build|20 3 1 2 |256 0 0|", "build|20,3,1,2|256 0 0|", "build|20\t3 1 2|256 0 0|", "build|3 1 2|256 0 0|", "build||256 0 0|",
    "exchange|20 3 1|20 m r||1 0 0|256 0 0|", "exchange||20 m r||1 0 0|256 0 0|", "exchange|20 3 1 2||20 m r||1 0 0|256 0 0|",
    // Their lent buffers, data and replies.
    "build|20 3 1 2|513 0 0|", "build|20 3 1 2|256 0|", "build|20 3 1 2|256 0 0 0|", "build|20 3 1 2||", "read|20 3 1 2|513 0 0|",
    "read|20 3 1 2|256 65536 0|", "read|20 3 1 2|256 0 65536|", "read|20 3 1 2|256 0 0,0 1|", "build|20 3 1 2|256 0 0",
    "build|20 3 1 2|256 0 0| ", "build|20 3 1 2|256 0 0|1", "build|20 3 1 2|256 0 0|14 ", "build|20 3 1 2|256 0 0|0g",
    "build|20 3 1 2|256 0 0|14|", "build|20 3 1 2|256 0 0|14|00", "read|20 3 1 2|256 0 0|14  03", "read|20 3 1 2|256 0 0|14 03\r",
    "read|20 3 1 2|256 0 0||", "exchange|20 3 1 2|20 m r||1 0 0|513 0 0|", "exchange|20 3 1 2|20 m r||8193 0 0|256 0 0|",
    "exchange|20 3 1 2|256 m r||1 0 0|256 0 0|", "exchange|20 3 1 2|20 m r||1 0 0|256 0 0", "exchange|20 3 1 2|20 m r||1 0 0|256 0 0|1",
    "exchange|20 3 1 2|20 m r||1 0 0|256 0 0|14|", "exchange|20 3 1 2|20 m r||1 0 0|256 0 0|14|256 0 0|",
    "exchange|20 3 1 2|20 m r|0 1 x|1 0 0|256 0 0|", "exchange|20 3 1 2|20 m r||1 0 0,1 1|256 0 0|",
];

/// Just inside what the bad ones are outside of.
#[rustfmt::skip]
const STILL_GOOD: &[&str] = &[
    "20 m r||1 0 0|256 0 0|", "0 m r||0 0 0|0 0 0|", "255 j k||8192 65535 65535,8191 65535|512 65535 65535|ff",
    "00020 m n|000 008 w,0008 00008 r|0016 00 000,00001 01000|00256 00170 00|14 03 00 01 00 02 97 0e",
    "20 m r|65535 65535 r|1 0 0|256 0 0|14 03 00 00 00 01 Aa bB", "20 m r||1 0 0,0 1,0 2,0 3|256 0 0|14 03",
    "20 m r|0 1 w|1 0 0,0 1,0 2,0 3|256 0 0|14 03 00 00 00 01 87 0F",
    "build|0 1 0 0|0 0 0|", "read|255 16 65535 65535|512 65535 65535|ff", "build|00020 0016 001 00002|00256 00170 00|aB Cd 00 01",
    "read|020 03 01 02|0256 0170 00|14 03 04 03 e8 01 f4 3e 95", "exchange|0 1 0 0|0 m r||0 0 0|0 0 0|",
    "exchange|255 6 65535 65535|255 j k||8192 65535 65535,8191 65535|512 65535 65535|ff",
];

/// A good line with zeros before its first number until it has that many characters.
fn long((word, rest): (&str, &str), characters: usize) -> String {
    let zeros = "0".repeat(characters - word.len() - rest.len());
    format!("{word}{zeros}{rest}")
}

/// A good line whose last part has that many bytes.
fn with_bytes((word, rest): (&str, &str), bytes: usize) -> String {
    let (head, _) = rest.rsplit_once('|').unwrap_or(("", rest));
    format!("{word}{head}|{}", vec!["00"; bytes].join(" "))
}

/// A good line cut at each place, without the character there and with it twice, and with other bytes at
/// its ends.
fn around(good: &[u8], found: &mut Vec<Vec<u8>>) {
    for place in 0..good.len() {
        let (before, behind) = good.split_at(place);
        found.push(before.to_vec());
        found.push([before, &behind[1..]].concat());
        found.push([before, &behind[..1], behind].concat());
    }
    for byte in (0x80..=0xFF).chain([0x00, 0x09, 0x0B, 0x0C, 0x0D, 0x7F]) {
        found.push([good, &[byte]].concat());
        found.push([&[byte], good].concat());
    }
}

/// All of them, as bytes: some are not text.
pub fn lines() -> Vec<Vec<u8>> {
    let mut found: Vec<Vec<u8>> = Vec::new();
    found.extend(
        BAD.iter()
            .chain(STILL_GOOD)
            .map(|line| line.as_bytes().to_vec()),
    );
    found.extend([9000, 70_000].map(|length| long(GOOD[0], length).into_bytes()));
    let areas = vec!["0 1 r"; 650].join(",");
    found.push(format!("20 m r|{areas}|1 0 0|256 0 0|").into_bytes());
    for good in GOOD {
        found.extend([4095, 4096, 4097].map(|length| long(good, length).into_bytes()));
        found.extend([299, 300, 301].map(|bytes| with_bytes(good, bytes).into_bytes()));
        around(&[good.0, good.1].concat().into_bytes(), &mut found);
    }
    found
}

#[cfg(test)]
mod tests {
    use super::*;
    use crate::cases::Cases;

    #[test]
    fn bad_and_good_lines() {
        let mut cases = Cases::default();
        let mut good = |line: &str| cases.read(line.as_bytes()).is_some();
        for line in BAD {
            assert!(!good(line), "{line}");
        }
        for line in STILL_GOOD {
            assert!(good(line), "{line}");
        }
        for kind in GOOD {
            assert!(good(&long(kind, 4096)) && !good(&long(kind, 4097)));
            assert!(good(&with_bytes(kind, 300)) && !good(&with_bytes(kind, 301)));
        }
    }
}
