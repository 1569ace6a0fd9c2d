//! Exchanges, by document 02, §1: what the slave answers to a built request is always accepted, and
//! means what the image held.

use crate::builds;
use crate::drawn::FUNCTIONS;
use crate::lists::{self, asked, fields, hex_text, Group};
use crate::master::Request;
use crate::published;

/// By all parts of the answer. What stands behind the head is the data.
#[rustfmt::skip]
pub const EXCHANGES: &[Group] = &[
    // The bench's station: each function, and each exception that a built request can meet.
    ("exchange|20 1 24 3|20 m r|0 8 w,8 8 r|16 0 0,1 1000,2 500|256 170 0", &[
        ("frame|14 01 00 18 00 03 *|kept|reply|14 01 01 03 *|kept||data|03|kept", ""),
        ("refused 70||kept", "00"),
    ]),
    ("exchange|20 2 16 21|20 m r|0 8 w,8 8 r|16 0 0,1 1000,2 500|256 170 0", &[
        ("frame|14 02 00 10 00 15 *|kept|reply|14 02 03 E8 03 14 *|kept||data|E8 03 14|kept", ""),
    ]),
    ("exchange|20 3 1 2|20 m r|0 8 w,8 8 r|16 0 0,1 1000,2 500|256 170 0", &[
        ("frame|14 03 00 01 00 02 97 0E|kept|reply|14 03 04 03 E8 01 F4 3E 95|kept||data|03 E8 01 F4|kept", ""),
    ]),
    ("exchange|20 4 7 2|20 m r|0 8 w,8 8 r|16 0 0,1 1000,2 500|256 170 0", &[
        ("frame|14 04 00 07 00 02 *|kept|reply|14 04 04 00 00 00 00 *|kept||data|00 00 00 00|kept", ""),
    ]),
    ("exchange|20 5 24 0|20 m r|0 8 w,8 8 r|16 0 0,1 1000,2 500|256 170 0", &[
        ("frame|14 05 00 18 00 00 4F 08|kept|reply|14 05 00 18 00 00 4F 08|kept|1 744|written||kept", ""),
    ]),
    ("exchange|20 6 8 1|20 m r|0 8 w,8 8 r|16 0 0,1 1000,2 500|256 170 0", &[
        ("frame|14 06 00 08 00 01 CB 0D|kept|exception 8|14 86 08 52 62|kept||exception 8||kept", ""),
    ]),
    ("exchange|20 15 0 11|20 m r|0 8 w,8 8 r|16 0 0,1 1000,2 500|256 170 0", &[
        ("frame|14 0F 00 00 00 0B 02 FF 07 *|kept|reply|14 0F 00 00 00 0B *|kept|0 2047|written||kept", "FF FF"),
        ("refused 70||kept", "FF"),
        ("refused 70||kept", "FF FF FF"),
    ]),
    ("exchange|20 16 6 2|20 m r|0 8 w,8 8 r|16 0 0,1 1000,2 500|256 170 0", &[
        ("frame|14 10 00 06 00 02 04 01 02 03 04 *|kept|reply|14 10 00 06 00 02 *|kept|6 258,7 772|written||kept", "01 02 03 04"),
    ]),
    ("exchange|20 16 7 2|20 m r|0 8 w,8 8 r|16 0 0,1 1000,2 500|256 170 0", &[
        ("frame|14 10 00 07 00 02 04 01 02 03 04 *|kept|exception 8|14 90 08 *|kept||exception 8||kept", "01 02 03 04"),
    ]),
    ("exchange|20 3 15 2|20 m r|0 8 w,8 8 r|16 0 0,1 1000,2 500|256 170 0", &[
        ("frame|14 03 00 0F 00 02 *|kept|exception 2|14 83 02 *|kept||exception 2||kept", ""),
    ]),
    ("exchange|20 3 1 2|20 m n|0 8 w,8 8 r|16 0 0,1 1000,2 500|256 170 0", &[
        ("frame|14 03 00 01 00 02 97 0E|kept|exception 4|14 83 04 *|kept||exception 4||kept", ""),
    ]),
    // Nothing is sent, so nothing is read.
    ("exchange|20 3 1 2|20 m k|0 8 w,8 8 r|16 0 0,1 1000,2 500|256 170 0", &[
        ("frame|14 03 00 01 00 02 97 0E|kept|silent 13||kept|", ""),
    ]),
    ("exchange|21 6 1 2|20 m r|0 8 w,8 8 r|16 0 0,1 1000,2 500|256 170 0", &[
        ("frame|15 06 00 01 00 02 *|kept|silent 12||kept|", ""),
    ]),
    ("exchange|20 3 1 2|20 m r|0 8 w,8 8 r|16 0 0,1 1000,2 500|255 170 0", &[
        ("frame|14 03 00 01 00 02 97 0E|kept|refused 4||kept|", ""),
    ]),
    // Station 0 is not asked, and never answers.
    ("exchange|0 6 1 2|20 m r|0 8 w,8 8 r|16 0 0,1 1000,2 500|256 170 0", &[("refused 70||kept", "")]),
    ("exchange|0 6 1 2|0 m r|0 8 w,8 8 r|16 0 0,1 1000,2 500|256 170 0", &[("refused 70||kept", "")]),
    ("exchange|1 6 1 2|0 m r|0 8 w,8 8 r|16 0 0,1 1000,2 500|256 170 0", &[
        ("frame|01 06 00 01 00 02 *|kept|refused 1||kept|", ""),
    ]),
    // J-Bus: the start as on the line, both ways.
    ("exchange|255 3 2 2|255 j r|0 8 w,8 8 r|16 0 0,1 1000,2 500|256 170 0", &[
        ("frame|FF 03 00 02 00 02 *|kept|reply|FF 03 04 03 E8 01 F4 *|kept||data|03 E8 01 F4|kept", ""),
    ]),
    ("exchange|20 5 25 0|20 j r|0 8 w,8 8 r|16 0 0,1 1000,2 500|256 170 0", &[
        ("frame|14 05 00 19 00 00 *|kept|reply|14 05 00 19 00 00 *|kept|1 744|written||kept", ""),
    ]),
    ("exchange|20 6 0 1|20 j r|0 8 w,8 8 r|16 0 0,1 1000,2 500|256 170 0", &[
        ("frame|14 06 00 00 00 01 *|kept|exception 2|14 86 02 *|kept||exception 2||kept", ""),
    ]),
    // The most, and one over; the top of the numbers.
    ("exchange|20 4 0 80|20 m r|0 200 w|200 43690 0|256 170 0", &[
        ("frame|14 04 00 00 00 50 *|kept|reply|14 04 A0 AA^160 *|kept||data|AA^160|kept", ""),
    ]),
    ("exchange|20 4 0 81|20 m r|0 200 w|200 43690 0|256 170 0", &[("refused 70||kept", "")]),
    ("exchange|20 1 3 256|20 m r|0 200 w|200 65535 0|256 170 0", &[
        ("frame|14 01 00 03 01 00 *|kept|reply|14 01 20 FF^32 *|kept||data|FF^32|kept", ""),
    ]),
    ("exchange|20 2 3 255|20 m r|0 200 w|200 65535 0|256 170 0", &[
        ("frame|14 02 00 03 00 FF *|kept|reply|14 02 20 FF^31 7F *|kept||data|FF^31 7F|kept", ""),
    ]),
    ("exchange|20 1 3 257|20 m r|0 200 w|200 65535 0|256 170 0", &[("refused 70||kept", "")]),
    ("exchange|20 15 0 32|20 m r|0 200 w|200 65535 0,198 7|256 170 0", &[
        ("frame|14 0F 00 00 00 20 04 00^4 *|kept|reply|14 0F 00 00 00 20 *|kept|0 0,1 0|written||kept", "00^4"),
    ]),
    ("exchange|20 5 65519 65280|20 m r|4094 1 w|4095 0 0|256 170 0", &[
        ("frame|14 05 FF EF FF 00 *|kept|reply|14 05 FF EF FF 00 *|kept|4094 32768|written||kept", ""),
    ]),
    ("exchange|20 16 65535 2|20 m r|0 4095 w|4095 0 0|256 170 0", &[
        ("frame|14 10 FF FF 00 02 04 00^4 *|kept|exception 2|14 90 02 *|kept||exception 2||kept", "00^4"),
    ]),
];

/// What the slave does with a built request, by its settings.
#[rustfmt::skip]
const SETTINGS: [(&str, &str); 10] = [
    ("refused 1",   "0 m r|0 8 w|8 21845 0|256 170 0"),
    ("refused 2",   "20 m r|0 8 w|4096 21845 0|256 170 0"),
    ("refused 3",   "20 m r|0 8 w,7 1 w|8 21845 0|256 170 0"),
    ("refused 4",   "20 m r|0 8 w|8 21845 0|255 170 0"),
    ("silent 12",   "21 m r|0 8 w|8 21845 0|256 170 0"),
    ("silent 13",   "20 m k|0 8 w|8 21845 0|256 170 0"),
    ("exception 4", "20 j n|0 8 w|8 21845 0|256 170 0"),
    ("exception 2", "20 m r|0 1 w,3 5 w|8 21845 0|256 170 0"),
    ("exception 8", "20 m r|0 8 r|8 21845 0|256 170 0"),
    ("reply",       "20 j r|0 8 w|8 21845 0|256 170 0"),
];

/// Each function under each of the settings; the outcome is given alone.
pub fn outcomes() -> Vec<(&'static str, String)> {
    let mut found = Vec::new();
    for function in FUNCTIONS {
        let (bits, data) = match function {
            0x0F => (true, "FF"),
            0x10 => (false, "12 34 56 78"),
            _ => (matches!(function, 0x01 | 0x02 | 0x05), ""),
        };
        let request = Request {
            start: if bits { 18 } else { 1 },
            operand: if function == 0x05 { 0xFF00 } else { 2 },
            ..builds::right(function)
        };
        for (outcome, settings) in SETTINGS {
            let given = match outcome {
                "exception 8" if request.reads() => "reply",
                _ => outcome,
            };
            let fields = fields(request);
            found.push((given, format!("exchange|{fields}|{settings}|{data}")));
        }
    }
    found
}

/// The published frames whose request can be built or is refused for its quantity: an exchange with the
/// slave that they were published for, the request built alone, and the reply read alone.
pub fn published() -> Vec<(String, String)> {
    let calls = lists::of_groups(published::MANUAL).chain(lists::of_entries(published::PUBLIC));
    calls
        .flat_map(|(given, call)| of_published(given, &call))
        .collect()
}

fn of_published(given: &str, call: &str) -> Vec<(String, String)> {
    let (settings, frame) = call.rsplit_once('|').unwrap_or(("", call));
    let bytes = lists::frame(frame);
    let Some((request, data)) = taken_apart(&bytes) else {
        return Vec::new();
    };
    let (fields, data_text) = (fields(request), hex_text(data));
    let exchange = format!("exchange|{fields}|{settings}|{data_text}");
    let build = asked("build", request, 256, data);
    if request.operand == 0 && !matches!(request.function, 0x05 | 0x06) {
        let refused = "refused 70||kept".to_string();
        return vec![(refused.clone(), exchange), (refused, build)];
    }
    let built = format!("frame|{frame}|kept");
    let reply = lists::frame(given.split('|').nth(1).unwrap_or(""));
    let told = match reply[1] {
        0x80.. => format!("exception {}||kept", reply[2]),
        0x01..=0x04 => format!("data|{}|kept", hex_text(&reply[3..reply.len() - 2])),
        _ => "written||kept".to_string(),
    };
    vec![
        (format!("{built}|{given}|{told}"), exchange),
        (built, build),
        (told, asked("read", request, 256, &reply)),
    ]
}

/// The fields and the data of a request of one of the eight functions.
fn taken_apart(frame: &[u8]) -> Option<(Request, &[u8])> {
    let (body, _) = frame.split_last_chunk::<2>()?;
    let (&[station, function, high, low, upper, lower], rest) = body.split_first_chunk()?;
    FUNCTIONS.contains(&function).then_some((
        Request {
            station,
            function,
            start: u16::from_be_bytes([high, low]),
            operand: u16::from_be_bytes([upper, lower]),
        },
        rest.get(1..).unwrap_or_default(),
    ))
}

#[cfg(test)]
mod tests {
    use super::*;
    use crate::lists::tests::{answer, are_answered_so};

    #[test]
    fn whole_answers() {
        for (given, line) in lists::of_groups(EXCHANGES) {
            let wanted: Vec<String> = given.split('|').map(lists::expanded).collect();
            assert_eq!(answer(&line), wanted.join("|"), "{line}");
        }
    }

    #[test]
    fn each_outcome_of_the_slave() {
        for (given, line) in outcomes() {
            let answer = answer(&line);
            let parts: Vec<&str> = answer.split('|').collect();
            assert_eq!([parts[0], parts[3]], ["frame", given], "{line}");
            let read = parts.get(7).copied();
            let function = line.split(' ').nth(1).and_then(|text| text.parse().ok());
            match given {
                "reply" if function < Some(5) => assert_eq!(read, Some("data"), "{line}"),
                "reply" => assert_eq!(read, Some("written"), "{line}"),
                _ if given.starts_with("exception") => assert_eq!(read, Some(given), "{line}"),
                _ => assert_eq!(read, None, "{line}"),
            }
        }
    }

    #[test]
    fn published_frames() {
        assert!(published().len() > 100);
        are_answered_so(published().into_iter());
    }
}
