//! A master and a slave on one line, both through the wrapper: what the one builds the other answers, and
//! what comes back is read. It fails if an exchange ends otherwise than it should.

use montrakit::{build, read, respond, Built, Outcome, Reading};
use montrakit::{Access, Area, Code, Counting, Request, Silence, State, Station, Task};
use std::process::ExitCode;

const STATION: Station = Station {
    own: 20,
    counting: Counting::ModBus,
    state: State::Ready,
};

const AREAS: [Area; 2] = [
    Area {
        first: 0,
        count: 8,
        access: Access::ReadWrite,
    },
    Area {
        first: 8,
        count: 8,
        access: Access::ReadOnly,
    },
];

/// How an exchange ends for the master; a refusal is no end.
#[derive(PartialEq, Debug)]
enum End {
    Values(Vec<u8>),
    Written,
    Exception(Code),
    Silent(Silence),
}

struct Exchange {
    about: &'static str,
    task: Task,
    start: u16,
    data: &'static [u8],
    /// Whether a bit of the request flips on the line.
    damaged: bool,
    end: End,
}

impl Exchange {
    fn new(about: &'static str, task: Task, start: u16, end: End) -> Exchange {
        Exchange {
            about,
            task,
            start,
            data: &[],
            damaged: false,
            end,
        }
    }

    fn with(self, data: &'static [u8]) -> Exchange {
        Exchange { data, ..self }
    }

    fn damaged(self) -> Exchange {
        Exchange {
            damaged: true,
            ..self
        }
    }

    /// The end, and the frames as they arrived.
    fn talk(&self, image: &mut [u16]) -> (Option<End>, String) {
        let request = Request {
            station: STATION.own,
            task: self.task,
            start: self.start,
        };
        let (mut frame, mut reply, mut out) = ([0; 256], [0; 256], [0; 256]);
        let Built::Frame(built) = build(request, self.data, &mut frame) else {
            return (None, String::new());
        };
        let mut received = built.to_vec();
        received[3] ^= u8::from(self.damaged) << 4;
        let asked = hex(&received);
        let sent = match respond(STATION, &AREAS, &received, image, &mut reply) {
            Outcome::Refused(_) => return (None, asked),
            Outcome::Silent(silence) => return (Some(End::Silent(silence)), asked),
            Outcome::Exception(_, sent) | Outcome::Reply(sent) => sent,
        };
        let end = match read(request, sent, &mut out) {
            Reading::Refused(_) => None,
            Reading::Values(values) => Some(End::Values(values.to_vec())),
            Reading::Written => Some(End::Written),
            Reading::Exception(code) => Some(End::Exception(code)),
        };
        (end, format!("{asked} -> {}", hex(sent)))
    }
}

fn hex(bytes: &[u8]) -> String {
    let bytes: Vec<String> = bytes.iter().map(|byte| format!("{byte:02X}")).collect();
    bytes.join(" ")
}

fn told(end: Option<&End>) -> String {
    match end {
        Some(End::Values(bytes)) => format!("values {}", hex(bytes)),
        Some(End::Written) => "written".to_string(),
        Some(End::Exception(code)) => format!("exception {}", code.number()),
        Some(End::Silent(silence)) => format!("silence {}", silence.number()),
        None => "refused".to_string(),
    }
}

fn exchanges() -> Vec<Exchange> {
    let words = &[0x03, 0xE8, 0x01, 0xF4];
    let values = |bytes: &[u8]| End::Values(bytes.to_vec());
    vec![
        Exchange::new(
            "write words 1 and 2",
            Task::WriteWords10(2),
            1,
            End::Written,
        )
        .with(words),
        Exchange::new("read them", Task::ReadWords03(2), 1, values(words)),
        Exchange::new("read bits 24 to 26", Task::ReadBits01(3), 24, values(&[3])),
        Exchange::new("turn bit 24 off", Task::WriteBit05(false), 24, End::Written),
        Exchange::new("read them", Task::ReadBits02(3), 24, values(&[2])),
        Exchange::new(
            "write bits 24 to 26",
            Task::WriteBits0F(3),
            24,
            End::Written,
        )
        .with(&[0xFD]),
        Exchange::new("read word 1", Task::ReadWords04(1), 1, values(&[5, 0xE8])),
        Exchange::new("write word 7", Task::WriteWord06(0xABCD), 7, End::Written),
        Exchange::new(
            "read 7 and 8",
            Task::ReadWords03(2),
            7,
            values(&[0xAB, 0xCD, 0, 0]),
        ),
        Exchange::new(
            "write word 8",
            Task::WriteWord06(1),
            8,
            End::Exception(Code::ReadOnly),
        ),
        Exchange::new(
            "read word 16",
            Task::ReadWords03(1),
            16,
            End::Exception(Code::Address),
        ),
        Exchange::new(
            "a damaged request",
            Task::ReadWords03(2),
            1,
            End::Silent(Silence::CheckWord),
        )
        .damaged(),
    ]
}

fn main() -> ExitCode {
    let mut image = [0; 16];
    for exchange in exchanges() {
        let (end, frames) = exchange.talk(&mut image);
        println!("{:<20} {frames}: {}", exchange.about, told(end.as_ref()));
        if end.as_ref() != Some(&exchange.end) {
            println!("should be {}", told(Some(&exchange.end)));
            return ExitCode::FAILURE;
        }
    }
    ExitCode::SUCCESS
}
