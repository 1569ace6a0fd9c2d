//! The slave through the wrapper: document 01's bench station, each kind of outcome, and long lists.

use montrakit::{
    check_word, respond, Access, Area, Code, Counting, Outcome, Refusal, Silence, State, Station,
};

const STATION: Station = Station {
    own: 20,
    counting: Counting::ModBus,
    state: State::Ready,
};

const AREAS: [Area; 2] = [
    Area {
        first: 0,
        count: 8,
        access: Access::ReadWrite,
    },
    Area {
        first: 8,
        count: 8,
        access: Access::ReadOnly,
    },
];

const READ: [u8; 8] = [0x14, 0x03, 0x00, 0x01, 0x00, 0x02, 0x97, 0x0E];

fn image() -> [u16; 16] {
    let mut image = [0; 16];
    image[1] = 1000;
    image[2] = 500;
    image
}

/// Document 01, "Bench program": the lines of the example, on one image.
#[test]
fn bench_example() {
    let lines: [(&[u8], Outcome); 6] = [
        (
            &READ,
            Outcome::Reply(&[0x14, 0x03, 0x04, 0x03, 0xE8, 0x01, 0xF4, 0x3E, 0x95]),
        ),
        (
            &[0x14, 0x05, 0x00, 0x18, 0x00, 0x00, 0x4F, 0x08],
            Outcome::Reply(&[0x14, 0x05, 0x00, 0x18, 0x00, 0x00, 0x4F, 0x08]),
        ),
        (
            &READ,
            Outcome::Reply(&[0x14, 0x03, 0x04, 0x02, 0xE8, 0x01, 0xF4, 0x3F, 0x69]),
        ),
        (
            &[0x14, 0x06, 0x00, 0x08, 0x00, 0x01, 0xCB, 0x0D],
            Outcome::Exception(Code::ReadOnly, &[0x14, 0x86, 0x08, 0x52, 0x62]),
        ),
        (
            &[0x14, 0x03, 0x00, 0x01, 0x00, 0x02, 0x97, 0x0F],
            Outcome::Silent(Silence::CheckWord),
        ),
        (&[], Outcome::Silent(Silence::FrameLength)),
    ];
    let mut image = image();
    for (frame, wanted) in lines {
        let mut reply = [0xAA; 256];
        let outcome = respond(STATION, &AREAS, frame, &mut image, &mut reply);
        assert_eq!(outcome, wanted, "{frame:02X?}");
    }
    assert_eq!(image[1], 744);
}

/// Bytes beyond those sent keep their content, and so does all that is lent where nothing is sent.
#[test]
fn the_rest_is_kept() {
    let (mut words, mut reply) = (image(), [0xAA; 300]);
    respond(STATION, &AREAS, &READ, &mut words, &mut reply);
    assert_eq!((words, &reply[9..]), (image(), &[0xAA; 291][..]));
    let mut reply = [0xAA; 255];
    let outcome = respond(STATION, &AREAS, &READ, &mut words, &mut reply);
    assert_eq!(outcome, Outcome::Refused(Refusal::ReplyBuffer));
    assert_eq!((words, reply), (image(), [0xAA; 255]));
}

/// Lists of single words up to far too many: 16 are answered, and more refused, but in their place.
#[test]
fn long_lists() {
    let single = |first| Area {
        first,
        count: 1,
        access: Access::ReadWrite,
    };
    for listed in [0, 3, 15, 16, 17, 18, 19, 255, 256, 272, 1000] {
        let areas: Vec<Area> = (0..listed).map(single).collect();
        let (mut image, mut reply) = (vec![0; 1000], [0; 256]);
        let outcome = respond(STATION, &areas, &READ, &mut image, &mut reply);
        match listed {
            0 => assert!(matches!(outcome, Outcome::Exception(Code::Address, _))),
            3..=16 => assert!(matches!(outcome, Outcome::Reply(_)), "{listed}"),
            _ => assert_eq!(outcome, Outcome::Refused(Refusal::Areas), "{listed}"),
        }
        let outcome = respond(STATION, &areas, &READ, &mut [], &mut reply);
        assert_eq!(outcome, Outcome::Refused(Refusal::Image));
        let nobody = Station { own: 0, ..STATION };
        let outcome = respond(nobody, &areas, &READ, &mut [], &mut []);
        assert_eq!(outcome, Outcome::Refused(Refusal::OwnAddress));
    }
}

/// Document 01, "Both sides of each edge"; 004, 2.8 and 4.3.
#[test]
fn published_check_words() {
    assert_eq!(check_word(&[]), 0xFFFF);
    assert_eq!(check_word(&READ[..6]), 0x0E97);
    let written = [
        0x01, 0x10, 0x00, 0xFB, 0x00, 0x02, 0x04, 0x80, 0x00, 0x44, 0x09,
    ];
    assert_eq!(check_word(&written), 0x9E67);
}
