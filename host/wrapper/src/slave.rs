//! The slave's end of the line.

use crate::answer::{self, ruled_out, told, written};
use crate::numbered::numbered;
use crate::{ffi, Code};

numbered! {
    /// How the start address in a frame counts.
    Counting {
        /// From 0.
        ModBus = 0,
        /// One higher: start 0 names nothing.
        JBus = 1,
    }
}

numbered! {
    /// What a station does at the moment.
    State {
        Ready = 0,
        NotReady = 1,
        /// Someone is at its keyboard.
        AtTheKeyboard = 2,
    }
}

numbered! {
    /// What a master may do with the words of an area.
    Access {
        ReadOnly = 0,
        ReadWrite = 1,
    }
}

numbered! {
    /// Why a call was refused; reply buffer and image are as they were.
    Refusal {
        /// The own address is 0.
        OwnAddress = 1,
        /// The image has no words, or over 4,095.
        Image = 2,
        /// The list of areas breaks a rule.
        Areas = 3,
        /// The reply buffer is under 256 bytes.
        ReplyBuffer = 4,
    }
}

numbered! {
    /// Why nothing is sent; reply buffer and image are as they were.
    Silence {
        /// The frame is under 4 or over 256 bytes.
        FrameLength = 10,
        /// The last two bytes are not the check word of the rest.
        CheckWord = 11,
        /// Another station is addressed; 0 is always another's.
        AnotherStation = 12,
        /// The station is at the keyboard.
        AtTheKeyboard = 13,
        /// The length is wrong for the function.
        RequestLength = 14,
        /// The quantity is 0.
        NoQuantity = 15,
    }
}

/// A station's settings.
#[derive(Clone, Copy, PartialEq, Eq, Hash, Debug)]
pub struct Station {
    /// 1 to 255; 0 is refused.
    pub own: u8,
    pub counting: Counting,
    pub state: State,
}

/// Words that a master can address. Areas ascend, don't overlap and end inside the image; two may touch.
#[derive(Clone, Copy, PartialEq, Eq, Hash, Debug)]
pub struct Area {
    pub first: u16,
    /// At least 1.
    pub count: u16,
    pub access: Access,
}

/// What a frame is met with.
#[derive(Clone, Copy, PartialEq, Eq, Hash, Debug)]
pub enum Outcome<'r> {
    Refused(Refusal),
    Silent(Silence),
    /// An exception, and the bytes to send; the image is as it was.
    Exception(Code, &'r [u8]),
    /// The bytes to send; a write is in the image.
    Reply(&'r [u8]),
}

/// A list may have 16 areas; one more is already too many.
const MOST_AREAS: usize = 16;
type AreaWords = [u16; (MOST_AREAS + 1) * 3];

/// The list as the C face takes it, and how many words of it count. Of a list that is too long as many
/// areas are taken as show that.
fn area_words(areas: &[Area]) -> (AreaWords, usize) {
    let mut words = [0; (MOST_AREAS + 1) * 3];
    let mut length = 0;
    for (place, area) in words.chunks_exact_mut(3).zip(areas) {
        place.copy_from_slice(&[area.first, area.count, area.access.number().into()]);
        length += 3;
    }
    (words, length)
}

/// Answers one received frame. What is sent lies in `reply`, which needs at least 256 bytes; bytes beyond
/// those sent keep their content.
///
/// ```
/// use montrakit::{respond, Access, Area, Counting, Outcome, State, Station};
///
/// let station = Station { own: 20, counting: Counting::ModBus, state: State::Ready };
/// let areas = [Area { first: 0, count: 8, access: Access::ReadWrite }];
/// let mut image = [0, 1000, 500, 0, 0, 0, 0, 0];
/// let mut reply = [0; 256];
/// let frame = [0x14, 0x03, 0x00, 0x01, 0x00, 0x02, 0x97, 0x0E];
/// let outcome = respond(station, &areas, &frame, &mut image, &mut reply);
/// let sent = [0x14, 0x03, 0x04, 0x03, 0xE8, 0x01, 0xF4, 0x3E, 0x95];
/// assert_eq!(outcome, Outcome::Reply(&sent));
/// ```
pub fn respond<'r>(
    station: Station,
    areas: &[Area],
    frame: &[u8],
    image: &mut [u16],
    reply: &'r mut [u8],
) -> Outcome<'r> {
    let (words, length) = area_words(areas);
    // SAFETY: each pointer and length are those of one slice, and of the area words `length` are filled;
    // the borrows keep image and reply apart from each other and from what is read.
    let answer = unsafe {
        ffi::montrakit_respond(
            station.own,
            station.counting.number(),
            station.state.number(),
            words.as_ptr(),
            length,
            frame.as_ptr(),
            frame.len(),
            image.as_mut_ptr(),
            image.len(),
            reply.as_mut_ptr(),
            reply.len(),
        )
    };
    match answer::parts(answer) {
        (answer::REFUSED, number) => Outcome::Refused(told(Refusal::of_number(number), answer)),
        (answer::SILENT, number) => Outcome::Silent(told(Silence::of_number(number), answer)),
        (answer::EXCEPTION, code) => {
            Outcome::Exception(told(Code::of_number(code), answer), written(reply, 5))
        }
        (answer::REPLY, length) => Outcome::Reply(written(reply, length)),
        _ => ruled_out(answer),
    }
}
