//! Whole calls of the slave as lines, in the format of docs/CASES.md: read one, make the call, say what
//! it left.

use crate::bits::Image;
use crate::hex;
use crate::slave::{self, Area, Counting, Outcome, State, Station};

/// The call a line says, and room kept from line to line.
pub struct Calls {
    pub station: Station,
    pub areas: Vec<Area>,
    pub image: Image,
    pub buffer: Vec<u8>,
    pub frame: Vec<u8>,
    /// How many bytes of the buffer the call made last wrote.
    pub sent: usize,
    before: Image,
    background: Vec<u8>,
}

impl Default for Calls {
    fn default() -> Calls {
        let station = Station {
            own: 0,
            counting: Counting::ModBus,
            state: State::Ready,
        };
        Calls {
            station,
            areas: Vec::new(),
            image: Image::default(),
            buffer: Vec::new(),
            frame: Vec::new(),
            sent: 0,
            before: Image::default(),
            background: Vec::new(),
        }
    }
}

impl Calls {
    /// None for a bad line.
    pub fn read(&mut self, line: &[u8]) -> Option<()> {
        let mut parts = line.splitn(4, |&character| character == b'|');
        self.station = station(parts.next()?)?;
        self.read_areas(parts.next()?)?;
        self.read_image(parts.next()?)?;
        self.read_ends(parts.next()?)
    }

    /// The last two parts, which lines of every kind have: a lent buffer and bytes.
    pub fn read_ends(&mut self, parts: &[u8]) -> Option<()> {
        let mut parts = parts.split(|&character| character == b'|');
        self.read_buffer(parts.next()?)?;
        let frame = parts.next()?;
        (parts.next().is_none() && hex::read(frame, &mut self.frame)).then_some(())
    }

    fn read_areas(&mut self, part: &[u8]) -> Option<()> {
        self.areas.clear();
        if part.is_empty() {
            return Some(());
        }
        for text in part.split(|&character| character == b',') {
            let [first, count, access] = fields(text)?;
            let writable = letter(access, [(b'r', false), (b'w', true)])?;
            self.areas.push(Area {
                first: number(first)?,
                count: number(count)?,
                writable,
            });
        }
        Some(())
    }

    fn read_image(&mut self, part: &[u8]) -> Option<()> {
        let mut texts = part.split(|&character| character == b',');
        let [words, start, step] = numbers(texts.next()?)?;
        if words > 8192 {
            return None;
        }
        self.image
            .fill((0..words).map(|place| start.wrapping_add(place.wrapping_mul(step))));
        for text in texts {
            let [place, value] = numbers(text)?;
            if place >= words {
                return None;
            }
            self.image.set_word(usize::from(place), value);
        }
        Some(())
    }

    fn read_buffer(&mut self, part: &[u8]) -> Option<()> {
        let [bytes, start, step] = numbers(part)?;
        if bytes > 512 {
            return None;
        }
        self.buffer.clear();
        self.buffer
            .extend((0..bytes).map(|place| start.wrapping_add(place.wrapping_mul(step)) as u8));
        Some(())
    }

    /// Makes the call that was read last, and says what it answered and left.
    pub fn make(&mut self, out: &mut Vec<u8>) -> Outcome {
        self.before.copy_from(&self.image);
        self.background.clone_from(&self.buffer);
        let (outcome, length) = slave::answer(
            self.station,
            &self.areas,
            &mut self.image,
            &mut self.buffer,
            &self.frame,
        );
        self.sent = length;
        out.extend(name(outcome).bytes());
        left(&self.buffer, &self.background, length, out);
        out.push(b'|');
        for (index, place) in self.image.differing(&self.before).enumerate() {
            let comma = if index > 0 { "," } else { "" };
            out.extend(format!("{comma}{place} {}", self.image.word(place)).bytes());
        }
        outcome
    }
}

/// The bytes written, and whether those beyond have their background still.
pub fn left(buffer: &[u8], background: &[u8], written: usize, out: &mut Vec<u8>) {
    out.push(b'|');
    hex::write(&buffer[..written], out);
    let kept = buffer[written..] == background[written..];
    out.extend(if kept { "|kept" } else { "|spilt" }.bytes());
}

pub fn name(outcome: Outcome) -> String {
    match outcome {
        Outcome::Refused(number) => format!("refused {number}"),
        Outcome::Silent(number) => format!("silent {number}"),
        Outcome::Exception(code) => format!("exception {code}"),
        Outcome::Reply => "reply".to_string(),
    }
}

/// Exactly N fields with one blank between each two; an empty field is left to fail later.
fn fields<const N: usize>(text: &[u8]) -> Option<[&[u8]; N]> {
    let mut rest = text.split(|&character| character == b' ');
    let mut found: [&[u8]; N] = [&[]; N];
    for field in &mut found {
        *field = rest.next()?;
    }
    rest.next().is_none().then_some(found)
}

pub fn numbers<const N: usize>(text: &[u8]) -> Option<[u16; N]> {
    let mut found = [0; N];
    for (value, field) in found.iter_mut().zip(fields::<N>(text)?) {
        *value = number(field)?;
    }
    Some(found)
}

fn number(field: &[u8]) -> Option<u16> {
    if field.is_empty() {
        return None;
    }
    field.iter().try_fold(0u16, |value, character| {
        let digit = character.checked_sub(b'0').filter(|&digit| digit < 10)?;
        value.checked_mul(10)?.checked_add(u16::from(digit))
    })
}

fn letter<T, const N: usize>(field: &[u8], meanings: [(u8, T); N]) -> Option<T> {
    meanings
        .into_iter()
        .find(|(letter, _)| field == [*letter])
        .map(|(_, meaning)| meaning)
}

fn station(part: &[u8]) -> Option<Station> {
    let [own, counting, state] = fields(part)?;
    Some(Station {
        own: u8::try_from(number(own)?).ok()?,
        counting: letter(counting, [(b'm', Counting::ModBus), (b'j', Counting::JBus)])?,
        state: letter(
            state,
            [
                (b'r', State::Ready),
                (b'n', State::NotReady),
                (b'k', State::Keyboard),
            ],
        )?,
    })
}
