//! The lists of lines as text: how a list is written down, and how it becomes lines.

use crate::check_word::seal;
use crate::hex;
use crate::master::Request;

/// What the paper gives for a line, and the line. It is a line of docs/CASES.md whose last part may
/// use `*` for the right check word of what stands before it and `HH^N` for a byte N times. What is
/// given is the first parts of the answer; its bytes may use the same.
pub type Entry = (&'static str, &'static str);

/// Entries that have all but the last part in common.
pub type Group = (&'static str, &'static [Entry]);

pub fn frame(template: &str) -> Vec<u8> {
    let mut bytes = Vec::new();
    for token in template.split_ascii_whitespace() {
        if token == "*" {
            seal(&mut bytes);
            continue;
        }
        let (byte, times) = token.split_once('^').unwrap_or((token, "1"));
        let length = bytes.len() + times.parse().unwrap_or(0);
        bytes.resize(length, u8::from_str_radix(byte, 16).unwrap_or(0));
    }
    bytes
}

pub fn hex_text(bytes: &[u8]) -> String {
    let mut text = Vec::new();
    hex::write(bytes, &mut text);
    text.into_iter().map(char::from).collect()
}

pub fn frame_text(template: &str) -> String {
    hex_text(&frame(template))
}

/// Text of any kind; it is a template if it uses what only templates use.
pub fn expanded(text: &str) -> String {
    if text.contains(['*', '^']) {
        frame_text(text)
    } else {
        text.to_string()
    }
}

pub fn call(template: &str) -> String {
    let (head, rest) = template.rsplit_once('|').unwrap_or(("", template));
    format!("{head}|{}", frame_text(rest))
}

/// A line that asks the master's half: `word` is `build` or `read`, and the bytes are data or a reply.
pub fn asked(word: &str, request: Request, room: usize, bytes: &[u8]) -> String {
    format!(
        "{word}|{}|{room} 170 0|{}",
        fields(request),
        hex_text(bytes)
    )
}

pub fn fields(request: Request) -> String {
    let Request {
        station,
        function,
        start,
        operand,
    } = request;
    format!("{station} {function} {start} {operand}")
}

/// What is given and the line, for each entry of the groups.
pub fn of_groups<'a>(groups: &'a [Group]) -> impl Iterator<Item = (&'static str, String)> + 'a {
    groups.iter().flat_map(|(head, entries)| {
        entries
            .iter()
            .map(move |(given, frame)| (*given, format!("{head}|{}", frame_text(frame))))
    })
}

pub fn of_entries(entries: &[Entry]) -> impl Iterator<Item = (&'static str, String)> + '_ {
    entries
        .iter()
        .map(|(given, template)| (*given, call(template)))
}

#[cfg(test)]
pub mod tests {
    use super::*;
    use crate::cases::Cases;
    use crate::lines::Answerer;

    pub fn answer(line: &str) -> String {
        let mut answer = Vec::new();
        Cases::default().answer(line.as_bytes(), &mut answer);
        answer.into_iter().map(char::from).collect()
    }

    /// Each line is answered with what is given for it, up to the last part given.
    pub fn are_answered_so(lines: impl Iterator<Item = (impl AsRef<str>, String)>) {
        for (given, line) in lines {
            let parts: Vec<String> = given.as_ref().split('|').map(expanded).collect();
            let answer = answer(&line);
            let got: Vec<&str> = answer.split('|').take(parts.len()).collect();
            assert_eq!(got, parts, "{line}");
        }
    }
}
