//! The stored form by 02's request 6: that of a format, and what a stored form says, as a format again.

use crate::formats::LETTERS;
use crate::reading::directive;

pub const WIDEST: u32 = 2_147_483_647;

/// Literal bytes, directives, and steps: a length of literal bytes, or the index of a directive.
#[derive(Clone, Default)]
pub struct Form {
    pub literals: Vec<u8>,
    pub directives: Vec<[u8; 8]>,
    pub steps: Vec<[u8; 3]>,
}

impl Form {
    /// "three sections in a fixed order, each after its two-byte little-endian count of entries"
    pub fn bytes(&self) -> Vec<u8> {
        let mut bytes = two_bytes(self.literals.len()).to_vec();
        bytes.extend_from_slice(&self.literals);
        bytes.extend_from_slice(&two_bytes(self.directives.len()));
        bytes.extend(self.directives.iter().flatten());
        bytes.extend_from_slice(&two_bytes(self.steps.len()));
        bytes.extend(self.steps.iter().flatten());
        bytes
    }

    /// Neighbouring text is one step.
    fn push_text(&mut self, text: &[u8]) {
        if text.is_empty() {
            return;
        }
        let before = match self.steps.last() {
            Some(&[0, low, high]) => {
                self.steps.pop();
                usize::from(u16::from_le_bytes([low, high]))
            }
            _ => 0,
        };
        self.literals.extend_from_slice(text);
        self.steps.push(step(0, before + text.len()));
    }

    fn push_directive(&mut self, entry: [u8; 8]) {
        self.steps.push(step(1, self.directives.len()));
        self.directives.push(entry);
    }
}

fn two_bytes(number: usize) -> [u8; 2] {
    (number as u16).to_le_bytes()
}

pub fn step(section: u8, number: usize) -> [u8; 3] {
    let [low, high] = two_bytes(number);
    [section, low, high]
}

/// The stored form of a format. Nothing if the format ends inside a directive.
pub fn form_of(format: &[u8]) -> Option<Form> {
    let mut form = Form::default();
    let mut rest = format;
    while let Some(at) = rest.iter().position(|&byte| byte == b'%') {
        let (text, from) = rest.split_at(at);
        form.push_text(text);
        let (_, behind) = directive(&from[1..])?;
        let read = &from[..from.len() - behind.len()];
        match entry_of(&read[1..]) {
            Some(entry) => form.push_directive(entry),
            None => form.push_text(read),
        }
        rest = behind;
    }
    form.push_text(rest);
    Some(form)
}

/// The 8 bytes of a directive, from what stands behind its `%`. Nothing for an echo.
fn entry_of(read: &[u8]) -> Option<[u8; 8]> {
    let (marks, rest) = front_of(read, |byte| b"-_0^#".contains(&byte));
    let (digits, rest) = front_of(rest, |byte| byte.is_ascii_digit());
    let name = match rest {
        [b'E' | b'O', letter] => std::slice::from_ref(letter),
        _ => rest,
    };
    let code = match name {
        b":z" => 1,
        b"::z" => 2,
        b":::z" => 3,
        b"h" => b'b',
        b"x" => b'D',
        b"X" => b'T',
        [letter] if LETTERS.contains(letter) => *letter,
        _ => return None,
    };
    let last = marks.iter().rev().find(|mark| b"-_0".contains(mark));
    let padding = match last {
        Some(b'_') => 1,
        Some(b'0') => 2,
        _ => 0,
    };
    let flags =
        [(b'-', 1), (b'#', 2), (b'^', 4)]
            .map(|(mark, value)| if marks.contains(&mark) { value } else { 0 });
    let width = width_of(digits)?;
    let [a, b, c, d] = width.unwrap_or(0).to_le_bytes();
    let present = u8::from(width.is_some());
    Some([code, padding, flags.iter().sum(), present, a, b, c, d])
}

/// Nothing where it is too wide.
fn width_of(digits: &[u8]) -> Option<Option<u32>> {
    if digits.is_empty() {
        return Some(None);
    }
    let width = std::str::from_utf8(digits).ok()?.parse::<u32>().ok()?;
    (width <= WIDEST).then_some(Some(width))
}

fn front_of(bytes: &[u8], in_front: impl Fn(u8) -> bool) -> (&[u8], &[u8]) {
    let end = bytes.iter().position(|&byte| !in_front(byte));
    bytes.split_at(end.unwrap_or(bytes.len()))
}

/// A format with the events that the stored bytes ask for. Nothing where 02 puts BadStored: "exactly if counts and bytes
/// disagree, a step names no section or passes it, or a directive is one no parse gives".
pub fn format_of(stored: &[u8]) -> Option<Vec<u8>> {
    let (mut literals, rest) = section(stored, 1)?;
    let (directives, rest) = section(rest, 8)?;
    let (steps, rest) = section(rest, 3)?;
    if !rest.is_empty() {
        return None;
    }
    let texts: Option<Vec<Vec<u8>>> = directives.chunks(8).map(text_of).collect();
    let texts = texts?;
    let mut format = Vec::new();
    for step in steps.chunks(3) {
        let number = usize::from(u16::from_le_bytes([step[1], step[2]]));
        match step[0] {
            0 if number <= literals.len() => {
                let (text, behind) = literals.split_at(number);
                text.iter()
                    .for_each(|&byte| push_literal(&mut format, byte));
                literals = behind;
            }
            1 => format.extend_from_slice(texts.get(number)?),
            _ => return None,
        }
    }
    Some(format)
}

/// The entries of a section, of so many bytes each, and what stands behind it.
fn section(bytes: &[u8], size: usize) -> Option<(&[u8], &[u8])> {
    let (count, rest) = bytes.split_at_checked(2)?;
    rest.split_at_checked(usize::from(u16::from_le_bytes([count[0], count[1]])) * size)
}

fn push_literal(format: &mut Vec<u8>, byte: u8) {
    if byte == b'%' {
        format.push(b'%');
    }
    format.push(byte);
}

/// A directive whose parse gives these 8 bytes.
fn text_of(entry: &[u8]) -> Option<Vec<u8>> {
    let &[code, padding, flags, present, a, b, c, d] = entry else {
        return None;
    };
    if flags > 7 {
        return None;
    }
    let mut text = vec![b'%'];
    for (value, mark) in [(1, b'-'), (2, b'#'), (4, b'^')] {
        if flags & value != 0 {
            text.push(mark);
        }
    }
    match padding {
        0 => {}
        1 => text.push(b'_'),
        2 => text.push(b'0'),
        _ => return None,
    }
    match (present, u32::from_le_bytes([a, b, c, d])) {
        (0, 0) => {}
        (1, width @ 1..=WIDEST) => text.extend_from_slice(width.to_string().as_bytes()),
        _ => return None,
    }
    match code {
        colons @ 1..=3 => {
            text.extend(std::iter::repeat_n(b':', colons.into()));
            text.push(b'z');
        }
        letter if LETTERS.contains(&letter) => text.push(letter),
        _ => return None,
    }
    Some(text)
}
