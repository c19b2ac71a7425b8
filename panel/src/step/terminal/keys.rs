//! Keys, from the bytes that a terminal sends for them.

#[derive(Clone, Copy, PartialEq, Eq, Debug)]
pub enum Key {
    Up,
    Down,
    Left,
    Right,
    PageUp,
    PageDown,
    Enter,
    Escape,
    Backspace,
    /// A control character, by its letter in lower case.
    Control(char),
    Character(char),
}

const ESCAPE: u8 = 0x1b;

/// A sequence of a key is never so long.
const LONGEST: usize = 32;

/// Bytes that came, as far as they are no keys yet.
#[derive(Default)]
pub struct Keys {
    bytes: Vec<u8>,
}

/// What the first bytes are.
enum First {
    /// So many bytes, and the key if it is one that is known.
    Whole(usize, Option<Key>),
    /// More must come.
    Part,
}

impl Keys {
    pub fn push(&mut self, bytes: &[u8]) {
        self.bytes.extend(bytes);
    }

    /// The next key, if all its bytes are there.
    pub fn next(&mut self) -> Option<Key> {
        while !self.bytes.is_empty() {
            match first(&self.bytes) {
                First::Part => return None,
                First::Whole(length, key) => {
                    self.bytes.drain(..length);
                    if key.is_some() {
                        return key;
                    }
                }
            }
        }
        None
    }

    /// Whether a key has come in part.
    pub fn is_waiting(&self) -> bool {
        !self.bytes.is_empty()
    }

    /// Nothing follows: an escape alone is the key, any other part is none.
    pub fn end_wait(&mut self) -> Option<Key> {
        let alone = self.bytes == [ESCAPE];
        self.bytes.clear();
        alone.then_some(Key::Escape)
    }
}

fn first(bytes: &[u8]) -> First {
    match bytes {
        [ESCAPE] => First::Part,
        [ESCAPE, b'[', rest @ ..] => sequence(rest),
        [ESCAPE, b'O'] => First::Part,
        [ESCAPE, b'O', letter, ..] => First::Whole(3, arrow(*letter)),
        [ESCAPE, ESCAPE, ..] => First::Whole(1, Some(Key::Escape)),
        // Alt and a key.
        [ESCAPE, _, ..] => First::Whole(2, None),
        [b'\r' | b'\n', ..] => First::Whole(1, Some(Key::Enter)),
        [0x08 | 0x7f, ..] => First::Whole(1, Some(Key::Backspace)),
        [control @ 0x01..=0x1a, ..] => {
            let letter = (b'a' + control - 1) as char;
            First::Whole(1, Some(Key::Control(letter)))
        }
        [0x00..=0x1f, ..] => First::Whole(1, None),
        _ => character(bytes),
    }
}

/// What follows `ESC [`: digits and other parameters, then one final byte.
fn sequence(rest: &[u8]) -> First {
    // A control character is a key of its own, and ends what is no sequence.
    if let Some(control) = rest.iter().position(|byte| *byte < 0x20) {
        let is_last = |byte: &u8| matches!(byte, 0x40..=0x7e);
        if !rest[..control].iter().any(is_last) {
            return First::Whole(2 + control, None);
        }
    }
    let Some(last) = rest.iter().position(|byte| matches!(byte, 0x40..=0x7e)) else {
        return match rest.len() {
            0..LONGEST => First::Part,
            length => First::Whole(2 + length, None),
        };
    };
    let key = match &rest[..=last] {
        [letter] => arrow(*letter),
        b"5~" => Some(Key::PageUp),
        b"6~" => Some(Key::PageDown),
        _ => None,
    };
    First::Whole(2 + last + 1, key)
}

fn arrow(letter: u8) -> Option<Key> {
    match letter {
        b'A' => Some(Key::Up),
        b'B' => Some(Key::Down),
        b'C' => Some(Key::Right),
        b'D' => Some(Key::Left),
        _ => None,
    }
}

/// A character of one to four bytes.
fn character(bytes: &[u8]) -> First {
    let length = match bytes[0] {
        0x00..=0x7f => 1,
        0xc0..=0xdf => 2,
        0xe0..=0xef => 3,
        0xf0..=0xf7 => 4,
        _ => return First::Whole(1, None),
    };
    let Some(bytes) = bytes.get(..length) else {
        return First::Part;
    };
    match std::str::from_utf8(bytes) {
        Ok(text) => First::Whole(length, text.chars().next().map(Key::Character)),
        Err(_) => First::Whole(1, None),
    }
}
