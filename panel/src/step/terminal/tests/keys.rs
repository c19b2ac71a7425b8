use crate::step::terminal::keys::{Key, Keys};

/// The keys of bytes that come at once.
fn keys(bytes: &[u8]) -> Vec<Key> {
    let mut keys = Keys::default();
    keys.push(bytes);
    let read = std::iter::from_fn(|| keys.next()).collect();
    assert!(!keys.is_waiting());
    read
}

#[test]
fn sequences() {
    use Key::{Down, Left, PageDown, PageUp, Right, Up};
    assert_eq!(keys(b"\x1b[A\x1b[B\x1b[C\x1b[D"), [Up, Down, Right, Left]);
    assert_eq!(keys(b"\x1bOA\x1bOB\x1bOC\x1bOD"), [Up, Down, Right, Left]);
    assert_eq!(keys(b"\x1b[5~\x1b[6~"), [PageUp, PageDown]);
}

#[test]
fn single_bytes() {
    use Key::{Backspace, Character, Control, Enter};
    assert_eq!(keys(b"s\r\n"), [Character('s'), Enter, Enter]);
    assert_eq!(keys(b"\x7f\x08"), [Backspace, Backspace]);
    assert_eq!(keys(b"\x03\x0c"), [Control('c'), Control('l')]);
    assert_eq!(keys("ü€".as_bytes()), [Character('ü'), Character('€')]);
}

/// Home, F5, a longer sequence, a byte that no character begins with: none of them is a key.
#[test]
fn unknown_sequences_are_dropped_whole() {
    let bytes = b"a\x1b[H\x1b[15~\x1b[1;5A\x1bOP\xffb";
    assert_eq!(keys(bytes), [Key::Character('a'), Key::Character('b')]);
    let endless = [b"\x1b[".as_slice(), &[b'1'; 40]].concat();
    assert_eq!(keys(&endless), []);
}

/// However the bytes are parted, the keys are the same.
#[test]
fn bytes_that_come_in_parts() {
    let bytes = "\x1b[As\x1bOC\x1b[6~ü\x1b\x1b[Bq".as_bytes();
    let whole = keys(bytes);
    assert_eq!(whole.len(), 8);
    for parts in 0_u32..1 << (bytes.len() - 1) {
        let mut keys = Keys::default();
        let mut read = Vec::new();
        let mut from = 0;
        for to in 1..=bytes.len() {
            if to == bytes.len() || parts >> (to - 1) & 1 == 1 {
                keys.push(&bytes[from..to]);
                read.extend(std::iter::from_fn(|| keys.next()));
                from = to;
            }
        }
        assert_eq!(read, whole);
    }
}

#[test]
fn an_escape_alone() {
    let mut keys = Keys::default();
    keys.push(b"\x1b");
    assert_eq!(keys.next(), None);
    assert!(keys.is_waiting());
    assert_eq!(keys.end_wait(), Some(Key::Escape));
    assert!(!keys.is_waiting());
    // The beginning of a sequence without its end is no key.
    keys.push(b"\x1b[5");
    assert_eq!(keys.next(), None);
    assert_eq!(keys.end_wait(), None);
    assert_eq!(keys.next(), None);
    // An escape before another sequence.
    keys.push(b"\x1b\x1b[A");
    assert_eq!(keys.next(), Some(Key::Escape));
    assert_eq!(keys.next(), Some(Key::Up));
}

#[test]
fn a_control_character_ends_a_sequence() {
    let mut keys = Keys::default();
    keys.push(b"\x1b[9\x03\x1b[A\x03");
    assert_eq!(keys.next(), Some(Key::Control('c')));
    assert_eq!(keys.next(), Some(Key::Up));
    assert_eq!(keys.next(), Some(Key::Control('c')));
}

#[test]
fn alt_and_a_letter_is_no_key() {
    let mut keys = Keys::default();
    keys.push(b"\x1bqs");
    assert_eq!(keys.next(), Some(Key::Character('s')));
    assert_eq!(keys.next(), None);
}
