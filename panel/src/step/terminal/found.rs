//! The terminal as it was found, kept where a panic finds it too.

use std::fs::File;
use std::io::{self, Write};
use std::panic;
use std::sync::{Mutex, Once};

use super::c::Modes;
use super::modes;

/// The other screen, without a cursor.
const TAKE_OVER: &str = "\x1b[?1049h\x1b[?25l";
const GIVE_BACK: &str = "\x1b[m\x1b[?25h\x1b[?1049l";

struct Found {
    input: File,
    output: File,
    modes: Modes,
}

static FOUND: Mutex<Option<Found>> = Mutex::new(None);

pub fn take_over(input: &File, mut output: &File) -> io::Result<()> {
    give_back_on_panic();
    let found = Found {
        input: input.try_clone()?,
        output: output.try_clone()?,
        modes: modes::set_raw(input)?,
    };
    *FOUND.lock().expect("no panic while it is locked") = Some(found);
    output.write_all(TAKE_OVER.as_bytes())
}

/// Puts the terminal back as it was found, once. What fails then, fails because it is gone.
pub fn give_back() {
    let Some(mut found) = FOUND.lock().ok().and_then(|mut found| found.take()) else {
        return;
    };
    let _ = found.output.write_all(GIVE_BACK.as_bytes());
    let _ = modes::set(&found.input, &found.modes);
}

/// So that what a panic says is read on the screen that stays.
fn give_back_on_panic() {
    static ONCE: Once = Once::new();
    ONCE.call_once(|| {
        let before = panic::take_hook();
        panic::set_hook(Box::new(move |about| {
            give_back();
            before(about);
        }));
    });
}
