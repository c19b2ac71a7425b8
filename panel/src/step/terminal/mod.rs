//! The terminal: taken over for a screen, and left as it was found.

mod c;
mod draw;
mod found;
mod frame;
mod interrupts;
mod keys;
mod modes;
mod palette;

#[cfg(test)]
mod tests;

use std::ffi::c_int;
use std::fs::File;
use std::io::{self, ErrorKind, Read, Write};
use std::os::fd::{AsFd, AsRawFd};

use interrupts::{Interrupt, Interrupts};
use keys::Keys;

pub use frame::{Frame, Size};
pub use interrupts::end_by;
pub use keys::Key;
pub use palette::Palette;

/// So long after an escape what belongs to it has come.
const ESCAPE_MILLISECONDS: c_int = 100;

pub enum Event {
    Key(Key),
    /// The window may have another size.
    Resized,
    /// The terminal is gone.
    Closed,
    /// A signal that ends the program.
    End(c_int),
}

pub struct Terminal {
    input: File,
    output: File,
    palette: Palette,
    keys: Keys,
    interrupts: Interrupts,
    /// What it shows, if that is known.
    shown: Option<Frame>,
}

impl Terminal {
    pub fn take_over(
        input: impl AsFd,
        output: impl AsFd,
        palette: Palette,
    ) -> io::Result<Terminal> {
        let copy = |file: &dyn AsFd| file.as_fd().try_clone_to_owned().map(File::from);
        let terminal = Terminal {
            input: copy(&input)?,
            output: copy(&output)?,
            palette,
            keys: Keys::default(),
            interrupts: Interrupts::new()?,
            shown: None,
        };
        found::take_over(&terminal.input, &terminal.output)?;
        Ok(terminal)
    }

    pub fn size(&self) -> Size {
        modes::size(&self.output)
    }

    /// Writes what changed since the last frame, all of it if that had another size.
    pub fn show(&mut self, frame: Frame) -> io::Result<()> {
        let last = self.shown.as_ref().filter(|last| last.size == frame.size);
        let text = match last {
            Some(last) => draw::changes(last, &frame, &self.palette),
            None => draw::whole(&frame, &self.palette),
        };
        self.shown = Some(frame);
        self.output.write_all(text.as_bytes())
    }

    /// The next frame is written whole.
    pub fn forget(&mut self) {
        self.shown = None;
    }

    /// Leaves the terminal to the shell, if there is one, until the program is told to go on.
    pub fn stop(&mut self) -> io::Result<()> {
        if !interrupts::has_shell() {
            return Ok(());
        }
        found::give_back();
        self.interrupts.stop();
        self.forget();
        found::take_over(&self.input, &self.output)
    }

    /// Waits for something to happen.
    pub fn event(&mut self) -> io::Result<Event> {
        loop {
            if let Some(key) = self.keys.next() {
                return Ok(Event::Key(key));
            }
            let [has_input, is_interrupted] = self.wait()?;
            if is_interrupted {
                return self.interrupted();
            }
            if has_input {
                let mut bytes = [0; 1024];
                match self.input.read(&mut bytes) {
                    Ok(0) | Err(_) => return Ok(Event::Closed),
                    Ok(count) => self.keys.push(&bytes[..count]),
                }
            } else if let Some(key) = self.keys.end_wait() {
                return Ok(Event::Key(key));
            }
        }
    }

    fn interrupted(&mut self) -> io::Result<Event> {
        match self.interrupts.next()? {
            Interrupt::Resized => {}
            // A shell may have set its own modes and written on the screen.
            Interrupt::Continued => {
                modes::set_raw(&self.input)?;
                self.forget();
            }
            Interrupt::Stop => self.stop()?,
            Interrupt::End(signal) => return Ok(Event::End(signal)),
        }
        Ok(Event::Resized)
    }

    /// Whether there is input and whether a signal came; neither if no more of a key comes.
    fn wait(&self) -> io::Result<[bool; 2]> {
        let files = [self.input.as_raw_fd(), self.interrupts.file()];
        let mut polled = files.map(|file| c::Polled {
            file,
            events: c::READABLE,
            happened: 0,
        });
        let milliseconds = match self.keys.is_waiting() {
            true => ESCAPE_MILLISECONDS,
            false => -1,
        };
        match modes::checked(unsafe { c::poll(polled.as_mut_ptr(), 2, milliseconds) }) {
            Ok(()) => Ok(polled.map(|file| file.happened != 0)),
            Err(error) if error.kind() == ErrorKind::Interrupted => self.wait(),
            Err(error) => Err(error),
        }
    }
}

impl Drop for Terminal {
    fn drop(&mut self) {
        found::give_back();
    }
}
