//! Signals as something to wait for: they are blocked and read one by one, so that none comes at a
//! wrong moment.

use std::ffi::c_int;
use std::fs::File;
use std::io::{self, Read};
use std::os::fd::{AsRawFd, FromRawFd, RawFd};

use super::c;

const READ: [c_int; 7] = [
    c::HANG_UP,
    c::INTERRUPT,
    c::QUIT,
    c::TERMINATE,
    c::CONTINUE,
    c::TERMINAL_STOP,
    c::WINDOW_CHANGE,
];

/// What a signal asks for.
pub enum Interrupt {
    /// The window has another size.
    Resized,
    /// The program was stopped and goes on.
    Continued,
    Stop,
    End(c_int),
}

pub struct Interrupts {
    signals: File,
    before: c::SignalSet,
}

impl Interrupts {
    pub fn new() -> io::Result<Interrupts> {
        let mut set = c::SignalSet::EMPTY;
        let mut before = c::SignalSet::EMPTY;
        for signal in READ {
            unsafe { c::sigaddset(&mut set, signal) };
        }
        let file = unsafe {
            c::sigprocmask(c::BLOCK, &set, &mut before);
            c::signalfd(-1, &set, 0)
        };
        match file {
            0.. => Ok(Interrupts {
                signals: unsafe { File::from_raw_fd(file) },
                before,
            }),
            _ => Err(io::Error::last_os_error()),
        }
    }

    pub fn file(&self) -> RawFd {
        self.signals.as_raw_fd()
    }

    pub fn next(&mut self) -> io::Result<Interrupt> {
        let mut about = [0; 128];
        self.signals.read_exact(&mut about)?;
        let (number, _) = about.split_first_chunk().expect("four bytes");
        Ok(match u32::from_ne_bytes(*number) as c_int {
            c::WINDOW_CHANGE => Interrupt::Resized,
            c::CONTINUE => Interrupt::Continued,
            c::TERMINAL_STOP => Interrupt::Stop,
            signal => Interrupt::End(signal),
        })
    }
}

impl Interrupts {
    /// Stops the program until it is told to go on.
    pub fn stop(&self) {
        let mut reading = c::SignalSet::EMPTY;
        unsafe {
            c::sigprocmask(c::SET_MASK, &self.before, &mut reading);
            c::raise(c::TERMINAL_STOP);
            c::sigprocmask(c::SET_MASK, &reading, std::ptr::null_mut());
        }
    }
}

impl Drop for Interrupts {
    fn drop(&mut self) {
        unsafe { c::sigprocmask(c::SET_MASK, &self.before, std::ptr::null_mut()) };
    }
}

/// Whether there is a shell that could tell a stopped program to go on: a parent in the same session
/// and in a group of its own.
pub fn has_shell() -> bool {
    unsafe {
        let parent = c::getppid();
        c::getsid(parent) == c::getsid(0) && c::getpgid(parent) != c::getpgid(0)
    }
}

/// Ends the program as the signal would have; it is not blocked any more.
pub fn end_by(signal: c_int) -> ! {
    unsafe { c::raise(signal) };
    // Only if the signal is ignored.
    std::process::exit(128 + signal)
}
