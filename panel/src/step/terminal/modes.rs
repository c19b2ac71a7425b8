//! A terminal's modes and size.

use std::ffi::c_int;
use std::fs::File;
use std::io;
use std::os::fd::AsRawFd;

use super::c;
use super::frame::Size;

/// For a terminal that does not say its size.
const USUAL: Size = Size {
    rows: 24,
    columns: 80,
};

/// Each byte comes as it is typed. Hands back the modes before.
pub fn set_raw(terminal: &File) -> io::Result<c::Modes> {
    let mut before = c::Modes::EMPTY;
    checked(unsafe { c::tcgetattr(terminal.as_raw_fd(), &mut before) })?;
    let mut raw = before;
    unsafe { c::cfmakeraw(&mut raw) };
    set(terminal, &raw)?;
    Ok(before)
}

pub fn set(terminal: &File, modes: &c::Modes) -> io::Result<()> {
    checked(unsafe { c::tcsetattr(terminal.as_raw_fd(), c::AT_ONCE, modes) })
}

pub fn size(terminal: &File) -> Size {
    let mut size = c::WindowSize::default();
    let asked = unsafe { c::ioctl(terminal.as_raw_fd(), c::GET_WINDOW_SIZE, &mut size) };
    match (asked, size.rows, size.columns) {
        (0, 1.., 1..) => Size {
            rows: usize::from(size.rows),
            columns: usize::from(size.columns),
        },
        _ => USUAL,
    }
}

/// The error of a C function that answers with -1.
pub fn checked(answer: c_int) -> io::Result<()> {
    match answer {
        0.. => Ok(()),
        _ => Err(io::Error::last_os_error()),
    }
}
