//! A pseudo-terminal: its two ends, its modes and its size.

use std::ffi::{c_char, c_int, c_ulong, CStr};
use std::fs::{File, OpenOptions};
use std::io;
use std::os::fd::{AsRawFd, FromRawFd};
use std::os::unix::fs::OpenOptionsExt;

extern "C" {
    fn posix_openpt(flags: c_int) -> c_int;
    fn grantpt(file: c_int) -> c_int;
    fn unlockpt(file: c_int) -> c_int;
    fn ptsname_r(file: c_int, name: *mut c_char, length: usize) -> c_int;
    fn tcgetattr(file: c_int, modes: *mut Modes) -> c_int;
    fn ioctl(file: c_int, request: c_ulong, ...) -> c_int;
    fn setsid() -> c_int;
}

const READ_AND_WRITE: c_int = 2;
const NOT_CONTROLLING: c_int = 0o400;
const CLOSED_ON_EXEC: c_int = 0o2_000_000;
const SET_CONTROLLING: c_ulong = 0x540e;
const SET_WINDOW_SIZE: c_ulong = 0x5414;

/// All that tcgetattr says, and more room than it needs.
#[repr(C, align(16))]
#[derive(Clone, Copy, PartialEq, Eq, Debug)]
pub struct Modes([u8; 256]);

/// The end of the test and the end of the program.
pub struct Pty {
    pub master: File,
    pub slave: File,
}

impl Pty {
    pub fn open(rows: usize, columns: usize) -> Pty {
        let flags = READ_AND_WRITE | NOT_CONTROLLING | CLOSED_ON_EXEC;
        let master = unsafe { File::from_raw_fd(checked(posix_openpt(flags))) };
        let mut name = [0; 128];
        unsafe {
            checked(grantpt(master.as_raw_fd()));
            checked(unlockpt(master.as_raw_fd()));
            checked(ptsname_r(master.as_raw_fd(), name.as_mut_ptr(), 128));
        }
        let name = unsafe { CStr::from_ptr(name.as_ptr()) };
        let slave = OpenOptions::new()
            .read(true)
            .write(true)
            .custom_flags(NOT_CONTROLLING)
            .open(name.to_str().expect("a path"))
            .expect("the other end");
        let pty = Pty { master, slave };
        pty.resize(rows, columns);
        pty
    }

    pub fn resize(&self, rows: usize, columns: usize) {
        let size = [rows as u16, columns as u16, 0, 0];
        checked(unsafe { ioctl(self.master.as_raw_fd(), SET_WINDOW_SIZE, &size) });
    }

    pub fn modes(&self) -> Modes {
        modes(&self.slave)
    }
}

pub fn modes(terminal: &File) -> Modes {
    let mut modes = Modes([0; 256]);
    checked(unsafe { tcgetattr(terminal.as_raw_fd(), &mut modes) });
    modes
}

/// For a new process: makes the terminal on its standard input its controlling one.
pub fn become_controlling() -> io::Result<()> {
    match unsafe { setsid() >= 0 && ioctl(0, SET_CONTROLLING, 0) >= 0 } {
        true => Ok(()),
        false => Err(io::Error::last_os_error()),
    }
}

fn checked(answer: c_int) -> c_int {
    assert!(answer >= 0, "{}", io::Error::last_os_error());
    answer
}
