//! The C functions that a terminal and its signals need, as Linux has them.

use std::ffi::{c_int, c_short, c_uint, c_ulong};

/// A `struct termios`, and more room than any has.
#[repr(C, align(16))]
#[derive(Clone, Copy)]
pub struct Modes([u8; 256]);

impl Modes {
    pub const EMPTY: Modes = Modes([0; 256]);
}

#[repr(C)]
#[derive(Default)]
pub struct WindowSize {
    pub rows: u16,
    pub columns: u16,
    pub unused: [u16; 2],
}

#[repr(C)]
pub struct Polled {
    pub file: c_int,
    pub events: c_short,
    pub happened: c_short,
}

/// A `sigset_t`.
#[repr(C, align(16))]
#[derive(Clone, Copy)]
pub struct SignalSet([u8; 128]);

impl SignalSet {
    pub const EMPTY: SignalSet = SignalSet([0; 128]);
}

pub const AT_ONCE: c_int = 0;
pub const GET_WINDOW_SIZE: c_ulong = 0x5413;
pub const READABLE: c_short = 1;

pub const BLOCK: c_int = 0;
pub const SET_MASK: c_int = 2;

pub const HANG_UP: c_int = 1;
pub const INTERRUPT: c_int = 2;
pub const QUIT: c_int = 3;
pub const TERMINATE: c_int = 15;
pub const CONTINUE: c_int = 18;
pub const TERMINAL_STOP: c_int = 20;
pub const WINDOW_CHANGE: c_int = 28;

extern "C" {
    pub fn tcgetattr(file: c_int, modes: *mut Modes) -> c_int;
    pub fn tcsetattr(file: c_int, when: c_int, modes: *const Modes) -> c_int;
    pub fn cfmakeraw(modes: *mut Modes);
    pub fn ioctl(file: c_int, request: c_ulong, ...) -> c_int;
    pub fn poll(files: *mut Polled, count: c_ulong, milliseconds: c_int) -> c_int;
    pub fn sigaddset(set: *mut SignalSet, signal: c_int) -> c_int;
    pub fn sigprocmask(how: c_int, set: *const SignalSet, before: *mut SignalSet) -> c_int;
    pub fn signalfd(file: c_int, set: *const SignalSet, flags: c_uint) -> c_int;
    pub fn raise(signal: c_int) -> c_int;
    pub fn getppid() -> c_int;
    pub fn getsid(process: c_int) -> c_int;
    pub fn getpgid(process: c_int) -> c_int;
}
