mod draw;
mod keys;
mod panics;

#[path = "../../../../tests/common/emulator.rs"]
#[allow(dead_code)]
mod emulator;
#[path = "../../../../tests/common/pty.rs"]
#[allow(dead_code)]
mod pty;
