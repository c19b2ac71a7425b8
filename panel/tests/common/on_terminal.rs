//! The program on a pseudo-terminal, and what that shows.

use std::ffi::c_int;
use std::io::{Read, Write};
use std::os::unix::process::CommandExt;
use std::process::{Child, Command, ExitStatus};
use std::sync::mpsc::{self, Receiver};
use std::thread;
use std::time::{Duration, Instant};

use super::emulator::Emulator;
use super::pty::{become_controlling, Modes, Pty};

/// A test that waits longer has failed.
const DEADLINE: Duration = Duration::from_secs(60);

/// Between two looks at something that says nothing when it changes.
const LOOK: Duration = Duration::from_millis(5);

/// What the terminal shows before the program starts.
pub const PROMPT: &str = "$ panel step .";

pub struct OnTerminal {
    pub pty: Pty,
    pub screen: Emulator,
    /// The terminal's modes before the program started.
    pub modes_before: Modes,
    /// How many bytes the program has written.
    pub written: usize,
    child: Child,
    output: Receiver<Vec<u8>>,
}

extern "C" {
    fn kill(process: c_int, signal: c_int) -> c_int;
}

impl OnTerminal {
    pub fn start(mut command: Command, rows: usize, columns: usize) -> OnTerminal {
        let pty = Pty::open(rows, columns);
        let mut screen = Emulator::new(rows, columns);
        screen.write(PROMPT.as_bytes());
        let modes_before = pty.modes();
        let slave = || pty.slave.try_clone().expect("a copy");
        command.stdin(slave()).stdout(slave()).stderr(slave());
        unsafe { command.pre_exec(become_controlling) };
        let child = command.spawn().expect("the program runs");
        let output = chunks(pty.master.try_clone().expect("a copy"));
        OnTerminal {
            pty,
            screen,
            modes_before,
            written: 0,
            child,
            output,
        }
    }

    pub fn press(&mut self, keys: &str) {
        self.pty
            .master
            .write_all(keys.as_bytes())
            .expect("the terminal takes keys");
    }

    pub fn resize(&mut self, rows: usize, columns: usize) {
        self.screen.resize(rows, columns);
        self.pty.resize(rows, columns);
    }

    pub fn signal(&self, signal: c_int) {
        assert_eq!(unsafe { kill(self.child.id() as c_int, signal) }, 0);
    }

    /// Reads until the screen is as the test wants it.
    pub fn until(&mut self, what: &str, holds: impl Fn(&Emulator) -> bool) {
        let deadline = Instant::now() + DEADLINE;
        while !holds(&self.screen) {
            let left = deadline.saturating_duration_since(Instant::now());
            let Ok(bytes) = self.output.recv_timeout(left) else {
                panic!("not shown: {what}\nbut:\n{}", self.screen.text().join("\n"));
            };
            self.written += bytes.len();
            self.screen.write(&bytes);
        }
    }

    /// Reads until the rows of the screen are these; blank ones follow them.
    pub fn until_shown(&mut self, rows: &str) {
        self.until(rows, |screen| screen.on_alternate && is_shown(screen, rows));
    }

    /// Reads until a row begins so.
    pub fn until_row(&mut self, row: usize, begin: &str) {
        self.until(begin, |screen| {
            screen.on_alternate && screen.text()[row].starts_with(begin)
        });
    }

    /// Waits until the program has ended.
    pub fn end(&mut self) -> ExitStatus {
        let child = &mut self.child;
        let mut status = None;
        wait(|| {
            status = child.try_wait().expect("a status");
            status.is_some()
        });
        status.expect("waited for")
    }

    pub fn until_modes_are_back(&self) {
        wait(|| self.pty.modes() == self.modes_before);
    }

    /// Waits until the terminal is as it was found.
    pub fn until_given_back(&mut self) {
        self.until("the screen of the beginning", |screen| {
            !screen.on_alternate && screen.shows_cursor
        });
        self.until_modes_are_back();
        assert_eq!(self.screen.text()[0], PROMPT);
        assert_eq!(self.screen.cursor, (0, PROMPT.len()));
    }
}

impl Drop for OnTerminal {
    fn drop(&mut self) {
        let _ = self.child.kill();
        let _ = self.child.wait();
    }
}

pub fn is_shown(screen: &Emulator, rows: &str) -> bool {
    let mut expected = rows.lines();
    let shown = screen.text();
    shown.iter().all(|row| row == expected.next().unwrap_or("")) && expected.next().is_none()
}

fn wait(mut holds: impl FnMut() -> bool) {
    let deadline = Instant::now() + DEADLINE;
    while !holds() {
        assert!(Instant::now() < deadline, "it takes too long");
        thread::sleep(LOOK);
    }
}

/// What comes from the terminal, as it comes.
fn chunks(mut master: std::fs::File) -> Receiver<Vec<u8>> {
    let (sender, receiver) = mpsc::channel();
    thread::spawn(move || {
        let mut bytes = [0; 4096];
        while let Ok(count @ 1..) = master.read(&mut bytes) {
            if sender.send(bytes[..count].to_vec()).is_err() {
                return;
            }
        }
    });
    receiver
}
