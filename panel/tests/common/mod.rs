//! Running the built program, in folders of their own.

#![allow(dead_code)]

pub mod emulator;
pub mod folders;
pub mod on_terminal;
pub mod page;
pub mod pty;

use std::fs;
use std::io::Write;
use std::path::{Path, PathBuf};
use std::process::{Command, Output, Stdio};

/// What the program said and how it ended.
#[derive(PartialEq, Eq, Debug)]
pub struct Said {
    pub code: i32,
    pub out: String,
    pub err: String,
}

/// A folder for one test, empty at first, removed at its end.
pub struct Folder(PathBuf);

impl Folder {
    pub fn new(name: &str) -> Folder {
        let path = Path::new(env!("CARGO_TARGET_TMPDIR")).join(name);
        let _ = fs::remove_dir_all(&path);
        fs::create_dir_all(&path).expect("a folder");
        Folder(path)
    }

    pub fn path(&self, name: &str) -> PathBuf {
        self.0.join(name)
    }

    pub fn write(&self, name: &str, content: impl AsRef<[u8]>) {
        fs::write(self.path(name), content).expect("written");
    }

    pub fn read(&self, name: &str) -> Vec<u8> {
        fs::read(self.path(name)).expect(name)
    }

    /// The names of all files, in order.
    pub fn files(&self) -> Vec<String> {
        let entries = fs::read_dir(&self.0).expect("a folder");
        let name = |entry: fs::DirEntry| entry.file_name().into_string().expect("a name");
        let mut names: Vec<String> = entries
            .map(|entry| name(entry.expect("an entry")))
            .collect();
        names.sort();
        names
    }

    /// Runs the program in the folder.
    pub fn panel(&self, words: &[&str]) -> Said {
        said(self.command(words).stdin(Stdio::null()).output())
    }

    /// Runs the program in the folder, with this on its standard input.
    pub fn panel_fed(&self, words: &[&str], input: impl AsRef<[u8]>) -> Said {
        let mut command = self.command(words);
        let pipes = command.stdin(Stdio::piped()).stdout(Stdio::piped());
        let mut running = pipes.stderr(Stdio::piped()).spawn().expect("it starts");
        let mut stdin = running.stdin.take().expect("a pipe");
        stdin.write_all(input.as_ref()).expect("it reads");
        drop(stdin);
        said(running.wait_with_output())
    }

    pub fn command(&self, words: &[&str]) -> Command {
        let mut command = Command::new(env!("CARGO_BIN_EXE_panel"));
        command.args(words).current_dir(&self.0);
        command.env("TERM", "xterm");
        command
    }
}

impl Drop for Folder {
    fn drop(&mut self) {
        let _ = fs::remove_dir_all(&self.0);
    }
}

impl Said {
    /// It went well and printed this.
    pub fn printed(out: &str) -> Said {
        Said {
            code: 0,
            out: out.to_string(),
            err: String::new(),
        }
    }

    /// It ended with this code and message, and printed nothing.
    pub fn failed(code: i32, message: &str) -> Said {
        Said {
            code,
            out: String::new(),
            err: format!("panel: {message}\n"),
        }
    }
}

/// What a wrong command line is answered with.
pub fn usage(message: &str) -> Said {
    Said::failed(2, &format!("{message}; 'panel --help' says what there is"))
}

pub fn said(output: std::io::Result<Output>) -> Said {
    let output = output.expect("the program runs");
    let text = |bytes| String::from_utf8(bytes).expect("text");
    Said {
        code: output.status.code().expect("an exit code"),
        out: text(output.stdout),
        err: text(output.stderr),
    }
}

pub const CREDIT_LOOP: &str = include_str!("../../../panels/credit-loop.txt");

/// The file of the credit loop, from the example of the document.
pub const CREDIT_FILE: &str = "1006064E\
     00000000000000000010000000\
     A0002040000000000000000000\
     40406000000000000000010000\
     806080A0000000000000000000\
     20800000000000000000000000\
     40A02000000000000000010400";

pub fn hex(bytes: &[u8]) -> String {
    bytes.iter().map(|byte| format!("{byte:02X}")).collect()
}
