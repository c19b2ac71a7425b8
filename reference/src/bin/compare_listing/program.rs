//! The listing program, run in a folder of its own.

use std::fs;
use std::path::{Path, PathBuf};
use std::process::{Command, Stdio};

use crate::files::{Content, Files};

pub struct Program {
    program: PathBuf,
    folder: PathBuf,
}

impl Program {
    /// Makes the folder where it is missing.
    pub fn new(program: &Path, folder: &Path) -> Program {
        fs::create_dir_all(folder).expect("the folder can be made");
        Program {
            program: program.canonicalize().expect("the program is there"),
            folder: folder.to_path_buf(),
        }
    }

    /// What it prints, or how it failed.
    pub fn run(&self, files: &Files) -> Result<Vec<u8>, String> {
        self.lay("fabric.bin", &files.fabric);
        self.lay("proof.bin", &files.proof);
        let mut command = Command::new(&self.program);
        command.current_dir(&self.folder).stdin(Stdio::null());
        let output = command.output().expect("the program can be run");
        if output.status.success() && output.stderr.is_empty() {
            return Ok(output.stdout);
        }
        let reported = String::from_utf8_lossy(&output.stderr);
        Err(format!(
            "the program ended with {} and reported {reported:?}",
            output.status
        ))
    }

    fn lay(&self, name: &str, content: &Content) {
        let path = self.folder.join(name);
        if path.is_dir() {
            fs::remove_dir(&path).expect("the folder is empty");
        } else if path.exists() {
            fs::remove_file(&path).expect("the file can be removed");
        }
        match content {
            Content::Missing => {}
            Content::Folder => fs::create_dir(&path).expect("a folder can be made"),
            Content::Bytes(bytes) => fs::write(&path, bytes).expect("the file can be written"),
        }
    }
}
