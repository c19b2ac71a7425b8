//! Where a text comes from: a file, or `-`, standard input.

use std::fmt::{Display, Formatter};
use std::fs;
use std::io::Read;
use std::path::{Path, PathBuf};

use crate::failure::Failure;
use crate::files;

pub enum TextSource {
    File(PathBuf),
    StandardInput,
}

impl TextSource {
    pub fn new(word: &str) -> TextSource {
        match word {
            "-" => TextSource::StandardInput,
            path => TextSource::File(PathBuf::from(path)),
        }
    }

    pub fn is(&self, path: &Path) -> bool {
        let TextSource::File(file) = self else {
            return false;
        };
        let found = |path| fs::canonicalize(path).ok();
        file == path || found(file.as_path()).is_some_and(|same| found(path) == Some(same))
    }

    pub fn read(&self) -> Result<String, Failure> {
        let TextSource::File(path) = self else {
            let mut bytes = Vec::new();
            let read = std::io::stdin().read_to_end(&mut bytes);
            read.map_err(|error| Failure::Input(format!("{self}: {error}")))?;
            return files::text_of(bytes, self);
        };
        files::read_text(path)
    }
}

impl Display for TextSource {
    fn fmt(&self, to: &mut Formatter) -> std::fmt::Result {
        match self {
            TextSource::File(path) => path.display().fmt(to),
            TextSource::StandardInput => to.write_str("standard input"),
        }
    }
}
