//! A file that is being written: beside its place, until it is renamed.

use std::fs;
use std::io::ErrorKind;
use std::path::{Path, PathBuf};

use crate::failure::Failure;

pub struct Part {
    beside: PathBuf,
    place: PathBuf,
    renamed: bool,
}

impl Part {
    /// A link stays, and so do the permissions of a file that is there. A folder, and a device or a
    /// pipe, which renaming would replace by a file, are refused.
    pub fn write(path: &Path, bytes: &[u8]) -> Result<Part, Failure> {
        let wrong = |why: &str| Err(Failure::Input(format!("{}: {why}", path.display())));
        let (mut place, mut permissions) = (path.to_path_buf(), None);
        match fs::metadata(path) {
            Ok(about) if about.is_dir() => return wrong("this is a folder"),
            Ok(about) if !about.is_file() => return wrong("this is a device or a pipe, no file"),
            Ok(about) => {
                place = fs::canonicalize(path).unwrap_or(place);
                permissions = Some(about.permissions());
            }
            Err(_) => {}
        }
        let part = Part {
            beside: beside(&place),
            place,
            renamed: false,
        };
        let written = fs::write(&part.beside, bytes).and_then(|()| match permissions {
            Some(permissions) => fs::set_permissions(&part.beside, permissions),
            None => Ok(()),
        });
        match written {
            Ok(()) => Ok(part),
            Err(error) => Err(failed(path, &error)),
        }
    }

    pub fn rename(mut self) -> Result<(), Failure> {
        let renamed = fs::rename(&self.beside, &self.place);
        self.renamed = renamed.is_ok();
        renamed.map_err(|error| failed(&self.place, &error))
    }
}

impl Drop for Part {
    fn drop(&mut self) {
        if !self.renamed {
            // It may not be there at all.
            let _ = fs::remove_file(&self.beside);
        }
    }
}

/// A name of its own in the same folder.
fn beside(path: &Path) -> PathBuf {
    let mut name = path.file_name().unwrap_or_default().to_os_string();
    name.push(format!(".{}.part", std::process::id()));
    path.with_file_name(name)
}

/// Why a file cannot be read or written, in words.
pub fn failed(path: &Path, error: &std::io::Error) -> Failure {
    let folder = path.parent().unwrap_or(Path::new(""));
    let no_folder = || folder != Path::new("") && !folder.is_dir();
    let why = match error.kind() {
        ErrorKind::NotFound | ErrorKind::NotADirectory if no_folder() => {
            format!("there is no folder {}", folder.display())
        }
        ErrorKind::NotFound => "there is no such file".to_string(),
        ErrorKind::IsADirectory => "this is a folder".to_string(),
        _ => error.to_string(),
    };
    Failure::Input(format!("{}: {why}", path.display()))
}
