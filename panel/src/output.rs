//! What a command prints.

use std::io::{stdout, ErrorKind, Write};

use crate::failure::Failure;

/// A reader that has gone, such as `head`, has read enough.
pub fn print(text: &str) -> Result<(), Failure> {
    let mut out = stdout().lock();
    match out.write_all(text.as_bytes()).and_then(|()| out.flush()) {
        Err(error) if error.kind() != ErrorKind::BrokenPipe => {
            Err(Failure::Input(format!("standard output: {error}")))
        }
        _ => Ok(()),
    }
}
