//! Why a command ends without its result.

use std::process::ExitCode;

pub enum Failure {
    /// The command line is wrong.
    Usage(String),
    /// A file cannot be read or written, or its text is wrong.
    Input(String),
    /// The library refuses.
    Refused(String),
    /// The library and the second program do not agree.
    Differ(String),
}

impl Failure {
    pub fn message(&self) -> &str {
        match self {
            Failure::Usage(message)
            | Failure::Input(message)
            | Failure::Refused(message)
            | Failure::Differ(message) => message,
        }
    }

    /// The same, with the place that it came up at.
    pub fn at(self, place: &str) -> Failure {
        let message = format!("{place}: {}", self.message());
        match self {
            Failure::Usage(_) => Failure::Usage(message),
            Failure::Input(_) => Failure::Input(message),
            Failure::Refused(_) => Failure::Refused(message),
            Failure::Differ(_) => Failure::Differ(message),
        }
    }

    /// Says it, and gives the program's exit code: 2 for a wrong command line, file or text, else 1.
    pub fn report(&self) -> ExitCode {
        match self {
            Failure::Usage(message) => {
                eprintln!("panel: {message}; 'panel --help' says what there is");
                ExitCode::from(2)
            }
            Failure::Input(message) => {
                eprintln!("panel: {message}");
                ExitCode::from(2)
            }
            Failure::Refused(message) | Failure::Differ(message) => {
                eprintln!("panel: {message}");
                ExitCode::from(1)
            }
        }
    }
}
