//! What differs between the library and the second program.

use std::fmt;

pub struct Difference {
    what: &'static str,
    during: String,
    library: String,
    second: String,
}

impl fmt::Display for Difference {
    fn fmt(&self, out: &mut fmt::Formatter) -> fmt::Result {
        writeln!(out, "{}{} differs", self.during, self.what)?;
        writeln!(out, "  library: {}", self.library)?;
        write!(out, "  second:  {}", self.second)
    }
}

impl Difference {
    fn new(what: &'static str, library: String, second: String) -> Difference {
        Difference {
            what,
            during: String::new(),
            library,
            second,
        }
    }

    /// Says what was going on.
    pub fn during(mut self, text: String) -> Difference {
        self.during = text + "\n";
        self
    }
}

pub fn same<T>(what: &'static str, library: T, second: T) -> Result<(), Difference>
where
    T: PartialEq + fmt::Display,
{
    if library == second {
        return Ok(());
    }
    Err(Difference::new(
        what,
        library.to_string(),
        second.to_string(),
    ))
}

pub fn same_bytes(what: &'static str, library: &[u8], second: &[u8]) -> Result<(), Difference> {
    if library == second {
        return Ok(());
    }
    let first = library
        .iter()
        .zip(second)
        .take_while(|(left, right)| left == right)
        .count();
    let describe = |bytes: &[u8]| match bytes.get(first) {
        Some(byte) => format!("byte {first} is {byte:02x}, all: {}", hex(bytes)),
        None => format!("ends before byte {first}, all: {}", hex(bytes)),
    };
    Err(Difference::new(what, describe(library), describe(second)))
}

pub fn hex(bytes: &[u8]) -> String {
    bytes.iter().map(|byte| format!("{byte:02x}")).collect()
}
