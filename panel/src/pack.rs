//! panel pack: a text netlist into a fabric file, with the names beside it.

use std::ffi::OsStr;
use std::path::{Path, PathBuf};

use reference::netlist::{self, counted, Netlist};

use crate::arguments::{asks_for_help, only_word, take_option};
use crate::calls;
use crate::failure::Failure;
use crate::files::{self, NAMES};
use crate::output::print;
use crate::text_source::TextSource;
use crate::words;

/// How the name of a netlist ends, most often, and that of a fabric.
const TEXT: &str = "txt";
const PACKED: &str = "bin";

const HELP: &str = "\
panel pack NETLIST [-o FILE]

Packs a text netlist into FILE, and writes it with its names beside FILE, with
the extension .names, where the other commands look for them. Without -o, FILE
is NETLIST with the extension .bin. NETLIST - is standard input.

A netlist has a line for each component; docs/NETLIST.md has all of it:

  queue   messages  sent -> arrived      capacity 2

Pack again after each change of the text: the other commands read FILE.

Exit code: 0 written, 1 refused, 2 a text or file cannot be read or written.
";

pub fn command(words: &[String]) -> Result<(), Failure> {
    if asks_for_help(words) {
        return print(HELP);
    }
    let mut words = words.to_vec();
    let output = take_option(&mut words, "-o")?;
    let source = TextSource::new(&only_word(&words, "pack", "NETLIST")?);
    let file = file_for(&source, output)?;
    let text = source.read()?;
    let netlist = netlist::read(&text)
        .map_err(|error| Failure::Input(format!("{source}:{}: {}", error.line, error.message)))?;
    let packed = calls::pack(&netlist.fabric).map_err(|refused| {
        let why = words::fabric::of_netlist(refused, &netlist);
        Failure::Refused(format!("{source}: {why}"))
    })?;
    let names = names_for(&file, &netlist, &source, &text)?;
    write(&file, &packed, names)?;
    print(&summary(&file, &packed, &netlist))
}

/// The file to write: never the netlist, nor where the names go.
fn file_for(source: &TextSource, output: Option<String>) -> Result<PathBuf, Failure> {
    let file = match (output, source) {
        (Some(file), _) => PathBuf::from(file),
        (None, TextSource::File(path)) => with_bin(path),
        (None, TextSource::StandardInput) => {
            let message = format!("'-o FILE' is needed for a netlist from {source}");
            return Err(Failure::Usage(message));
        }
    };
    let wrong = if file.file_name().is_none() {
        "is no name for a file"
    } else if source.is(&file) {
        "is the netlist itself: '-o FILE' has to name another file"
    } else if file.extension().is_some_and(|end| end == TEXT) {
        "is a name for a text: '-o FILE' has to name another file"
    } else if files::names_of(&file) == file {
        "is a name for the file of the names: '-o FILE' has to name another file"
    } else {
        return Ok(file);
    };
    let file = file.display();
    Err(Failure::Usage(format!("'{file}' {wrong}")))
}

/// `loop.bin` for `loop.txt`, and `v1.2.bin` for `v1.2`.
fn with_bin(netlist: &Path) -> PathBuf {
    let end = netlist
        .extension()
        .and_then(OsStr::to_str)
        .unwrap_or_default();
    if [TEXT, NAMES, PACKED].contains(&end) {
        return netlist.with_extension(PACKED);
    }
    let mut name = netlist.as_os_str().to_os_string();
    name.push(format!(".{PACKED}"));
    PathBuf::from(name)
}

/// The file of the names and its text; `None` if it is the netlist, and has that text. Another
/// text, with its comments, is not written over.
fn names_for(
    file: &Path,
    netlist: &Netlist,
    source: &TextSource,
    text: &str,
) -> Result<Option<(PathBuf, String)>, Failure> {
    let path = files::names_of(file);
    let names = netlist::write(netlist);
    if !source.is(&path) {
        return Ok(Some((path, names)));
    }
    if names == text {
        return Ok(None);
    }
    let file = file.display();
    Err(Failure::Input(format!(
        "{source}: the names of {file} would be written over this netlist, and its comments and \
         layout lost: call one of the two otherwise"
    )))
}

fn write(file: &Path, packed: &[u8], names: Option<(PathBuf, String)>) -> Result<(), Failure> {
    let mut all = vec![(file, packed)];
    if let Some((path, text)) = &names {
        all.push((path, text.as_bytes()));
    }
    files::write_all(&all)
}

/// `fabric.bin: 6 components, 6 channels, 1 colour, 82 bytes`
fn summary(file: &Path, packed: &[u8], netlist: &Netlist) -> String {
    let fabric = &netlist.fabric;
    let counts = [
        counted(fabric.components.len(), "component"),
        counted(fabric.channels, "channel"),
        counted(fabric.colours, "colour"),
        counted(packed.len(), "byte"),
    ];
    format!("{}: {}\n", file.display(), counts.join(", "))
}
