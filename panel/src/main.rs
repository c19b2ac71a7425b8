//! panel: writes fabrics and proposals as text, finds and checks sums, and steps a fabric on the
//! screen. All that is decided, the library decides.

mod arguments;
mod calls;
mod check;
mod failure;
mod files;
mod opened;
mod output;
mod pack;
mod part;
mod proofs;
mod propose;
mod reach;
mod show;
mod step;
mod sum;
mod terms;
mod text_source;
mod words;

use std::ffi::OsString;
use std::process::ExitCode;

use failure::Failure;

const HELP: &str = "\
panel: fabrics and sums by name

  panel pack NETLIST [-o FILE]   packs a text netlist, and keeps its names
  panel show FILE                prints a packed fabric as a netlist
  panel propose [FOLDER]         finds the sums of fabric.bin, writes proof.bin
  panel check [FOLDER]           says what fabric.bin and proof.bin show
  panel terms [FOLDER]           prints proof.bin as text
  panel reach [FOLDER]           prints the colours that can reach each channel
  panel step [FOLDER [LESSON]]   steps fabric.bin, on the screen or by a lesson

panel COMMAND --help says more. Exit codes: 0 done, 1 refused by the library,
2 a wrong command line, text or file.
";

fn main() -> ExitCode {
    match words().and_then(|words| run(&words)) {
        Ok(()) => ExitCode::SUCCESS,
        Err(failure) => failure.report(),
    }
}

/// The words after the program's name.
fn words() -> Result<Vec<String>, Failure> {
    let words = std::env::args_os().skip(1).map(OsString::into_string);
    let words = words.collect::<Result<_, _>>();
    words.map_err(|word| Failure::Usage(format!("{word:?} is no text in UTF-8")))
}

fn run(words: &[String]) -> Result<(), Failure> {
    let Some((command, rest)) = words.split_first() else {
        return Err(Failure::Usage("a command is missing".to_string()));
    };
    match command.as_str() {
        "--help" | "-h" => output::print(HELP),
        "pack" => pack::command(rest),
        "show" => show::command(rest),
        "propose" => propose::command(rest),
        "check" => check::command(rest),
        "terms" => terms::command(rest),
        "reach" => reach::command(rest),
        "step" => step::command(rest),
        _ => Err(Failure::Usage(format!("'{command}' is no command"))),
    }
}
