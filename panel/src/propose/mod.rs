//! panel propose: finds the sums of a fabric, or takes a proposal from a text.

mod found;
mod options;
mod pencil;

use crate::arguments::asks_for_help;
use crate::failure::Failure;
use crate::files::FABRIC;
use crate::opened::open;
use crate::output::print;

use options::Wanted;

const HELP: &str = "\
panel propose [FOLDER] [--sum N]
panel propose [FOLDER] --from TEXT

Finds weighted sums of the queues of FOLDER's fabric.bin (by default the
current folder's) that never change, has the library check each, and prints
those that it accepts, smallest first:

    messages + credits = 2

All others follow from these and from what 'panel reach' shows: which colours
never come to a queue. The proposal of the first is written to proof.bin, those
of all, 64 at most, to proofs.bin.

  --sum N      writes the Nth sum, from 1, to proof.bin
  --from TEXT  takes the proposal in the text file TEXT, '-' for standard
               input, instead of finding any, and writes it to proof.bin if the
               library accepts it

A proposal is a text of terms, such as '2 * gate.8 - messages.0': a multiplier,
a component by its name, and the index of an equation of its kind as
docs/FORMAT.md has them. Terms stand in one line or in many; what follows a '#'
is not read. 'panel terms' prints such a text.

Exit code: 0 written, 1 refused, or there is no sum, 2 a file or text cannot be
read or written. Then nothing is changed.
";

pub fn command(words: &[String]) -> Result<(), Failure> {
    if asks_for_help(words) {
        return print(HELP);
    }
    let options = options::read(words)?;
    let opened = open(&options.folder.join(FABRIC))?;
    match options.wanted {
        Wanted::Sum(number) => found::propose(&options.folder, &opened, number),
        Wanted::From(text) => pencil::propose(&options.folder, &opened, &text),
    }
}
