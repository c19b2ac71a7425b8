//! Refusals of a fabric: 1 to 8. That it is refused, and where, is what the library said; the words
//! are worked out from the fields.

mod circle;
mod counts;
mod ends;
mod field;
mod header;
mod records;
mod subject;
#[cfg(test)]
mod tests;

use reference::netlist::Netlist;

use super::number_and_place;
use crate::calls::Refused;
use subject::Subject;

/// A packed file that unpack refuses.
pub fn of_file(refused: Refused, file: &[u8]) -> String {
    let why = header::why(refused.number, file).or_else(|| {
        let fabric = records::fabric_in(file)?;
        let subject = Subject {
            fabric: &fabric,
            names: None,
        };
        why(refused, &subject).or_else(|| records::wrong_end(refused, &subject, file))
    });
    said(refused, why)
}

/// A netlist that pack refuses.
pub fn of_netlist(refused: Refused, netlist: &Netlist) -> String {
    let subject = Subject {
        fabric: &netlist.fabric,
        names: Some(&netlist.names),
    };
    said(refused, why(refused, &subject))
}

/// Refusals that files and netlists share.
fn why(refused: Refused, subject: &Subject) -> Option<String> {
    let place = usize::try_from(refused.place).ok()?;
    let fabric = subject.fabric;
    match refused.number {
        3 => counts::why(fabric.components.len(), fabric.channels, fabric.colours),
        6 => field::why(subject, place),
        7 => ends::why(subject, place),
        8 => circle::why(subject),
        _ => None,
    }
}

fn said(refused: Refused, why: Option<String>) -> String {
    let why = why.unwrap_or_else(|| "refused".to_string());
    format!("{why} {}", number_and_place(refused))
}
