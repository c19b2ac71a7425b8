//! The records of a file, read as they stand.

use reference::packed::{colours_in, record_fields, HEADER, RECORD};
use reference::Fabric;

use super::Subject;
use crate::calls::Refused;

/// `None` if not even a header is there.
pub fn fabric_in(file: &[u8]) -> Option<Fabric> {
    let &[first, _, channels, _, ..] = file else {
        return None;
    };
    Some(Fabric {
        colours: usize::from(colours_in(first)),
        channels: usize::from(channels),
        components: records(file)
            .iter()
            .map(|record| record_fields(record).0)
            .collect(),
    })
}

/// Refusal 6 for the six bits at the end.
pub fn wrong_end(refused: Refused, subject: &Subject, file: &[u8]) -> Option<String> {
    let place = usize::try_from(refused.place).ok()?;
    let (_, end) = record_fields(records(file).get(place)?);
    (refused.number == 6 && end != 0).then(|| {
        let component = subject.component(place);
        format!("{component}: the six bits at the end of its record are {end:06b}, not 0")
    })
}

fn records(file: &[u8]) -> &[[u8; RECORD]] {
    file[HEADER..].as_chunks().0
}
