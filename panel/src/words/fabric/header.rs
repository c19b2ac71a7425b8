//! Refusals 1 to 5 of a file: its header, its length and its check byte.

use reference::netlist::counted;
use reference::packed::{byte_sum, colours_in, file_length, EDITION, HEADER, RECORD};

use super::counts;

pub fn why(number: u32, file: &[u8]) -> Option<String> {
    let long = match file.len() {
        0 => "empty".to_string(),
        length => format!("{} long", counted(length, "byte")),
    };
    let &[first, components, channels, check, ..] = file else {
        return Some(format!("{long}, but the header alone takes {HEADER} bytes"));
    };
    let components = usize::from(components);
    match number {
        2 => edition(first, file),
        3 => counts::why(
            components,
            usize::from(channels),
            usize::from(colours_in(first)),
        ),
        4 => Some(format!("{long}, but {}", length(components))),
        5 => Some(check_byte(file, check)),
        _ => None,
    }
}

fn edition(first: u8, file: &[u8]) -> Option<String> {
    let edition = first >> 4;
    if edition == EDITION {
        let last_bit = first & 1;
        return (last_bit != 0).then(|| format!("the last bit of byte 0 is {last_bit}, not 0"));
    }
    let hint = match std::str::from_utf8(file) {
        Ok(_) => "; 'panel pack' takes netlists as text",
        Err(_) => "",
    };
    Some(format!(
        "the first 4 bits say edition {edition}, but only edition {EDITION} is known{hint}"
    ))
}

fn length(components: usize) -> String {
    let take = if components == 1 { "takes" } else { "take" };
    let length = file_length(components);
    let components_counted = counted(components, "component");
    format!("{components_counted} {take} {HEADER} + {RECORD} * {components} = {length}")
}

fn check_byte(file: &[u8], check: u8) -> String {
    let past = byte_sum(file);
    let right = check.wrapping_sub(past);
    format!(
        "the bytes add up to {past} past a multiple of 256: \
         the check byte, byte 3, is {check:02X}, but {right:02X} would be right"
    )
}
