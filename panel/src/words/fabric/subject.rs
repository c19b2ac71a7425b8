//! What is refused, and what its parts are called: by name, or in a file, which has none, by number.

use reference::dependences::Signal;
use reference::netlist::{is_name, quoted, Names};
use reference::Fabric;

pub struct Subject<'a> {
    pub fabric: &'a Fabric,
    pub names: Option<&'a Names>,
}

impl Subject<'_> {
    /// `queue 'credits'` or `queue 5`
    pub fn component(&self, place: usize) -> String {
        let kind = self.fabric.components[place].kind.name();
        let name = self.names.map(|names| &names.components);
        format!("{kind} {}", label(name, place))
    }

    /// `channel 'back'` or `channel 5`
    pub fn channel(&self, channel: usize) -> String {
        let name = self.names.map(|names| &names.channels);
        format!("channel {}", label(name, channel))
    }

    /// `colour 'red'` or `colour 1`
    pub fn colour(&self, colour: usize) -> String {
        let name = self.names.map(|names| &names.colours);
        format!("colour {}", label(name, colour))
    }

    /// `offer of 'back'` or `offer of channel 5`
    pub fn signal(&self, signal: Signal) -> String {
        let what = match signal {
            Signal::Offer(_) => "offer",
            Signal::Take(_) => "take",
        };
        let channel = signal.channel();
        match self.names {
            Some(names) => format!("{what} of {}", quoted(&names.channels[channel])),
            None => format!("{what} of channel {channel}"),
        }
    }
}

/// Colours may have numbers for names.
fn label(names: Option<&Vec<String>>, place: usize) -> String {
    let name = names.and_then(|names| names.get(place));
    match name.filter(|name| is_name(name)) {
        Some(name) => quoted(name),
        None => place.to_string(),
    }
}
