//! Netlists as text: what a line says, and there and back.

use super::packed;
use crate::component::{Component, Kind};
use crate::fabric::Fabric;
use crate::netlist::{is_name, read, write, Names, Netlist};
use crate::panels::panels;
use crate::random::Random;
use crate::random_fabric::{random_fabric, Plan};
use crate::samples::{credit_loop, queue, sink, source};

fn read_well(text: &str) -> Netlist {
    read(text).unwrap_or_else(|error| panic!("{}: {}", error.line, error.message))
}

/// The component of a line after a line for the colours.
fn component(colours: &str, line: &str) -> Component {
    read_well(&format!("{colours}\n{line}")).fabric.components[0]
}

#[test]
fn the_credit_loop() {
    let netlist = read_well(
        "# A message needs a credit.
source  alarms    -> wanted
join    gate      wanted credit -> sent
queue   messages  sent -> arrived      capacity 2   # empty at first
fork    split     arrived -> read back
sink    porter    read
queue   credits   back -> credit       filling 2 capacity 2
",
    );
    assert_eq!(packed(&netlist.fabric), packed(&credit_loop()));
    let names = ["alarms", "gate", "messages", "split", "porter", "credits"];
    assert_eq!(netlist.names.components, names);
    let channels = ["wanted", "credit", "sent", "arrived", "read", "back"];
    assert_eq!(netlist.names.channels, channels);
    assert_eq!(netlist.names.colours, ["0"]);
}

#[test]
fn nothing_is_a_fabric_without_components() {
    for text in ["", "\n\n", "# only this", "\u{FEFF}"] {
        let fabric = read_well(text).fabric;
        assert_eq!((fabric.colours, fabric.channels), (1, 0));
        assert!(fabric.components.is_empty());
    }
}

/// Line ends, blanks, a byte-order mark and a missing end of the last line change nothing.
#[test]
fn how_lines_end_and_are_indented() {
    let plain = "colours 2\nsource s -> a emits 1\nsink t a\n";
    let same = [
        plain.replace('\n', "\r\n"),
        plain.replace(' ', "\t"),
        plain.replace(' ', " \u{A0} "),
        plain.replace('\n', "   # said\n\n"),
        format!("\u{FEFF}{plain}"),
        plain.trim_end().to_string(),
    ];
    for text in same {
        assert_eq!(write(&read_well(&text)), write(&read_well(plain)));
    }
    assert_eq!(read_well(plain).fabric.components[0].mask, 0x40);
}

#[test]
fn a_source_emits_all_colours_if_not_said() {
    let mask = |colours, fields| component(colours, &format!("source s -> a {fields}")).mask;
    assert_eq!(mask("", ""), 0x80);
    assert_eq!(mask("colours 3", ""), 0xE0);
    assert_eq!(mask("colours 8", "emits all"), 0xFF);
    assert_eq!(mask("colours 3", "emits none"), 0x00);
    assert_eq!(mask("colours 3", "emits 2 0"), 0xA0);
    assert_eq!(mask("colours red green blue", "emits green"), 0x40);
}

#[test]
fn a_switch_sends_the_named_colours_to_its_first_output() {
    let mask = |fields| component("colours 2", &format!("switch s a -> b c {fields}")).mask;
    assert_eq!(mask("first 1"), 0x40);
    assert_eq!(mask("first all"), 0xC0);
    assert_eq!(mask("first none"), 0x00);
}

#[test]
fn a_queue_begins_empty_if_not_said() {
    let said = |fields| {
        let queue = component("colours red blue", &format!("queue q a -> b {fields}"));
        (queue.capacity, queue.filling, queue.fill_colour)
    };
    assert_eq!(said("capacity 3"), (3, 0, 0));
    assert_eq!(said("capacity 3 filling 2"), (3, 2, 0));
    assert_eq!(said("colour blue filling 2 capacity 3"), (3, 2, 1));
}

/// The library says what is out of range, as long as a byte holds it.
#[test]
fn what_is_out_of_range_is_read() {
    let said = |fields| {
        let queue = component("colours 2", &format!("queue q a -> b {fields}"));
        (queue.capacity, queue.filling, queue.fill_colour)
    };
    assert_eq!(said("capacity 0"), (0, 0, 0));
    assert_eq!(said("capacity 255 filling 255"), (255, 255, 0));
    assert_eq!(said("capacity 1 filling 0 colour 1"), (1, 0, 1));
}

#[test]
fn a_colour_without_an_entry_keeps_its_colour() {
    let function = |fields| component("colours 3", &format!("function f a -> b {fields}"));
    assert_eq!(function("").first_map, [0, 1, 2, 0, 0, 0, 0, 0]);
    assert_eq!(function("map 0->1").first_map, [1, 1, 2, 0, 0, 0, 0, 0]);
    let swapped = function("map 2->0 0->2");
    assert_eq!(swapped.first_map, [2, 1, 0, 0, 0, 0, 0, 0]);
    let join = component("colours a-b c", "join j x y -> z map a-b->c");
    assert_eq!(join.first_map, [1, 1, 0, 0, 0, 0, 0, 0]);
}

#[test]
fn a_fork_has_a_map_for_each_output() {
    let maps = |fields| {
        let fork = component("colours 2", &format!("fork f a -> b c {fields}"));
        [fork.first_map, fork.second_map].map(|map| [map[0], map[1]])
    };
    assert_eq!(maps(""), [[0, 1], [0, 1]]);
    assert_eq!(maps("first 0->1"), [[1, 1], [0, 1]]);
    assert_eq!(maps("second 1->0"), [[0, 1], [0, 0]]);
    assert_eq!(maps("second 1->0 first 0->1 1->0"), [[1, 0], [0, 0]]);
}

/// Inputs come before outputs; names of components, channels and colours do not meet.
#[test]
fn ports_stand_in_the_order_of_the_line() {
    let netlist = read_well(
        "colours join map
channels x y
channels z
join join z y -> x map join->map
",
    );
    let join = netlist.fabric.components[0];
    assert_eq!(join.ports, [2, 1, 0]);
    assert_eq!(join.first_map[..2], [1, 1]);
    assert_eq!(netlist.names.channels, ["x", "y", "z"]);
    assert_eq!(netlist.names.colours, ["join", "map"]);
}

#[test]
fn a_listed_channel_that_no_line_uses_is_counted() {
    let fabric = read_well("channels a spare\nsource s -> a\nsink t a").fabric;
    assert_eq!(fabric.channels, 2);
}

#[test]
fn as_many_channels_as_ports_can_number() {
    let sources = (0..256).map(|channel| format!("source s{channel} -> x{channel}\n"));
    let fabric = read_well(&sources.collect::<String>()).fabric;
    assert_eq!(fabric.channels, 256);
    assert_eq!(fabric.components[255].ports, [255, 0, 0]);
}

/// What is held without being said is not written; channels only where their order is another.
#[test]
fn written_in_columns() {
    let fabric = Fabric {
        colours: 2,
        channels: 5,
        components: vec![
            Component {
                fill_colour: 1,
                ..queue(4, 0, 3, 2)
            },
            Component {
                mask: 0x40,
                ..Component::new(Kind::Switch, [0, 1, 2])
            },
            Component {
                first_map: [1, 0, 0, 0, 0, 0, 0, 0],
                ..Component::new(Kind::Function, [1, 3, 0])
            },
            Component::new(Kind::Merge, [3, 2, 4]),
        ],
    };
    let names = Names::numbered(&fabric);
    let text = "colours 2
channels c0 c1 c2 c3 c4

queue     queue0     c4 -> c0     capacity 3 filling 2 colour 1
switch    switch1    c0 -> c1 c2  first 1
function  function2  c1 -> c3     map 0->1 1->0
merge     merge3     c3 c2 -> c4
";
    assert_eq!(write(&Netlist { fabric, names }), text);
}

#[test]
fn one_colour_in_the_order_of_the_lines_needs_no_first_lines() {
    let text = "source  alarms  -> wanted\nsink    porter  wanted\n";
    let fabric = Fabric {
        colours: 1,
        channels: 1,
        components: vec![source(0), sink(0)],
    };
    let names = Names {
        colours: vec!["0".to_string()],
        components: vec!["alarms".to_string(), "porter".to_string()],
        channels: vec!["wanted".to_string()],
    };
    assert_eq!(write(&Netlist { fabric, names }), text);
}

#[test]
fn the_panels_come_back() {
    for panel in panels() {
        let names = Names::numbered(&panel.fabric);
        let fabric = panel.fabric;
        let text = write(&Netlist { fabric, names });
        assert_eq!(packed(&read_well(&text).fabric), panel.file, "{text}");
    }
}

const LETTERS: &[u8] = b"abcdefghijklmnopqrstuvwxyzABCDEFGHIJKLMNOPQRSTUVWXYZ";
const OTHERS: &[u8] = b"0123456789_-";

/// Words that mean something elsewhere in a line.
const WORDS: [&str; 8] = [
    "source", "queue", "merge", "colours", "channels", "c0", "queue0", "c-",
];

fn random_name(random: &mut Random) -> String {
    if random.percent(10) {
        return random.pick(&WORDS).to_string();
    }
    let length = if random.percent(2) { 100 } else { 8 };
    let mut name = String::new();
    name.push(char::from(random.pick(LETTERS)));
    for _ in 0..random.below(length) {
        let letters = if random.percent(70) { LETTERS } else { OTHERS };
        name.push(char::from(random.pick(letters)));
    }
    name
}

/// So many names, none of them twice and none of those left out.
fn random_names(random: &mut Random, count: usize, left_out: &[&str]) -> Vec<String> {
    let mut names: Vec<String> = Vec::new();
    while names.len() < count {
        let name = random_name(random);
        if !names.contains(&name) && !left_out.contains(&name.as_str()) {
            names.push(name);
        }
    }
    names
}

const FIELDS: [&str; 7] = [
    "capacity", "filling", "colour", "emits", "map", "first", "second",
];

fn random_netlist(random: &mut Random) -> Netlist {
    let size = match random.below(20) {
        0 => 128,
        1..4 => random.between(20, 80),
        _ => random.between(1, 12),
    };
    let plan = Plan {
        size,
        colours: random.between(1, 8),
        circles: random.percent(30),
    };
    let fabric = random_fabric(random, &plan);
    let mut names = Names::numbered(&fabric);
    if random.percent(50) {
        names.colours = random_names(random, fabric.colours, &["all", "none"]);
    }
    if random.percent(80) {
        names.components = random_names(random, fabric.components.len(), &[]);
        names.channels = random_names(random, fabric.channels, &FIELDS);
    }
    Netlist { fabric, names }
}

#[test]
fn random_netlists_come_back_with_their_names() {
    for number in 0..4000 {
        let netlist = random_netlist(&mut Random::new(11, number));
        let text = write(&netlist);
        let again = read_well(&text);
        assert_eq!(again.fabric.to_file(), netlist.fabric.to_file(), "{text}");
        assert_eq!(again.names, netlist.names, "{text}");
    }
}

/// Random words of netlists, in lines: each is read, or answered with a line that is there.
#[test]
fn no_text_stops_the_reader() {
    let words = [
        "source", "queue", "fork", "join", "switch", "a", "b", "c", "->", "capacity", "2",
        "filling", "first", "map", "0->1", "colour", "0", "colours", "channels", "emits", "all",
        "#", "x->", "->->", "é", "\u{FEFF}",
    ];
    let mut refused = 0;
    for number in 0..20_000 {
        let random = &mut Random::new(12, number);
        let text: String = (0..random.between(1, 40))
            .map(|_| {
                let end = if random.percent(15) { "\n" } else { " " };
                random.pick(&words).to_string() + end
            })
            .collect();
        if let Err(error) = read(&text) {
            assert!((1..=text.lines().count()).contains(&error.line), "{text}");
            refused += 1;
        }
    }
    assert!(refused > 10_000);
}

#[test]
fn names_of_letters_digits_and_two_signs() {
    for name in ["a", "Z9", "a-b_c", "x-", "source"] {
        assert!(is_name(name), "{name}");
    }
    for word in ["", "1a", "-a", "_a", "a b", "a.b", "a->b", "ä", "a'", "->"] {
        assert!(!is_name(word), "{word}");
    }
}
