//! What a wrong line of a netlist is answered with.

use crate::netlist::{read, TextError};

/// The error of a text that is wrong.
fn error_of(text: &str) -> TextError {
    match read(text) {
        Ok(_) => panic!("this was read: {text}"),
        Err(error) => error,
    }
}

/// Texts, the line that is wrong and what is said of it.
fn each(rows: &[(&str, usize, &str)]) {
    for &(text, line, message) in rows {
        let message = message.to_string();
        assert_eq!(error_of(text), TextError { line, message }, "{text}");
    }
}

#[test]
fn the_first_word() {
    each(&[
        (
            "\n# a comment\npump p a -> b",
            3,
            "'pump' begins no line: lines begin with colours, channels or a kind (source, sink, \
             queue, function, fork, join, switch, merge)",
        ),
        (
            "Queue q a -> b capacity 1",
            1,
            "'Queue' begins no line: it is written 'queue'",
        ),
        (
            "COLOURS 2",
            1,
            "'COLOURS' begins no line: it is written 'colours'",
        ),
        (
            "Channels a",
            1,
            "'Channels' begins no line: it is written 'channels'",
        ),
    ]);
}

#[test]
fn the_line_of_the_colours() {
    each(&[
        (
            "colours",
            1,
            "nothing follows 'colours': a count from 1 to 8, or names",
        ),
        (
            "colours 0",
            1,
            "'0' after 'colours' is no number from 1 to 8",
        ),
        (
            "colours 9",
            1,
            "'9' after 'colours' is no number from 1 to 8",
        ),
        (
            "colours 2x",
            1,
            "'2x' after 'colours' is no number from 1 to 8",
        ),
        (
            "colours 99999999999999999999999",
            1,
            "'99999999999999999999999' after 'colours' is no number from 1 to 8",
        ),
        (
            "colours +2",
            1,
            "'+2' is no name: a name begins with a letter and has letters a to z, A to Z, digits, \
             '_' and '-'",
        ),
        (
            "colours 2 red",
            1,
            "'2' is no name: a name begins with a letter and has letters a to z, A to Z, digits, \
             '_' and '-'",
        ),
        ("colours red green red", 1, "colour 'red' is named twice"),
        (
            "colours red all",
            1,
            "'all' is no name for a colour: it stands for colours",
        ),
        (
            "colours none",
            1,
            "'none' is no name for a colour: it stands for colours",
        ),
        (
            "colours a b c d e f g h i",
            1,
            "colour 'i' is one too many: a fabric has at most 8",
        ),
        (
            "colours 2\ncolours 2",
            2,
            "'colours' comes once, before the components",
        ),
        (
            "source s -> a\ncolours 2",
            2,
            "'colours' comes once, before the components",
        ),
    ]);
}

#[test]
fn the_lines_of_the_channels() {
    each(&[
        ("channels", 1, "nothing follows 'channels'"),
        (
            "channels a b\nchannels c a",
            2,
            "channel 'a' is listed twice",
        ),
        (
            "channels a first",
            1,
            "'first' is a field, no name for a channel",
        ),
        (
            "channels a 1b",
            1,
            "'1b' is no name: a name begins with a letter and has letters a to z, A to Z, digits, \
             '_' and '-'",
        ),
        (
            "channels a -> b",
            1,
            "'->' is no name: a name begins with a letter and has letters a to z, A to Z, digits, \
             '_' and '-'",
        ),
        (
            "source s -> a\nchannels a",
            2,
            "'channels' comes before the components",
        ),
        (
            "\nchannels a\nchannels b\nsource s -> c",
            4,
            "channel 'c' is not in the list of line 2",
        ),
    ]);
}

#[test]
fn more_channels_than_ports_can_number() {
    let many: Vec<String> = (0..257).map(|channel| format!("x{channel}")).collect();
    let listed = format!("channels {}", many.join(" "));
    let found: String = many
        .iter()
        .map(|name| format!("source of-{name} -> {name}\n"))
        .collect();
    let message = "channel 'x256' is one too many: a fabric has at most 255";
    each(&[(&listed, 1, message), (&found, 257, message)]);
}

#[test]
fn the_name() {
    each(&[
        ("sink", 1, "a sink needs a name"),
        ("source -> a", 1, "a source needs a name"),
        (
            "sink 4 a",
            1,
            "'4' is no name: a name begins with a letter and has letters a to z, A to Z, digits, \
             '_' and '-'",
        ),
        (
            "sink tür a",
            1,
            "'tür' is no name: a name begins with a letter and has letters a to z, A to Z, \
             digits, '_' and '-'",
        ),
        (
            "sink a.b c",
            1,
            "'a.b' is no name: a name begins with a letter and has letters a to z, A to Z, \
             digits, '_' and '-'",
        ),
        (
            "source s -> a\n\nsink s a",
            3,
            "'s' is the name of the source in line 1",
        ),
    ]);
}

#[test]
fn the_ports() {
    each(&[
        ("source s", 1, "source 's' needs '->' after its name"),
        (
            "source s a",
            1,
            "source 's' needs '->' after its name, not 'a'",
        ),
        (
            "queue q a b capacity 1",
            1,
            "queue 'q' needs '->' after its input, not 'b'",
        ),
        (
            "queue q a → b capacity 1",
            1,
            "queue 'q' needs '->' after its input, not '→'",
        ),
        (
            "merge m a b c",
            1,
            "merge 'm' needs '->' after its 2 inputs, not 'c'",
        ),
        ("sink s", 1, "sink 's' has 1 input and no output"),
        ("fork f a -> b", 1, "fork 'f' has 1 input and 2 outputs"),
        (
            "join j a -> b",
            1,
            "join 'j' has 2 inputs and 1 output, and '->' is no channel",
        ),
        (
            "queue q a -> capacity 1",
            1,
            "queue 'q' has 1 input and 1 output, and 'capacity' is no channel",
        ),
        (
            "queue q a->b capacity 1",
            1,
            "'a->b' is no name: '->' needs a blank on each side",
        ),
        (
            "sink s ?",
            1,
            "'?' is no name: a name begins with a letter and has letters a to z, A to Z, digits, \
             '_' and '-'",
        ),
    ]);
}

#[test]
fn words_that_are_no_field() {
    each(&[
        (
            "sink s a b",
            1,
            "'b' is one word too many: a sink has 1 input and no output, and no field",
        ),
        (
            "merge m a b -> c capacity 2",
            1,
            "'capacity' is one word too many: a merge has 2 inputs and 1 output, and no field",
        ),
        (
            "fork f a -> b c d",
            1,
            "'d' is no field of a fork: it has 1 input and 2 outputs, then first, second",
        ),
        (
            "source s -> a capacity 2",
            1,
            "'capacity' is no field of a source: it has no input and 1 output, then emits",
        ),
        (
            "queue q a -> b capacity 2 3",
            1,
            "'3' is no field of a queue: it has 1 input and 1 output, then capacity, filling, colour",
        ),
        (
            "join j a b -> c first 0->0",
            1,
            "'first' is no field of a join: it has 2 inputs and 1 output, then map",
        ),
    ]);
}

#[test]
fn the_fields_of_a_queue() {
    each(&[
        ("queue q a -> b", 1, "queue 'q' needs 'capacity'"),
        ("queue q a -> b filling 1", 1, "queue 'q' needs 'capacity'"),
        ("queue q a -> b capacity", 1, "nothing follows 'capacity'"),
        (
            "queue q a -> b capacity 2 capacity 2",
            1,
            "'capacity' stands twice",
        ),
        (
            "queue q a -> b capacity two",
            1,
            "'two' after 'capacity' is no number from 1 to 63",
        ),
        (
            "queue q a -> b capacity 256",
            1,
            "'256' after 'capacity' is no number from 1 to 63",
        ),
        (
            "queue q a -> b capacity +2",
            1,
            "'+2' after 'capacity' is no number from 1 to 63",
        ),
        (
            "queue q a -> b capacity 2 filling -1",
            1,
            "'-1' after 'filling' is no number from 0 to 63",
        ),
        (
            "queue q a -> b capacity 2 filling 1 colour 1",
            1,
            "'1' is no colour: there is only 0; a 'colours' line gives more",
        ),
        (
            "colours red blue\nqueue q a -> b capacity 2 filling 1 colour 1",
            2,
            "'1' is no colour: red, blue",
        ),
        (
            "queue q a -> b capacity 2 colour",
            1,
            "nothing follows 'colour'",
        ),
    ]);
}

#[test]
fn masks() {
    each(&[
        ("switch s a -> b c", 1, "switch 's' needs 'first'"),
        ("switch s a -> b c first", 1, "nothing follows 'first'"),
        ("source s -> a emits", 1, "nothing follows 'emits'"),
        (
            "colours 3\nsource s -> a emits 0 3",
            2,
            "'3' is no colour: 0, 1, 2",
        ),
        (
            "colours 3\nsource s -> a emits 0 1 0",
            2,
            "colour '0' is named twice",
        ),
        (
            "colours 3\nsource s -> a emits all 1",
            2,
            "'all' stands alone after 'emits'",
        ),
        (
            "colours 3\nswitch s a -> b c first 1 none",
            2,
            "'none' stands alone after 'first'",
        ),
    ]);
}

#[test]
fn maps() {
    each(&[
        ("function f a -> b map", 1, "nothing follows 'map'"),
        (
            "colours 2\nfunction f a -> b map 0 -> 1",
            2,
            "'0' after 'map' is no entry of a map, such as 0->1",
        ),
        (
            "colours 2\njoin j a b -> c map 0->1 0->0",
            2,
            "colour '0' is mapped twice",
        ),
        (
            "colours 2\nfork f a -> b c first 0->1 second 2->0",
            2,
            "'2' is no colour: 0, 1",
        ),
        (
            "colours 2\nfork f a -> b c second 0->",
            2,
            "'' is no colour: 0, 1",
        ),
        (
            "colours 2\nfunction f a -> b map 0->1 map 1->0",
            2,
            "'map' stands twice",
        ),
    ]);
}

/// What would move the cursor is written out, and no message is as long as its line.
#[test]
fn words_that_would_spoil_the_screen() {
    let long = "y".repeat(1_000_000);
    let shown = "y".repeat(40);
    each(&[
        (
            "sink s \u{1b}[2J\0",
            1,
            "'\\u{1b}[2J\\0' is no name: a name begins with a letter and has letters a to z, \
             A to Z, digits, '_' and '-'",
        ),
        (
            &format!("source s {long}"),
            1,
            &format!("source 's' needs '->' after its name, not '{shown}..'"),
        ),
        (
            &format!("source {long} -> a\nsink {long} a"),
            2,
            &format!("'{shown}..' is the name of the source in line 1"),
        ),
    ]);
}

/// A first word that is no kind for each place where the line ends differ.
#[test]
fn lines_are_counted_for_both_line_ends() {
    for text in ["# x\n\nx", "# x\r\n\r\nx\r\n", "\u{FEFF}# x\n\t\nx"] {
        assert_eq!(error_of(text).line, 3, "{text:?}");
    }
}
