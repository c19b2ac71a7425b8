//! Netlists that cannot be read: a message with file and line, and no file touched.

mod common;

use common::{Folder, Said, CREDIT_LOOP};

/// One of each kind of mistake; the reader's own tests have every message.
const ROWS: [(&str, &str); 18] = [
    (
        "Queue q a -> b capacity 1",
        "1: 'Queue' begins no line: it is written 'queue'",
    ),
    (
        "# x\nbuffer q a -> b",
        "2: 'buffer' begins no line: lines begin with colours, channels or a kind (source, sink, \
         queue, function, fork, join, switch, merge)",
    ),
    (
        "colours 9",
        "1: '9' after 'colours' is no number from 1 to 8",
    ),
    (
        "colours red all",
        "1: 'all' is no name for a colour: it stands for colours",
    ),
    ("channels a b a", "1: channel 'a' is listed twice"),
    (
        "channels a\nsource s -> b",
        "2: channel 'b' is not in the list of line 1",
    ),
    ("\r\n\r\nsink\r\n", "3: a sink needs a name"),
    (
        "source s -> a\nsink s a",
        "2: 's' is the name of the source in line 1",
    ),
    (
        "sink 2nd a",
        "1: '2nd' is no name: a name begins with a letter and has letters a to z, A to Z, digits, \
         '_' and '-'",
    ),
    (
        "source s a",
        "1: source 's' needs '->' after its name, not 'a'",
    ),
    ("join j a b ->", "1: join 'j' has 2 inputs and 1 output"),
    (
        "queue q a -> b c capacity 1",
        "1: 'c' is no field of a queue: it has 1 input and 1 output, then capacity, filling, colour",
    ),
    ("queue q a -> b", "1: queue 'q' needs 'capacity'"),
    (
        "queue q a -> b capacity 1000",
        "1: '1000' after 'capacity' is no number from 1 to 63",
    ),
    (
        "queue q a -> b capacity 1 capacity 1",
        "1: 'capacity' stands twice",
    ),
    (
        "source s -> a emits blue",
        "1: 'blue' is no colour: there is only 0; a 'colours' line gives more",
    ),
    (
        "colours 2\nfunction f a -> b map 0=1",
        "2: '0=1' after 'map' is no entry of a map, such as 0->1",
    ),
    (
        "colours 2\nswitch s a -> b c first 1 1",
        "2: colour '1' is named twice",
    ),
];

#[test]
fn leave_no_file() {
    let folder = Folder::new("wrong-text-new");
    for (text, message) in ROWS {
        folder.write("net.txt", text);
        let said = folder.panel(&["pack", "net.txt", "-o", "fabric.bin"]);
        assert_eq!(said, Said::failed(2, &format!("net.txt:{message}")));
        assert_eq!(folder.files(), ["net.txt"], "{text}");
    }
}

#[test]
fn leave_an_earlier_fabric_as_it_was() {
    let folder = Folder::new("wrong-text-earlier");
    folder.write("credit.txt", CREDIT_LOOP);
    folder.panel(&["pack", "credit.txt", "-o", "fabric.bin"]);
    let earlier = [folder.read("fabric.bin"), folder.read("fabric.names")];
    let files = ["credit.txt", "fabric.bin", "fabric.names", "net.txt"];
    for (text, message) in ROWS {
        folder.write("net.txt", text);
        let said = folder.panel(&["pack", "net.txt", "-o", "fabric.bin"]);
        assert_eq!(said, Said::failed(2, &format!("net.txt:{message}")));
        let now = [folder.read("fabric.bin"), folder.read("fabric.names")];
        assert_eq!(now, earlier);
        assert_eq!(folder.files(), files);
    }
}

#[test]
fn what_is_no_text() {
    let folder = Folder::new("wrong-text-bytes");
    let rows: [(&[u8], usize); 3] = [
        (b"\xFF\xFEs\0o\0", 1),
        (b"source s -> a\nsink t\xFC a\n", 2),
        (b"# one\r\n# two\r\n# Stra\xDFe\r\n", 3),
    ];
    for (bytes, line) in rows {
        folder.write("net.txt", bytes);
        let said = folder.panel(&["pack", "net.txt"]);
        let message = format!("net.txt:{line}: this is no text in UTF-8");
        assert_eq!(said, Said::failed(2, &message));
        assert_eq!(folder.files(), ["net.txt"]);
    }
}

#[test]
fn a_folder_is_no_netlist() {
    let folder = Folder::new("wrong-text-folder");
    std::fs::create_dir(folder.path("net")).expect("a folder");
    let said = folder.panel(&["pack", "net"]);
    assert_eq!(said, Said::failed(2, "net: this is a folder"));
    assert_eq!(folder.files(), ["net"]);
}

/// A line of a million letters is answered in one short line.
#[test]
fn a_very_long_line() {
    let folder = Folder::new("wrong-text-long");
    folder.write("net.txt", format!("sink {}! a", "x".repeat(1_000_000)));
    let said = folder.panel(&["pack", "net.txt"]);
    let shown = "x".repeat(40);
    let message = format!(
        "net.txt:1: '{shown}..' is no name: a name begins with a letter and has letters a to z, \
         A to Z, digits, '_' and '-'"
    );
    assert_eq!(said, Said::failed(2, &message));
}
