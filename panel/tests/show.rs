//! What `panel show` prints.

mod common;

use common::{said, usage, Folder, Said, CREDIT_LOOP};
use reference::samples::credit_loop;

const NUMBERED: &str = "\
source  source0  -> c0
join    join1    c0 c1 -> c2
queue   queue2   c2 -> c3     capacity 2
fork    fork3    c3 -> c4 c5
sink    sink4    c4
queue   queue5   c5 -> c1     capacity 2 filling 2
";

#[test]
fn numbers_without_names() {
    let folder = Folder::new("show-numbers");
    folder.write("fabric.bin", credit_loop().to_file());
    assert_eq!(
        folder.panel(&["show", "fabric.bin"]),
        Said::printed(NUMBERED)
    );
    assert_eq!(folder.files(), ["fabric.bin"]);
}

/// All but the comment.
#[test]
fn the_names_of_the_netlist() {
    let folder = Folder::new("show-names");
    folder.write("credit.txt", CREDIT_LOOP);
    folder.panel(&["pack", "credit.txt", "-o", "fabric.bin"]);
    let (_, lines) = CREDIT_LOOP.split_once("\n\n").expect("a comment first");
    assert_eq!(folder.panel(&["show", "fabric.bin"]), Said::printed(lines));
}

/// The second example of the document; its first channel is not the first to occur.
#[test]
fn colours_and_the_order_of_the_channels() {
    let folder = Folder::new("show-ring");
    let file = [
        0x12, 0x04, 0x05, 0x54, // header
        0x40, 0x80, 0, 0, 0, 0, 0, 0, 0, 0, 0x01, 0x84, 0x40, // queue
        0xC0, 0x00, 0x20, 0x40, 0, 0, 0, 0, 0, 0x08, 0, 0, 0, // switch
        0x60, 0x20, 0x60, 0x04, 0, 0, 0, 0, 0, 0, 0, 0, 0, // function
        0xE0, 0x60, 0x40, 0x80, 0, 0, 0, 0, 0, 0, 0, 0, 0, // merge
    ];
    folder.write("ring.bin", file);
    let text = "\
colours 2
channels c0 c1 c2 c3 c4

queue     queue0     c4 -> c0     capacity 3 filling 2 colour 1
switch    switch1    c0 -> c1 c2  first 1
function  function2  c1 -> c3     map 0->1 1->0
merge     merge3     c3 c2 -> c4
";
    assert_eq!(folder.panel(&["show", "ring.bin"]), Said::printed(text));
}

/// Names of another fabric, or no netlist at all: numbers, and a word on it.
#[test]
fn names_that_do_not_fit_are_left_out() {
    let folder = Folder::new("show-stale");
    folder.write("fabric.bin", credit_loop().to_file());
    let others = [
        CREDIT_LOOP.replace("filling 2", "filling 1"),
        "no netlist".to_string(),
        "source s -> a".to_string(),
    ];
    for other in others {
        folder.write("fabric.names", &other);
        let said = folder.panel(&["show", "fabric.bin"]);
        assert_eq!((said.code, said.out.as_str()), (0, NUMBERED), "{other}");
        let left_out =
            "panel: fabric.names is not the netlist of fabric.bin: its names are left out\n";
        assert_eq!(said.err, left_out);
    }
}

#[test]
fn a_file_that_is_not_there() {
    let folder = Folder::new("show-missing");
    let said = folder.panel(&["show", "fabric.bin"]);
    let message = "fabric.bin: there is no such file";
    assert_eq!(said, Said::failed(2, message));
}

#[test]
fn where_nothing_can_be_printed() {
    let folder = Folder::new("show-unprintable");
    folder.write("fabric.bin", credit_loop().to_file());
    let full = std::fs::OpenOptions::new().write(true).open("/dev/full");
    let mut command = folder.command(&["show", "fabric.bin"]);
    let said = said(command.stdout(full.expect("a full device")).output());
    let message = "standard output: No space left on device (os error 28)";
    assert_eq!(said, Said::failed(2, message));
}

#[test]
fn the_command_line() {
    let folder = Folder::new("show-command-line");
    let rows: [(&[&str], &str); 3] = [
        (&["show"], "'show' needs a FILE"),
        (
            &["show", "a.bin", "b.bin"],
            "'b.bin' is one word too many after 'show FILE'",
        ),
        (&["show", "-x", "a.bin"], "'-x' is no option of 'show'"),
    ];
    for (words, message) in rows {
        assert_eq!(folder.panel(words), usage(message), "{words:?}");
    }
    let said = folder.panel(&["show", "--help"]);
    assert_eq!((said.code, said.err.as_str()), (0, ""));
    assert!(said.out.starts_with("panel show FILE\n"));
}
