//! The page on netlists: its examples pack, and what it says of wrong ones is what is said.

mod common;

use common::page::indented;
use common::{hex, Folder, CREDIT_FILE};

const PAGE: &str = include_str!("../../docs/NETLIST.md");

/// From the second example of the document on files, byte by byte.
const RING_FILE: &str = "12040554\
     40800000000000000000018440\
     C0002040000000000008000000\
     60206004000000000000000000\
     E0604080000000000000000000";

#[test]
fn its_examples_pack() {
    let folder = Folder::new("page-examples");
    let ring = indented(PAGE, "colours alarm fault");
    // As the document numbers them; the lines alone would number them otherwise.
    let order = "channels next left rest turned back\n";
    let examples = [
        (indented(PAGE, "# A message needs a credit."), CREDIT_FILE),
        (order.to_string() + &ring, RING_FILE),
    ];
    for (text, file) in examples {
        folder.write("net.txt", &text);
        folder.panel(&["pack", "net.txt"]);
        assert_eq!(hex(&folder.read("net.bin")), file, "{text}");
    }
}

#[test]
fn its_messages_are_said() {
    let folder = Folder::new("page-messages");
    let good = indented(PAGE, "# A message needs a credit.");
    let branches = "source s -> a
fork f a -> b c
switch x b -> d e first all
switch y c -> g h first all
sink k d
sink l e
sink m g
sink n h";
    let rows = [
        ("credit-loop.txt", good.replace("capacity 2\n", "\n"), 2),
        ("credit-loop.txt", good.replace("filling 2", "filling 3"), 1),
        ("credit-loop.txt", good.replace("back -> ", "spare -> "), 1),
        ("branches.txt", branches.to_string(), 1),
    ];
    for (name, text, code) in rows {
        folder.write(name, &text);
        let said = folder.panel(&["pack", name]);
        assert_eq!(said.code, code);
        assert!(
            PAGE.contains(&format!("\n    {}", said.err)),
            "{}",
            said.err
        );
    }
}
