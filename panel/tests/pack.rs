//! What `panel pack` writes, where, and what it says.

mod common;

use std::ffi::OsStr;
use std::fs;
use std::os::unix::ffi::OsStrExt;
use std::os::unix::fs::PermissionsExt;
use std::path::Path;

use common::{hex, said, usage, Folder, Said, CREDIT_FILE, CREDIT_LOOP};
use reference::panels::panels;

/// The line that a packed credit loop is answered with.
fn credit_line(file: &str) -> Said {
    Said::printed(&format!(
        "{file}: 6 components, 6 channels, 1 colour, 82 bytes\n"
    ))
}

#[test]
fn the_panels_pack_to_the_files_expected() {
    let folder = Folder::new("pack-panels");
    let root = Path::new(env!("CARGO_MANIFEST_DIR")).join("../panels");
    let counts = [
        (
            "credit-loop",
            "6 components, 6 channels, 1 colour, 82 bytes",
        ),
        ("credits", "11 components, 11 channels, 1 colour, 147 bytes"),
        (
            "distributor",
            "8 components, 7 channels, 3 colours, 108 bytes",
        ),
        ("fork-join", "7 components, 7 channels, 1 colour, 95 bytes"),
        ("two-stages", "6 components, 6 channels, 1 colour, 82 bytes"),
        ("uneven", "18 components, 21 channels, 1 colour, 238 bytes"),
    ];
    let panels = panels();
    assert_eq!(panels.len(), counts.len());
    for (panel, (name, counts)) in panels.iter().zip(counts) {
        assert_eq!(panel.name, name);
        let netlist = root.join(format!("{name}.txt"));
        let netlist = netlist.to_str().expect("a path");
        let said = folder.panel(&["pack", netlist, "-o", "fabric.bin"]);
        assert_eq!(said, Said::printed(&format!("fabric.bin: {counts}\n")));
        assert_eq!(hex(&folder.read("fabric.bin")), hex(&panel.file), "{name}");
    }
}

#[test]
fn the_netlist_s_name_with_bin_if_no_other_is_given() {
    let folder = Folder::new("pack-default");
    fs::create_dir(folder.path("east.wing")).expect("a folder");
    folder.write("east.wing/credit.loop.txt", CREDIT_LOOP);
    let said = folder.panel(&["pack", "east.wing/credit.loop.txt"]);
    assert_eq!(said, credit_line("east.wing/credit.loop.bin"));
    assert_eq!(hex(&folder.read("east.wing/credit.loop.bin")), CREDIT_FILE);
    assert_eq!(folder.files(), ["east.wing"]);
    let there = fs::read_dir(folder.path("east.wing")).expect("a folder");
    assert_eq!(there.count(), 3);
}

#[test]
fn the_option_may_come_first() {
    let folder = Folder::new("pack-option-first");
    folder.write("credit", CREDIT_LOOP);
    let said = folder.panel(&["pack", "-o", "fabric.bin", "credit"]);
    assert_eq!(said, credit_line("fabric.bin"));
    assert_eq!(folder.files(), ["credit", "fabric.bin", "fabric.names"]);
    assert_eq!(hex(&folder.read("fabric.bin")), CREDIT_FILE);
}

/// The netlist as it would be shown, without the comment.
#[test]
fn the_names_are_kept_beside_it() {
    let folder = Folder::new("pack-names");
    let text = "# two kinds of message
colours alarm fault
source desk -> in emits fault   # the desk's own
function raise in -> out map fault->alarm
sink printer out";
    folder.write("desk.txt", text);
    let said = folder.panel(&["pack", "desk.txt"]);
    let line = "desk.bin: 3 components, 2 channels, 2 colours, 43 bytes\n";
    assert_eq!(said, Said::printed(line));
    let names = "colours alarm fault

source    desk     -> in      emits fault
function  raise    in -> out  map fault->alarm
sink      printer  out
";
    assert_eq!(String::from_utf8(folder.read("desk.names")).unwrap(), names);
    assert_eq!(folder.panel(&["show", "desk.bin"]), Said::printed(names));
    assert_eq!(folder.read("desk.txt"), text.as_bytes());
}

#[test]
fn windows_line_ends_tabs_a_mark_and_no_last_line_end() {
    let folder = Folder::new("pack-line-ends");
    let windows = CREDIT_LOOP.trim_end().replace('\n', "\r\n");
    folder.write("a.txt", format!("\u{FEFF}{}", windows.replace("  ", "\t")));
    assert_eq!(folder.panel(&["pack", "a.txt"]), credit_line("a.bin"));
    assert_eq!(hex(&folder.read("a.bin")), CREDIT_FILE);
}

#[test]
fn standard_input() {
    let folder = Folder::new("pack-standard-input");
    let said = folder.panel_fed(&["pack", "-", "-o", "fabric.bin"], CREDIT_LOOP);
    assert_eq!(said, credit_line("fabric.bin"));
    assert_eq!(hex(&folder.read("fabric.bin")), CREDIT_FILE);
    assert_eq!(folder.files(), ["fabric.bin", "fabric.names"]);

    let said = folder.panel_fed(&["pack", "-", "-o", "x.bin"], "\nsink s a b\n");
    let message = "standard input:2: 'b' is one word too many: \
                   a sink has 1 input and no output, and no field";
    assert_eq!(said, Said::failed(2, message));
    let said = folder.panel_fed(&["pack", "-", "-o", "x.bin"], "source s -> a\n");
    let message = "standard input: channel 'a' is no input of any component (7 at 0)";
    assert_eq!(said, Said::failed(1, message));
    assert_eq!(folder.files(), ["fabric.bin", "fabric.names"]);
}

#[test]
fn an_earlier_fabric_is_replaced_with_its_names() {
    let folder = Folder::new("pack-again");
    folder.write("credit.txt", CREDIT_LOOP);
    folder.write("fabric.bin", "earlier");
    folder.write("fabric.names", "earlier");
    let said = folder.panel(&["pack", "credit.txt", "-o", "fabric.bin"]);
    assert_eq!(said, credit_line("fabric.bin"));
    assert_eq!(hex(&folder.read("fabric.bin")), CREDIT_FILE);
    let shown = folder.panel(&["show", "fabric.bin"]);
    assert!(shown.out.contains("queue   credits "), "{}", shown.out);
    let files = ["credit.txt", "fabric.bin", "fabric.names"];
    assert_eq!(folder.files(), files);
}

/// Whatever the path is spelt like, the netlist is not written over.
#[test]
fn the_netlist_is_no_place_for_the_fabric() {
    let folder = Folder::new("pack-onto-itself");
    folder.write("credit.bin", CREDIT_LOOP);
    let itself = |file: &str| {
        usage(&format!(
            "'{file}' is the netlist itself: '-o FILE' has to name another file"
        ))
    };
    let said = folder.panel(&["pack", "credit.bin"]);
    assert_eq!(said, itself("credit.bin"));
    let said = folder.panel(&["pack", "credit.bin", "-o", "./credit.bin"]);
    assert_eq!(said, itself("./credit.bin"));
    std::os::unix::fs::symlink("credit.bin", folder.path("linked.bin")).expect("a link");
    let said = folder.panel(&["pack", "credit.bin", "-o", "linked.bin"]);
    assert_eq!(said, itself("linked.bin"));
    assert_eq!(folder.files(), ["credit.bin", "linked.bin"]);
    assert_eq!(folder.read("credit.bin"), CREDIT_LOOP.as_bytes());
}

#[test]
fn a_name_that_ends_otherwise_is_kept_whole() {
    let folder = Folder::new("pack-version");
    folder.write("v1.2", CREDIT_LOOP);
    assert_eq!(folder.panel(&["pack", "v1.2"]), credit_line("v1.2.bin"));
    assert_eq!(folder.files(), ["v1.2", "v1.2.bin", "v1.2.names"]);
}

#[test]
fn a_text_is_no_place_for_the_fabric() {
    let folder = Folder::new("pack-onto-text");
    folder.write("credit.txt", CREDIT_LOOP);
    folder.write("mine.txt", "# mine");
    let said = folder.panel(&["pack", "credit.txt", "-o", "mine.txt"]);
    let message = "'mine.txt' is a name for a text: '-o FILE' has to name another file";
    assert_eq!(said, usage(message));
    assert_eq!(folder.read("mine.txt"), b"# mine");
}

#[test]
fn a_file_that_is_there_keeps_its_permissions() {
    let folder = Folder::new("pack-permissions");
    folder.write("credit.txt", CREDIT_LOOP);
    folder.write("credit.bin", "");
    let only_mine = fs::Permissions::from_mode(0o600);
    fs::set_permissions(folder.path("credit.bin"), only_mine).expect("set");
    assert_eq!(
        folder.panel(&["pack", "credit.txt"]),
        credit_line("credit.bin")
    );
    let about = fs::metadata(folder.path("credit.bin")).expect("a file");
    assert_eq!(about.permissions().mode() & 0o777, 0o600);
}

#[test]
fn the_file_of_the_names_is_no_place_for_the_fabric() {
    let folder = Folder::new("pack-onto-names");
    folder.write("credit.txt", CREDIT_LOOP);
    let said = folder.panel(&["pack", "credit.txt", "-o", "fabric.names"]);
    let message = "'fabric.names' is a name for the file of the names: \
                   '-o FILE' has to name another file";
    assert_eq!(said, usage(message));
    assert_eq!(folder.files(), ["credit.txt"]);
}

/// Its comments would be lost.
#[test]
fn a_netlist_with_the_names_name_is_not_written_over() {
    let folder = Folder::new("pack-netlist-as-names");
    folder.write("fabric.names", CREDIT_LOOP);
    let lost = "fabric.names: the names of fabric.bin would be written over this netlist, and its \
                comments and layout lost: call one of the two otherwise";
    let said = folder.panel(&["pack", "fabric.names"]);
    assert_eq!(said, Said::failed(2, lost));
    assert_eq!(folder.files(), ["fabric.names"]);
    assert_eq!(folder.read("fabric.names"), CREDIT_LOOP.as_bytes());

    // With another name for the fabric there is room for both.
    let said = folder.panel(&["pack", "fabric.names", "-o", "other.bin"]);
    assert_eq!(said, credit_line("other.bin"));
    let files = ["fabric.names", "other.bin", "other.names"];
    assert_eq!(folder.files(), files);
    assert_eq!(folder.read("fabric.names"), CREDIT_LOOP.as_bytes());
}

#[test]
fn a_netlist_that_is_the_names_already_stays() {
    let folder = Folder::new("pack-names-themselves");
    folder.write("credit.txt", CREDIT_LOOP);
    folder.panel(&["pack", "credit.txt", "-o", "fabric.bin"]);
    let names = folder.read("fabric.names");
    fs::remove_file(folder.path("fabric.bin")).expect("removed");
    let said = folder.panel(&["pack", "fabric.names"]);
    assert_eq!(said, credit_line("fabric.bin"));
    assert_eq!(hex(&folder.read("fabric.bin")), CREDIT_FILE);
    assert_eq!(folder.read("fabric.names"), names);
}

#[test]
fn where_nothing_can_be_written() {
    let folder = Folder::new("pack-unwritable");
    folder.write("credit.txt", CREDIT_LOOP);
    fs::create_dir(folder.path("full.bin")).expect("a folder");
    let rows = [
        ("none/fabric.bin", "there is no folder none"),
        ("credit.txt/fabric.bin", "there is no folder credit.txt"),
        ("full.bin", "this is a folder"),
    ];
    for (file, error) in rows {
        let said = folder.panel(&["pack", "credit.txt", "-o", file]);
        assert_eq!(said, Said::failed(2, &format!("{file}: {error}")));
        assert_eq!(folder.files(), ["credit.txt", "full.bin"]);
    }
    for file in ["", ".", ".."] {
        let said = folder.panel(&["pack", "credit.txt", "-o", file]);
        assert_eq!(said, usage(&format!("'{file}' is no name for a file")));
    }
    assert_eq!(folder.files(), ["credit.txt", "full.bin"]);
}

#[test]
fn a_fabric_whose_names_cannot_be_written_is_not_written() {
    let folder = Folder::new("pack-names-unwritable");
    folder.write("credit.txt", CREDIT_LOOP);
    fs::create_dir(folder.path("fabric.names")).expect("a folder");
    let said = folder.panel(&["pack", "credit.txt", "-o", "fabric.bin"]);
    assert_eq!(said, Said::failed(2, "fabric.names: this is a folder"));
    assert_eq!(folder.files(), ["credit.txt", "fabric.names"]);
}

#[test]
fn a_netlist_that_is_not_there() {
    let folder = Folder::new("pack-missing");
    let said = folder.panel(&["pack", "credit.txt"]);
    let message = "credit.txt: there is no such file";
    assert_eq!(said, Said::failed(2, message));
    assert!(folder.files().is_empty());
}

#[test]
fn the_command_line() {
    let folder = Folder::new("pack-command-line");
    folder.write("a.txt", CREDIT_LOOP);
    let rows: [(&[&str], &str); 7] = [
        (&["pack"], "'pack' needs a NETLIST"),
        (&["pack", "-o", "x.bin"], "'pack' needs a NETLIST"),
        (&["pack", "a.txt", "-o"], "nothing follows '-o'"),
        (
            &["pack", "a.txt", "-o", "x.bin", "-o", "y.bin"],
            "'-o' stands twice",
        ),
        (
            &["pack", "a.txt", "b.txt"],
            "'b.txt' is one word too many after 'pack NETLIST'",
        ),
        (
            &["pack", "--force", "a.txt"],
            "'--force' is no option of 'pack'",
        ),
        (
            &["pack", "-"],
            "'-o FILE' is needed for a netlist from standard input",
        ),
    ];
    for (words, message) in rows {
        assert_eq!(folder.panel(words), usage(message), "{words:?}");
    }
    let mut no_text = folder.command(&["pack", "a.txt", "-o"]);
    let said = said(no_text.arg(OsStr::from_bytes(b"fabric\xFF.bin")).output());
    assert_eq!(said, usage("\"fabric\\xFF.bin\" is no text in UTF-8"));
    assert_eq!(folder.files(), ["a.txt"]);
}

#[test]
fn help() {
    let folder = Folder::new("pack-help");
    for words in [["pack", "--help"], ["pack", "-h"]] {
        let said = folder.panel(&words);
        assert_eq!((said.code, said.err.as_str()), (0, ""));
        assert!(said.out.starts_with("panel pack NETLIST [-o FILE]\n"));
    }
    let said = folder.panel(&["--help"]);
    assert_eq!((said.code, said.err.as_str()), (0, ""));
    assert!(said.out.contains("\n  panel pack NETLIST [-o FILE] "));
    assert!(said.out.contains("\n  panel show FILE "));
    assert!(said.out.contains("\n  panel reach [FOLDER] "));
}

/// Names are as long as somebody writes them.
#[test]
fn a_very_long_name_is_packed_and_printed() {
    let folder = Folder::new("pack-long-name");
    let name = "q".repeat(70_000);
    folder.write(
        "fabric.txt",
        format!("queue {name} a -> a capacity 1 filling 1\n"),
    );
    let line = "fabric.bin: 1 component, 1 channel, 1 colour, 17 bytes\n";
    assert_eq!(folder.panel(&["pack", "fabric.txt"]), Said::printed(line));
    let shown = format!("queue  {name}  a -> a  capacity 1 filling 1\n");
    assert_eq!(folder.panel(&["show", "fabric.bin"]), Said::printed(&shown));
    folder.panel(&["propose"]);
    let terms = format!("1 * {name}.0  # all in {name} + all on a - all on a = 1\n");
    assert_eq!(folder.panel(&["terms"]), Said::printed(&terms));
}

#[test]
fn a_pipe_stays_a_pipe_and_a_link_a_link() {
    let folder = Folder::new("pack-pipe-link");
    folder.write("fabric.txt", CREDIT_LOOP);
    let made = std::process::Command::new("mkfifo")
        .arg(folder.path("pipe"))
        .status();
    assert!(made.expect("mkfifo").success());
    let wrong = "pipe: this is a device or a pipe, no file";
    let said = folder.panel(&["pack", "fabric.txt", "-o", "pipe"]);
    assert_eq!(said, Said::failed(2, wrong));
    assert_eq!(folder.files(), ["fabric.txt", "pipe"]);

    folder.write("store", "");
    std::os::unix::fs::symlink("store", folder.path("fabric.bin")).expect("a link");
    let said = folder.panel(&["pack", "fabric.txt"]);
    assert_eq!(said, credit_line("fabric.bin"));
    assert_eq!(hex(&folder.read("store")), CREDIT_FILE);
    assert!(folder.path("fabric.bin").is_symlink());
}
