//! panel propose, through the built program.

mod common;

use std::io::Write;
use std::process::Stdio;
use std::time::{Duration, Instant};

use common::folders::{put_fabric, put_netlist, put_panel, CREDIT_PROOF, RING};
use common::{said, usage, Folder, Said};
use reference::blocks::read_blocks;
use reference::check::accepted_sum;
use reference::panels::bytes;
use reference::random::Random;
use reference::random_fabric::{random_fabric, Plan};
use reference::samples::{credit_loops, doubling_row, full_queues};

fn credit_folder(name: &str) -> Folder {
    let folder = Folder::new(name);
    put_panel(&folder, "credit-loop");
    folder
}

#[test]
fn the_sums_of_the_panels() {
    let folder = Folder::new("propose-panels");
    for (name, sum, terms) in [
        ("credit-loop", "messages + credits = 2", 5),
        ("credits", "ingress + credit - outst = 0", 9),
        ("fork-join", "q1 + q2 - q3 = 0", 6),
        ("two-stages", "s0 - s1 = 0", 5),
        ("uneven", "A + B + D + C + E - 2 * F = 0", 20),
    ] {
        put_panel(&folder, name);
        let out = format!(
            "{sum}\n\nwritten: proof.bin with sum 1, {terms} terms\nwritten: proofs.bin with 1 sum\n"
        );
        assert_eq!(folder.panel(&["propose"]), Said::printed(&out), "{name}");
        let check = folder.panel(&["check"]);
        assert_eq!((check.code, check.out.lines().next()), (0, Some(sum)));
        let proof = folder.read("proof.bin");
        let block = [&[0, terms as u8][..], &proof].concat();
        assert_eq!(folder.read("proofs.bin"), block, "{name}");
    }
}

#[test]
fn the_files_of_the_credit_loop() {
    let folder = credit_folder("propose-files");
    assert_eq!(folder.panel(&["propose"]).code, 0);
    assert_eq!(folder.read("proof.bin"), bytes(CREDIT_PROOF));
    let names = ["fabric.bin", "fabric.names", "proof.bin", "proofs.bin"];
    assert_eq!(folder.files(), names);
}

#[test]
fn a_folder_is_named() {
    let outer = Folder::new("propose-outer");
    std::fs::create_dir(outer.path("loop")).expect("a folder");
    outer.write(
        "loop/fabric.bin",
        reference::samples::credit_loop().to_file(),
    );
    let out = "queue2 + queue5 = 2\n\nwritten: loop/proof.bin with sum 1, 5 terms\n\
               written: loop/proofs.bin with 1 sum\n";
    assert_eq!(outer.panel(&["propose", "loop"]), Said::printed(out));
    assert_eq!(outer.read("loop/proof.bin"), bytes(CREDIT_PROOF));
}

#[test]
fn colours_that_weigh_the_same_are_one_queue() {
    let folder = Folder::new("propose-ring");
    put_netlist(&folder, RING);
    let out = "ring = 2\n\nwritten: proof.bin with sum 1, 6 terms\n\
               written: proofs.bin with 1 sum\n";
    assert_eq!(folder.panel(&["propose"]), Said::printed(out));
}

#[test]
fn the_sum_that_is_asked_for() {
    let folder = Folder::new("propose-sum");
    put_fabric(&folder, &credit_loops(3));
    let out = |number| {
        format!(
            "queue2 + queue5 = 2\nqueue8 + queue11 = 2\nqueue14 + queue17 = 2\n\n\
             written: proof.bin with sum {number}, 5 terms\nwritten: proofs.bin with 3 sums\n"
        )
    };
    let first = bytes(CREDIT_PROOF);
    let second = bytes("0E000001 0F000001 10000001 13000001 16000001");
    let third = bytes("1A000001 1B000001 1C000001 1F000001 22000001");
    let blocks = [&[0, 5], &first[..], &[0, 5], &second, &[0, 5], &third].concat();
    for (number, proof) in [("1", first), ("3", third), ("2", second)] {
        let said = folder.panel(&["propose", "--sum", number]);
        assert_eq!(said, Said::printed(&out(number)));
        assert_eq!(folder.read("proof.bin"), proof);
        assert_eq!(folder.read("proofs.bin"), blocks);
    }
    let kept = folder.read("proof.bin");
    assert_eq!(
        folder.panel(&["propose", "--sum", "4"]),
        Said::failed(2, "there is no sum 4: 3 sums found")
    );
    assert_eq!(folder.read("proof.bin"), kept);
}

#[test]
fn more_sums_than_a_file_has_blocks() {
    let folder = Folder::new("propose-many");
    put_fabric(&folder, &full_queues(128));
    let sums: String = (0..128)
        .map(|queue| format!("queue{queue} = 1\n"))
        .collect();
    let out = format!(
        "{sums}\nwritten: proof.bin with sum 128, 1 term\n\
         written: proofs.bin with the first 64 of 128 sums, the most that it can have\n"
    );
    assert_eq!(
        folder.panel(&["propose", "--sum", "128"]),
        Said::printed(&out)
    );
    assert_eq!(folder.read("proof.bin"), bytes("FE000001"));
    let block = |queue: u8| [0, 1, 2 * queue, 0, 0, 1];
    let blocks: Vec<u8> = (0..64).flat_map(block).collect();
    assert_eq!(folder.read("proofs.bin"), blocks);
}

#[test]
fn no_sum_and_nothing_written() {
    let folder = Folder::new("propose-none");
    put_panel(&folder, "distributor");
    let before = folder.files();
    let no_queue = "there is no sum, since there is no queue; nothing is written";
    assert_eq!(folder.panel(&["propose"]), Said::failed(1, no_queue));
    assert_eq!(folder.files(), before);

    put_netlist(
        &folder,
        "source s -> a\nqueue q a -> b capacity 1\nsink t b\n",
    );
    let none = "there is no sum that the equations show; nothing is written";
    assert_eq!(folder.panel(&["propose"]), Said::failed(1, none));
    assert_eq!(folder.files(), before);

    put_netlist(&folder, "queue q a -> a capacity 1\n");
    let never = "there is no sum but that some colours never come to a queue, \
                 as 'panel reach' shows; nothing is written";
    assert_eq!(folder.panel(&["propose"]), Said::failed(1, never));
    assert_eq!(folder.files(), before);

    folder.write("fabric.bin", doubling_row(41).to_file());
    std::fs::remove_file(folder.path("fabric.names")).expect("removed");
    let large = "there is no sum but 1 that takes multipliers of more than 21 bits; \
                 nothing is written";
    assert_eq!(folder.panel(&["propose"]), Said::failed(1, large));
    assert_eq!(folder.files(), ["fabric.bin"]);
}

/// A queue on itself beside the row.
#[test]
fn sums_that_are_left_out_are_counted() {
    let folder = Folder::new("propose-left-out");
    let mut fabric = doubling_row(30);
    let channel = fabric.channels as u8;
    fabric
        .components
        .push(reference::samples::queue(channel, channel, 5, 3));
    fabric.channels += 1;
    put_fabric(&folder, &fabric);
    let out = "queue94.0 = 3\n\nwritten: proof.bin with sum 1, 1 term\n\
               written: proofs.bin with 1 sum\n\
               left out: 1 that takes multipliers of more than 21 bits\n";
    assert_eq!(folder.panel(&["propose"]), Said::printed(out));
}

/// The join's index 8 has all colours of both its inputs, of which two never come.
#[test]
fn a_sum_that_needs_the_colours_that_can_come() {
    let folder = Folder::new("propose-inside");
    put_netlist(
        &folder,
        "colours alarm token
source  alarms    -> wanted          emits alarm
join    gate      wanted credit -> sent
queue   messages  sent -> arrived    capacity 2
fork    split     arrived -> read back   second alarm->token token->token
sink    porter    read
queue   credits   back -> credit     capacity 2 filling 2 colour token
",
    );
    let sum = "messages.alarm + credits.token = 2\n";
    let out =
        format!("{sum}\nwritten: proof.bin with sum 1, 5 terms\nwritten: proofs.bin with 1 sum\n");
    assert_eq!(folder.panel(&["propose"]), Said::printed(&out));
    let ceilings =
        "  messages.alarm: at most 2, capacity 2\n  credits.token: at most 2, capacity 2\n";
    let out = format!("{sum}{ceilings}");
    assert_eq!(folder.panel(&["check"]), Said::printed(&out));
}

#[test]
fn a_largest_panel_is_quick_and_each_of_its_sums_holds() {
    let folder = Folder::new("propose-largest");
    let limit = Duration::from_secs(1);
    let plan = Plan {
        size: 128,
        colours: 8,
        circles: false,
    };
    let mut judged = 0;
    for number in 0..8 {
        let fabric = random_fabric(&mut Random::new(5, number), &plan);
        put_fabric(&folder, &fabric);
        let begun = Instant::now();
        let said = folder.panel(&["propose"]);
        assert!(begun.elapsed() < limit, "{:?}", begun.elapsed());
        let lines = said.out.lines().take_while(|line| !line.is_empty()).count();
        if lines == 0 {
            assert_eq!(said.code, 1, "fabric {number}");
            continue;
        }
        assert_eq!((said.code, said.err), (0, String::new()), "fabric {number}");
        let proofs = folder.read("proofs.bin");
        let blocks = read_blocks(&proofs).expect("blocks");
        assert_eq!(blocks.len(), lines.min(64), "fabric {number}");
        for block in blocks {
            assert!(accepted_sum(&fabric.to_file(), block).is_ok());
            judged += 1;
        }
    }
    assert!(judged > 30, "{judged}");
}

const PENCIL: &str = "\
# What is under way, and what is left.
messages.0 + credits.0
1 * gate.0 + gate.8   # a message needs a credit
- -1 * split.8
";

#[test]
fn a_pencils_proposal() {
    let folder = credit_folder("propose-pencil");
    folder.write("proof.txt", PENCIL);
    let out = "messages + credits = 2\n\nwritten: proof.bin with 5 terms\n";
    let said = folder.panel(&["propose", "--from", "proof.txt"]);
    assert_eq!(said, Said::printed(out));
    let proof = bytes("04000001 0A000001 02000001 03000001 07000001");
    assert_eq!(folder.read("proof.bin"), proof);
    let names = ["fabric.bin", "fabric.names", "proof.bin", "proof.txt"];
    assert_eq!(folder.files(), names);
}

#[test]
fn a_pencils_proposal_from_standard_input() {
    let folder = credit_folder("propose-standard-input");
    let text = "-3 * messages.0 - 3 * credits.0 - 3 * gate.0 - 3 * gate.8 - 3 * split.8";
    let out = "-3 * messages - 3 * credits = -6\n\nwritten: ./proof.bin with 5 terms\n";
    assert_eq!(propose_reading(&folder, text), Said::printed(out));
    let proof = bytes("041FFFFD 0A1FFFFD 021FFFFD 031FFFFD 071FFFFD");
    assert_eq!(folder.read("proof.bin"), proof);
    assert_eq!(
        propose_reading(&folder, "messages.0\n2 * gait.0"),
        Said::failed(2, "standard input:2: 'gait' is no component")
    );
    assert_eq!(folder.read("proof.bin"), proof);
}

fn propose_reading(folder: &Folder, text: &str) -> Said {
    let mut command = folder.command(&["propose", "--from", "-", "."]);
    let pipes = command
        .stdin(Stdio::piped())
        .stdout(Stdio::piped())
        .stderr(Stdio::piped());
    let mut child = pipes.spawn().expect("the program runs");
    let mut input = child.stdin.take().expect("its input");
    input.write_all(text.as_bytes()).expect("it reads");
    drop(input);
    said(child.wait_with_output())
}

#[test]
fn a_refused_proposal_writes_nothing() {
    let folder = credit_folder("propose-refused");
    let before = folder.files();
    let cases = [
        (
            "messages.0\n# credits.0\nporter.0",
            "term 1: 1 * porter.0: sink 'porter' has no equation (12 at 1)",
        ),
        (
            "gate.0 + gate.8 + messages.0 + credits.0",
            "the flow on 'arrived' is left: 1 in term 2 (1 * messages.0) (13 at 24)",
        ),
        (
            "# later",
            "there are no terms, so no queue has a weight (14)",
        ),
    ];
    for (text, words) in cases {
        let refused = Said::failed(1, &format!("standard input: {words}"));
        assert_eq!(propose_reading(&folder, text), refused);
        assert_eq!(folder.files(), before);
        folder.write("proof.bin", "as it was");
        assert_eq!(propose_reading(&folder, text), refused);
        assert_eq!(folder.read("proof.bin"), b"as it was");
        std::fs::remove_file(folder.path("proof.bin")).expect("removed");
    }
}

#[test]
fn a_wrong_text_is_said_with_its_line() {
    let folder = credit_folder("propose-text");
    folder.write("proof.bin", "as it was");
    for (text, message) in [
        ("\n\ngait.0\n", "proof.txt:3: 'gait' is no component"),
        (
            "messages.0\nmessages.16",
            "proof.txt:2: 'messages.16': an index is 0 to 15",
        ),
        (
            "1048576 * gate.0",
            "proof.txt:1: '1048576' is no multiplier from -1048576 to 1048575",
        ),
        (
            "gate.0 gate.8",
            "proof.txt:1: '+' or '-' is missing before 'gate.8'",
        ),
        (
            &"gate.0\n".repeat(4097),
            "proof.txt:4097: there are more than 4096 terms",
        ),
    ] {
        folder.write("proof.txt", text);
        let said = folder.panel(&["propose", "--from", "proof.txt"]);
        assert_eq!(said, Said::failed(2, message));
        assert_eq!(folder.read("proof.bin"), b"as it was");
    }
    folder.write("proof.txt", [0xFF, 0xFE]);
    let said = folder.panel(&["propose", "--from", "proof.txt"]);
    assert_eq!(
        said,
        Said::failed(2, "proof.txt:1: this is no text in UTF-8")
    );
    let said = folder.panel(&["propose", "--from", "missing.txt"]);
    let missing = "missing.txt: there is no such file";
    assert_eq!(said, Said::failed(2, missing));
    assert_eq!(folder.read("proof.bin"), b"as it was");
}

#[test]
fn without_a_good_fabric_nothing_is_written() {
    let folder = Folder::new("propose-fabric");
    let missing = "fabric.bin: there is no such file";
    assert_eq!(folder.panel(&["propose"]), Said::failed(2, missing));
    folder.write("fabric.bin", [0x10, 0, 0]);
    assert_eq!(folder.panel(&["propose"]).code, 1);
    assert_eq!(folder.files(), ["fabric.bin"]);
}

#[test]
fn a_file_that_cannot_be_written_is_said() {
    let folder = credit_folder("propose-unwritten");
    std::fs::create_dir(folder.path("proof.bin")).expect("a folder in the way");
    let before = folder.files();
    let said = folder.panel(&["propose"]);
    assert_eq!(
        (said.code, said.out.as_str()),
        (2, "messages + credits = 2\n\n")
    );
    assert!(said.err.starts_with("panel: proof.bin: "), "{}", said.err);
    assert_eq!(folder.files(), before);
}

#[test]
fn neither_file_is_written_where_one_cannot_be() {
    let folder = credit_folder("propose-one-unwritten");
    std::fs::create_dir(folder.path("proofs.bin")).expect("a folder in the way");
    let before = folder.files();
    let said = folder.panel(&["propose"]);
    let failed = Said::failed(2, "proofs.bin: this is a folder");
    assert_eq!((said.code, said.err), (failed.code, failed.err));
    assert_eq!(folder.files(), before);
}

#[test]
fn weights_below_0_come_last() {
    let folder = Folder::new("propose-signs");
    let netlist = "queue q3 b -> e capacity 2\nsource src -> i\nfork fork i -> a b\n\
                   queue q1 a -> c capacity 2\nqueue q2 c -> d capacity 2\n\
                   join join d e -> o\nsink snk o\n";
    put_netlist(&folder, netlist);
    let said = folder.panel(&["propose"]);
    assert_eq!(said.out.lines().next(), Some("q1 + q2 - q3 = 0"));
}

#[test]
fn a_wrong_command_line() {
    let folder = credit_folder("propose-usage");
    let before = folder.files();
    let cases: [(&[&str], &str); 8] = [
        (&["--all"], "'--all' is no option of 'propose'"),
        (
            &["a", "b"],
            "'b' is one word too many after 'propose FOLDER'",
        ),
        (&["--sum"], "nothing follows '--sum'"),
        (&["--from"], "nothing follows '--from'"),
        (&["--sum", "0"], "'0' after '--sum' is no number from 1 on"),
        (
            &["--sum", "two"],
            "'two' after '--sum' is no number from 1 on",
        ),
        (&["--sum", "1", "--sum", "2"], "'--sum' stands twice"),
        (
            &["--sum", "1", "--from", "-"],
            "'--sum' and '--from' do not go together",
        ),
    ];
    for (words, message) in cases {
        let said = folder.panel(&[&["propose"], words].concat());
        assert_eq!(said, usage(message));
        assert_eq!(folder.files(), before);
    }
}

#[test]
fn help() {
    let folder = Folder::new("propose-help");
    for option in ["--help", "-h"] {
        let said = folder.panel(&["propose", option]);
        assert_eq!((said.code, said.err.as_str()), (0, ""));
        for part in [
            "panel propose [FOLDER]",
            "--sum N",
            "--from TEXT",
            "Exit code",
        ] {
            assert!(said.out.contains(part), "{part}");
        }
    }
}
