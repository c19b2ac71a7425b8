//! panel check, through the built program.

mod common;

use common::folders::{put_fabric, put_netlist, put_panel, CREDIT_PROOF, RING};
use common::{usage, Folder, Said, CREDIT_LOOP};
use reference::panels::bytes;
use reference::samples::credit_loops;

/// The ten equations of the ring, once each.
const RING_PROOF: &str = "00000001 00200001 02000001 02200001 03000001 03200001 04000001 04200001 \
                          06000001 06200001";

fn with_proof(name: &str, netlist: &str, proof: &str) -> Folder {
    let folder = Folder::new(name);
    put_netlist(&folder, netlist);
    folder.write("proof.bin", bytes(proof));
    folder
}

#[test]
fn the_credit_loop() {
    let folder = with_proof("check-credit", CREDIT_LOOP, CREDIT_PROOF);
    let out = "messages + credits = 2\n  messages: at most 2, capacity 2\n\
               \x20 credits: at most 2, capacity 2\n";
    assert_eq!(folder.panel(&["check"]), Said::printed(out));
}

#[test]
fn a_ceiling_below_the_capacity() {
    let wider = CREDIT_LOOP.replacen("capacity 2", "capacity 5", 1);
    let folder = with_proof("check-wider", &wider, CREDIT_PROOF);
    let out = "messages + credits = 2\n  messages: at most 2, capacity 5\n\
               \x20 credits: at most 2, capacity 2\n";
    assert_eq!(folder.panel(&["check"]), Said::printed(out));
}

/// q1 is at most q3; nothing is said of q3, whose weight is below 0.
#[test]
fn a_weight_below_0_has_no_ceiling() {
    let folder = Folder::new("check-below");
    let netlist = "source src -> i\nfork fork i -> a b\nqueue q1 a -> c capacity 9\n\
                   queue q3 b -> d capacity 4\njoin join c d -> o\nsink snk o\n";
    put_netlist(&folder, netlist);
    folder.write(
        "proof.bin",
        bytes("02000001 031FFFFF 04000001 061FFFFF 091FFFFF"),
    );
    let out = "q1 - q3 = 0\n  q1: at most 4, capacity 9\n";
    assert_eq!(folder.panel(&["check"]), Said::printed(out));
}

#[test]
fn each_colour_has_its_ceiling() {
    let folder = with_proof("check-ring", RING, RING_PROOF);
    let out = "ring = 2\n  ring.red: at most 2, capacity 3\n  ring.blue: at most 2, capacity 3\n";
    assert_eq!(folder.panel(&["check"]), Said::printed(out));
}

#[test]
fn the_sums_of_proofs_bin_once_each() {
    let folder = Folder::new("check-proofs");
    put_fabric(&folder, &credit_loops(2));
    let (first, second) = (
        bytes("0005 02000001 03000001 04000001 07000001 0A000001"),
        bytes("0005 0E000001 0F000001 10000001 13000001 16000001"),
    );
    let twice = bytes("0005 0E000002 0F000002 10000002 13000002 16000002");
    let no_equation = bytes("0001 00000001");
    let blocks = [&first[..], &second, &no_equation, &twice, &second].concat();
    folder.write("proof.bin", &first[2..]);
    folder.write("proofs.bin", blocks);
    let out = "queue2 + queue5 = 2\n  queue2: at most 2, capacity 2\n\
               \x20 queue5: at most 2, capacity 2\n\nby proofs.bin also:\n\
               queue8 + queue11 = 2\n2 * queue8 + 2 * queue11 = 4\n\n\
               refused in proofs.bin: 1 sum\n";
    assert_eq!(folder.panel(&["check"]), Said::printed(out));
    // Nothing but the sum of proof.bin, then no blocks at all.
    let alone = out.split("\n\n").next().expect("a first part").to_string() + "\n";
    folder.write("proofs.bin", first);
    assert_eq!(folder.panel(&["check"]), Said::printed(&alone));
    folder.write("proofs.bin", &second[..9]);
    let broken = Said {
        out: alone,
        ..Said::failed(
            1,
            "proofs.bin: this is no row of at most 64 whole proposals of at most 4096 terms (33)",
        )
    };
    assert_eq!(folder.panel(&["check"]), broken);
}

#[test]
fn a_folder_is_named() {
    let outer = Folder::new("check-outer");
    std::fs::create_dir(outer.path("loop")).expect("a folder");
    outer.write("loop/fabric.bin", credit_loops(1).to_file());
    outer.write("loop/proof.bin", bytes("04000001"));
    let words = "loop/proof.bin: the flow on 'c2' is left: -1 in term 0 (1 * queue2.0) (13 at 16)";
    assert_eq!(outer.panel(&["check", "loop"]), Said::failed(1, words));
}

/// What check says of a refused proof.bin, after its name.
fn refused(folder: &Folder, proof: &str, words: &str) {
    folder.write("proof.bin", bytes(proof));
    let expected = Said::failed(1, &format!("proof.bin: {words}"));
    assert_eq!(folder.panel(&["check"]), expected, "{proof}");
}

#[test]
fn a_wrong_length_is_11() {
    let folder = with_proof("check-11", CREDIT_LOOP, "");
    refused(
        &folder,
        "04000001 0A0000",
        "7 bytes are no terms of 4 bytes (11)",
    );
    let too_many = "04000001".repeat(4097);
    refused(&folder, &too_many, "4097 terms are more than 4096 (11)");
}

#[test]
fn a_term_without_an_equation_is_12() {
    let folder = with_proof("check-12", CREDIT_LOOP, "");
    for (proof, words) in [
        (
            "04000001 0A000001 02000001 02A00001",
            "term 3: 1 * gate.5: join 'gate' has no equation 5; it has 0 and 8 (12 at 3)",
        ),
        (
            "043FFFFE",
            "term 0: -2 * messages.1: queue 'messages' has no equation 1; it has 0 (12 at 0)",
        ),
        (
            "04000001 09E00005",
            "term 1: 5 * porter.15: sink 'porter' has no equation (12 at 1)",
        ),
        (
            "00000001",
            "term 0: 1 * alarms.0: source 'alarms' has no equation, since it emits all colours \
             (12 at 0)",
        ),
        (
            "0C000001",
            "term 0: there is no component 6; the last is 5 (12 at 0)",
        ),
    ] {
        refused(&folder, proof, words);
    }
    put_panel(&folder, "distributor");
    refused(
        &folder,
        "02000001",
        "term 0: 1 * in.0: source 'in' has no equation 0; it has 1 and 2 (12 at 0)",
    );
    refused(
        &folder,
        "04600001",
        "term 0: 1 * join.3: join 'join' has no equation 3; it has 0, 1, 2 and 8 (12 at 0)",
    );
}

#[test]
fn a_flow_that_is_left_is_13() {
    let folder = with_proof("check-13", CREDIT_LOOP, "");
    for (proof, words) in [
        (
            "02000001 03000001 04000001 0A000001",
            "the flow on 'arrived' is left: 1 in term 2 (1 * messages.0) (13 at 24)",
        ),
        (
            "04000001 02000003",
            "the flow on 'wanted' is left: -3 in term 1 (3 * gate.0) (13 at 0)",
        ),
        (
            "04000001 0A000001 02000003 03000003 07000001",
            "the flow on 'credit' is left: -2 in all: 1 in term 1 (1 * credits.0), \
             -3 in term 3 (3 * gate.8) (13 at 8)",
        ),
        (
            "04000001 04000002 04000003 04000004 04000000 04000005 04000006 04000007",
            "the flow on 'sent' is left: -28 in all: -1 in term 0 (1 * messages.0), \
             -2 in term 1 (2 * messages.0), -3 in term 2 (3 * messages.0), \
             -4 in term 3 (4 * messages.0), -5 in term 5 (5 * messages.0), and 2 more (13 at 16)",
        ),
    ] {
        refused(&folder, proof, words);
    }
}

/// The refused proposals of docs/FORMAT.md.
#[test]
fn a_flow_of_a_colour_that_is_left() {
    let folder = with_proof("check-colour", RING, "");
    let without = |term: &str| RING_PROOF.replace(term, "");
    for (proof, words) in [
        (
            without("02200001"),
            "the flow of blue on 'out' is left: 1 in term 1 (1 * ring.1) (13 at 1)",
        ),
        (
            "00000001 02000001 03000001 04000001 06000001".to_string(),
            "the flow of blue on 'up' is left: -1 in term 3 (1 * swap.0) (13 at 9)",
        ),
        (
            "00000001".to_string(),
            "the flow of red on 'out' is left: 1 in term 0 (1 * ring.0) (13 at 0)",
        ),
    ] {
        refused(&folder, &proof, words);
    }
    put_panel(&folder, "distributor");
    refused(
        &folder,
        "05000001",
        "the flow of colour 0 on 'sel' is left: 1 in term 0 (1 * join.8) (13 at 0)",
    );
}

/// Red never comes to 'up', nor blue to 'down': the terms that say so need not be there.
#[test]
fn a_flow_that_never_comes_may_be_left() {
    let folder = with_proof("check-outside", RING, "");
    let out = "ring = 2\n  ring.red: at most 2, capacity 3\n  ring.blue: at most 2, capacity 3\n";
    for left_out in ["", "02000001", "03200001"] {
        folder.write("proof.bin", bytes(&RING_PROOF.replace(left_out, "")));
        assert_eq!(folder.panel(&["check"]), Said::printed(out), "{left_out}");
    }
}

#[test]
fn no_weight_is_14() {
    let folder = with_proof("check-14", CREDIT_LOOP, "");
    let nothing = "there are no terms, so no queue has a weight (14)";
    refused(&folder, "", nothing);
    let no_queue = "no term is of a queue, so no queue has a weight (14)";
    refused(&folder, "02000001 021FFFFF", no_queue);
    let cancels = "no queue keeps a weight other than 0 (14)";
    refused(&folder, "04000001 041FFFFF", cancels);
}

#[test]
fn a_missing_file_is_said() {
    let folder = Folder::new("check-missing");
    let missing = "fabric.bin: there is no such file";
    assert_eq!(folder.panel(&["check"]), Said::failed(2, missing));
    put_panel(&folder, "credit-loop");
    let missing = "proof.bin is not there; 'panel propose' finds sums";
    assert_eq!(folder.panel(&["check"]), Said::failed(2, missing));
}

#[test]
fn a_refused_fabric_is_no_sum() {
    let folder = with_proof("check-fabric", CREDIT_LOOP, CREDIT_PROOF);
    let mut file = folder.read("fabric.bin");
    file[3] ^= 1;
    folder.write("fabric.bin", file);
    let said = folder.panel(&["check"]);
    assert_eq!((said.code, said.out.as_str()), (1, ""));
    assert!(said.err.contains("(5)"), "{}", said.err);
}

#[test]
fn a_wrong_command_line_and_help() {
    let folder = with_proof("check-usage", CREDIT_LOOP, CREDIT_PROOF);
    let option = usage("'--all' is no option of 'check'");
    assert_eq!(folder.panel(&["check", "--all"]), option);
    let two = usage("'b' is one word too many after 'check FOLDER'");
    assert_eq!(folder.panel(&["check", "a", "b"]), two);
    let said = folder.panel(&["check", "--help"]);
    assert_eq!((said.code, said.err.as_str()), (0, ""));
    for part in ["panel check [FOLDER]", "proofs.bin", "Exit code"] {
        assert!(said.out.contains(part), "{part}");
    }
}
