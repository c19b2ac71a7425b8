//! panel terms, through the built program.

mod common;

use common::folders::{put_fabric, put_netlist, put_panel, CREDIT_PROOF, RING};
use common::{usage, Folder, Said, CREDIT_LOOP};
use reference::check::accepted_sum;
use reference::panels::bytes;
use reference::random::Random;
use reference::random_fabric::{random_fabric, Plan};
use reference::random_proposal::Equations;
use reference::terms::write_proposal;

#[test]
fn the_credit_loop() {
    let folder = Folder::new("terms-credit");
    put_netlist(&folder, CREDIT_LOOP);
    folder.write("proof.bin", bytes(CREDIT_PROOF));
    let out = "\
1 * gate.0      # all on sent - all on wanted = 0
1 * gate.8      # all on wanted - all on credit = 0
1 * messages.0  # all in messages + all on arrived - all on sent = 0
1 * split.8     # all on back - all on arrived = 0
1 * credits.0   # all in credits + all on credit - all on back = 2
";
    assert_eq!(folder.panel(&["terms"]), Said::printed(out));
}

#[test]
fn each_colour_by_its_name() {
    let folder = Folder::new("terms-ring");
    put_netlist(&folder, RING);
    folder.write(
        "proof.bin",
        bytes(
            "00000001 00200002 021FFFFF 02200001 03000001 03200001 04000001 04200001 06000001 \
             06200001",
        ),
    );
    let out = "\
1 * ring.0   # red in ring + red on out - red on in = 0
2 * ring.1   # blue in ring + blue on out - blue on in = 2
-1 * part.0  # red on up = 0
1 * part.1   # blue on up - blue on out = 0
1 * part.8   # red on down - red on out = 0
1 * part.9   # blue on down = 0
1 * swap.0   # red on turned - blue on up = 0
1 * swap.1   # blue on turned - red on up = 0
1 * back.0   # red on in - red on turned - red on down = 0
1 * back.1   # blue on in - blue on turned - blue on down = 0
";
    // Not accepted, but all equations are there.
    assert_eq!(folder.panel(&["check"]).code, 1);
    assert_eq!(folder.panel(&["terms"]), Said::printed(out));
}

#[test]
fn all_colours_of_a_channel_at_once() {
    let folder = Folder::new("terms-all");
    let netlist = "colours 3\nsource s -> a emits 1\nsource t -> b\njoin j a b -> c map 0->2\n\
                   fork f c -> d e first 1->0 2->0\nsink u d\nqueue q e -> g capacity 1\nsink v g\n";
    put_netlist(&folder, netlist);
    folder.write(
        "proof.bin",
        bytes("00000001 00400001 05000001 04000001 04400001 06000001 06200001 07200001 0A200001"),
    );
    let out = "\
1 * s.0  # colour 0 on a = 0
1 * s.2  # colour 2 on a = 0
1 * j.8  # all on a - all on b = 0
1 * j.0  # colour 0 on c = 0
1 * j.2  # colour 2 on c - colour 0 on a - colour 2 on a = 0
1 * f.0  # colour 0 on d - all on c = 0
1 * f.1  # colour 1 on d = 0
1 * f.9  # colour 1 on e - colour 1 on c = 0
1 * q.1  # colour 1 in q + colour 1 on g - colour 1 on e = 0
";
    assert_eq!(folder.panel(&["terms"]), Said::printed(out));
}

#[test]
fn what_is_printed_is_taken_again() {
    let folder = Folder::new("terms-again");
    let (mut number, mut taken, mut longest) = (0, 0, 0);
    while taken < 25 {
        number += 1;
        let random = &mut Random::new(9, number);
        let plan = Plan {
            size: random.pick(&[4, 10, 40, 128]),
            colours: random.between(1, 8),
            circles: false,
        };
        let fabric = random_fabric(random, &plan);
        let terms = Equations::of(&fabric).cancelling_terms(random);
        let proof = write_proposal(&terms);
        if accepted_sum(&fabric.to_file(), &proof).is_err() {
            continue;
        }
        put_fabric(&folder, &fabric);
        folder.write("proof.bin", &proof);
        let text = folder.panel(&["terms"]);
        assert_eq!(text.out.lines().count(), terms.len(), "fabric {number}");
        folder.write("proof.txt", text.out);
        std::fs::remove_file(folder.path("proof.bin")).expect("removed");
        let said = folder.panel(&["propose", "--from", "proof.txt"]);
        assert_eq!((said.code, said.err), (0, String::new()), "fabric {number}");
        assert!(folder.read("proof.bin") == proof, "fabric {number}");
        longest = longest.max(terms.len());
        taken += 1;
    }
    assert!(longest > 500, "{longest}");
}

#[test]
fn terms_that_are_none_are_refused() {
    let folder = Folder::new("terms-refused");
    put_netlist(&folder, CREDIT_LOOP);
    for (proof, words) in [
        ("040000", "3 bytes are no terms of 4 bytes (11)"),
        (
            "04000001 02A00001",
            "term 1: 1 * gate.5: join 'gate' has no equation 5; it has 0 and 8 (12 at 1)",
        ),
        (
            "FE000001",
            "term 0: there is no component 127; the last is 5 (12 at 0)",
        ),
    ] {
        folder.write("proof.bin", bytes(proof));
        let refused = Said::failed(1, &format!("proof.bin: {words}"));
        assert_eq!(folder.panel(&["terms"]), refused);
    }
}

#[test]
fn a_missing_file_is_said() {
    let folder = Folder::new("terms-missing");
    put_panel(&folder, "uneven");
    let missing = "proof.bin is not there; 'panel propose' finds sums";
    assert_eq!(folder.panel(&["terms"]), Said::failed(2, missing));
    let missing = "none/fabric.bin: there is no folder none";
    assert_eq!(folder.panel(&["terms", "none"]), Said::failed(2, missing));
}

#[test]
fn a_wrong_command_line_and_help() {
    let folder = Folder::new("terms-usage");
    let option = usage("'-x' is no option of 'terms'");
    assert_eq!(folder.panel(&["terms", "-x"]), option);
    let two = usage("'b' is one word too many after 'terms FOLDER'");
    assert_eq!(folder.panel(&["terms", "a", "b"]), two);
    let said = folder.panel(&["terms", "-h"]);
    assert_eq!((said.code, said.err.as_str()), (0, ""));
    for part in ["panel terms [FOLDER]", "'panel propose", "Exit code"] {
        assert!(said.out.contains(part), "{part}");
    }
}
