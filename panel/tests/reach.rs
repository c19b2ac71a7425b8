//! panel reach, through the built program.

mod common;

use common::folders::{credit_loop, of_fabric, of_netlist, put_panel, RING};
use common::{usage, Folder, Said};
use reference::random::Random;
use reference::random_fabric::{random_fabric, Plan};
use reference::reach::ColourSets;
use reference::samples::fork_into_join;

/// A source of two colours, of which a switch sends one each way; the queue has a third.
const SWITCHED: &str = "\
colours red green blue
source s     -> both          emits red green
switch part  both -> one other first red
queue  q     one -> out       capacity 2 filling 1 colour blue
sink   t     out
sink   u     other
";

#[test]
fn of_the_credit_loop() {
    let folder = credit_loop("reach-credit-loop");
    let out = "wanted   0\ncredit   0\nsent     0\narrived  0\nread     0\nback     0\n";
    assert_eq!(folder.panel(&["reach"]), Said::printed(out));
}

#[test]
fn colours_by_name() {
    let folder = of_netlist("reach-names", SWITCHED);
    let out = "both   red green\none    red\nother  green\nout    red blue\n";
    assert_eq!(folder.panel(&["reach"]), Said::printed(out));
    let ring = of_netlist("reach-ring", RING);
    let out = "out     red blue\nup      blue\ndown    red\nturned  red\nin      red\n";
    assert_eq!(ring.panel(&["reach"]), Said::printed(out));
}

/// Without credits nothing comes behind the gate.
#[test]
fn channels_that_nothing_reaches() {
    let mut fabric = reference::samples::credit_loop();
    fabric.components[5].filling = 0;
    let folder = of_fabric("reach-nothing", &fabric);
    let out = "c0  0\nc1  -\nc2  -\nc3  -\nc4  -\nc5  -\n";
    assert_eq!(folder.panel(&["reach"]), Said::printed(out));
}

#[test]
fn a_folder_is_named() {
    let outer = Folder::new("reach-outer");
    std::fs::create_dir(outer.path("loop")).expect("a folder");
    outer.write(
        "loop/fabric.bin",
        reference::samples::credit_loop().to_file(),
    );
    let out = "c0  0\nc1  0\nc2  0\nc3  0\nc4  0\nc5  0\n";
    assert_eq!(outer.panel(&["reach", "loop"]), Said::printed(out));
}

/// All 128 components, by number.
#[test]
fn of_the_largest_fabrics() {
    let plan = Plan {
        size: 128,
        colours: 8,
        circles: false,
    };
    for number in 0..5 {
        let fabric = random_fabric(&mut Random::new(8, number), &plan);
        let sets = ColourSets::of(&fabric);
        let lines = (0..fabric.channels).map(|channel| {
            let members = sets.members(channel as u8).map(|d| d.to_string());
            let members: Vec<String> = members.collect();
            let name = format!("c{channel}");
            match members.is_empty() {
                true => format!("{name:<4}  -\n"),
                false => format!("{name:<4}  {}\n", members.join(" ")),
            }
        });
        let out: String = lines.collect();
        let folder = of_fabric("reach-largest", &fabric);
        assert_eq!(folder.panel(&["reach"]), Said::printed(&out), "{number}");
    }
}

#[test]
fn a_fabric_that_is_refused_or_not_there() {
    let folder = Folder::new("reach-refused");
    let missing = "fabric.bin: there is no such file";
    assert_eq!(folder.panel(&["reach"]), Said::failed(2, missing));
    folder.write("fabric.bin", fork_into_join().to_file());
    let said = folder.panel(&["reach"]);
    assert_eq!((said.code, said.out.as_str()), (1, ""));
    assert!(said.err.starts_with("panel: fabric.bin: "), "{}", said.err);
    assert!(said.err.ends_with("(8)\n"), "{}", said.err);
}

#[test]
fn a_wrong_command_line_and_help() {
    let folder = Folder::new("reach-command-line");
    put_panel(&folder, "credit-loop");
    let message = "'b' is one word too many after 'reach FOLDER'";
    assert_eq!(folder.panel(&["reach", "a", "b"]), usage(message));
    let message = "'-x' is no option of 'reach'";
    assert_eq!(folder.panel(&["reach", "-x"]), usage(message));
    let said = folder.panel(&["reach", "--help"]);
    assert_eq!((said.code, said.err.as_str()), (0, ""));
    assert!(said.out.starts_with("panel reach [FOLDER]\n"));
}
