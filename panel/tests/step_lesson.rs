//! panel step by the commands of a lesson. The pictures are written by hand from the credit loop's
//! steps in docs/FORMAT.md.

mod common;

use std::fs;
use std::io::{BufRead, BufReader, Write};
use std::process::Stdio;

use common::folders::{credit_loop, of_fabric, of_netlist};
use common::{said, usage, Folder, Said};
use reference::blocks::MOST_BLOCKS;
use reference::panels::panels;
use reference::random::Random;
use reference::random_fabric::{random_fabric, Plan};
use reference::samples::{credit_loops, looped_queues};
use reference::sum_basis::sum_basis;
use reference::terms::write_proposal;
use reference::Fabric;

const LESSON: &str = "\
choose alarms 0
step
step
step
step porter=take
step alarms=none
";

const PICTURES: &str = include_str!("pictures/credit-loop-lesson.txt");

/// The steps of the lesson, as a list.
const LIST: &str = "\
step alarms=0
step alarms=0
step alarms=0
step porter=take
step alarms=none
";

fn play(folder: &Folder, lesson: &str) -> Said {
    folder.write("lesson.txt", lesson);
    folder.panel(&["step", ".", "lesson.txt"])
}

/// What is said when a lesson is played to its end.
fn played(folder: &Folder, lesson: &str) -> String {
    let said = play(folder, lesson);
    assert_eq!((said.code, said.err.as_str()), (0, ""));
    said.out
}

fn from_standard_input(folder: &Folder, lesson: &str) -> Said {
    let mut command = folder.command(&["step", "."]);
    command.stdin(Stdio::piped()).stdout(Stdio::piped());
    let mut child = command.stderr(Stdio::piped()).spawn().expect("it runs");
    let mut input = child.stdin.take().expect("an input");
    input.write_all(lesson.as_bytes()).expect("it reads");
    drop(input);
    said(child.wait_with_output())
}

/// The last picture, without the command before it and what was said of it.
fn last_picture(out: &str) -> &str {
    let begin = out.rfind("./fabric.bin   step ").expect("a picture");
    &out[begin..]
}

/// The picture of the hand-written text after so many commands.
fn picture(commands: usize) -> &'static str {
    let mut pictures = PICTURES.split("./fabric.bin   ").skip(1 + commands);
    let picture = pictures.next().expect("a picture");
    picture.split("\n>").next().expect("its lines").trim_end()
}

fn assert_last(out: &str, commands: usize) {
    let shown = last_picture(out).trim_start_matches("./fabric.bin   ");
    assert_eq!(shown.trim_end(), picture(commands));
}

#[test]
fn the_five_steps_of_the_credit_loop() {
    let folder = credit_loop("five_steps");
    assert_eq!(played(&folder, LESSON), PICTURES);
}

#[test]
fn commands_from_standard_input() {
    let folder = credit_loop("standard_input");
    let said = from_standard_input(&folder, LESSON);
    assert_eq!((said.code, said.err.as_str()), (0, ""));
    assert_eq!(said.out, PICTURES);
}

#[test]
fn comments_blank_lines_and_quit() {
    let folder = credit_loop("comments");
    let out = played(
        &folder,
        "# the first alarm\n\n  step alarms=0 # with its credit\nquit\nstep\n",
    );
    let begin = out.find("\n> step").expect("a step");
    assert_eq!(
        out[begin..].lines().nth(1),
        Some("> step alarms=0 # with its credit")
    );
    assert_eq!(last_picture(&out).lines().last(), Some("> quit"));
    let without_quit = out.trim_end().trim_end_matches("> quit");
    assert_last(without_quit, 2);
}

#[test]
fn save_load_and_play_again() {
    let folder = credit_loop("save_load");
    let out = played(&folder, &format!("{LESSON}save list.txt\n"));
    assert!(out.contains("> save list.txt\nsaved 5 steps to list.txt\n./fabric.bin   step 5\n"));
    assert_last(&out, 6);
    assert_eq!(
        String::from_utf8(folder.read("list.txt")).expect("text"),
        LIST
    );
    let expected = [
        "fabric.bin",
        "fabric.names",
        "lesson.txt",
        "list.txt",
        "proof.bin",
    ];
    assert_eq!(folder.files(), expected.map(String::from));

    let out = played(&folder, "run 3 seed 1\nload list.txt\n");
    assert!(out.contains("> load list.txt\nloaded 5 steps from list.txt\n./fabric.bin   step 5\n"));
    assert_last(&out, 6);

    let said = folder.panel(&["step", ".", "list.txt"]);
    assert_eq!((said.code, said.err.as_str()), (0, ""));
    assert_last(&said.out, 6);
}

#[test]
fn a_list_is_written_over_nothing_but_a_list() {
    let folder = credit_loop("save_over");
    folder.write("list.txt", "step\n");
    assert!(played(&folder, "step\nsave list.txt\n").contains("saved 1 step to list.txt"));
    assert_eq!(folder.read("list.txt"), b"step alarms=none\n");
    folder.write("notes.txt", "choose alarms 0\n");
    for file in ["notes.txt", "fabric.bin", "fabric.names", "proof.bin"] {
        let before = folder.read(file);
        let said = play(&folder, &format!("step\nsave {file}\n"));
        let message = "this file is there already, and is no list of steps";
        let message = format!("panel: lesson.txt:2: {file}: {message}\n");
        assert_eq!((said.code, said.err), (2, message));
        assert_eq!(folder.read(file), before);
    }
}

#[test]
fn a_byte_order_mark_is_no_word() {
    let folder = credit_loop("marked");
    let marked = format!("\u{FEFF}{LIST}");
    assert_last(&played(&folder, &marked), 6);
    folder.write("list.txt", marked);
    assert_last(&played(&folder, "load list.txt\n"), 6);
}

#[test]
fn why_there_are_no_sums() {
    let folder = credit_loop("no_sums");
    let says = |text: &str| assert!(played(&folder, "").contains(text), "{text}");
    folder.write("proof.bin", [0, 0, 0, 1]);
    says("the sums here are refused: 'panel check' says why\n");
    fs::remove_file(folder.path("proof.bin")).expect("it was there");
    says("no sums yet: 'panel propose' finds them\n");
    let line = of_netlist("no_queue", "source in -> x\nsink out x\n");
    assert!(played(&line, "").contains("no sums, since there is no queue\n"));
}

#[test]
fn a_wrong_list_is_not_taken() {
    let folder = credit_loop("wrong_list");
    folder.write("list.txt", "step alarms=0\n\nrun 3\n");
    let said = play(&folder, "load list.txt\n");
    assert_eq!(said.code, 2);
    assert_eq!(
        said.err,
        "panel: lesson.txt:1: list.txt:3: 'run' is no step: a list has steps alone\n"
    );
    folder.write("list.txt", "step alarms=0\nstep alarms=1\n");
    let said = play(&folder, "load list.txt\n");
    assert_eq!(said.code, 1);
    assert_eq!(
        said.err,
        "panel: lesson.txt:1: list.txt:2: source 'alarms' does not emit colour 1 (10 at 0)\n"
    );
}

/// A step back shows the panel as it was, and sets the choices of the step that was taken back.
#[test]
fn back() {
    let folder = credit_loop("back");
    let out = played(&folder, &format!("{LESSON}back\n"));
    assert!(out.contains("\n> back\nback at step 4\n./fabric.bin   step 4\n"));
    // The fourth step's picture has the choice that stays set; back sets those of the fifth.
    assert_last(
        &played(&folder, &format!("{LESSON}back\nchoose porter take\n")),
        5,
    );
    assert_last(&played(&folder, &format!("{LESSON}back 3\nback\n")), 2);
    assert_last(&played(&folder, &format!("{LESSON}back\nstep\n")), 6);
    let out = played(&folder, &format!("{LESSON}back 99\n"));
    assert!(out.contains("\n> back 99\nback at step 0\n./fabric.bin   step 0\n"));
    assert_last(&out, 1);
    let out = played(&folder, "back\n");
    assert!(out.contains("\n> back\nthis is the start\n"));
    assert_last(&out, 0);
}

/// Going back through many steps gives each state again, byte by byte as far as it is shown.
#[test]
fn back_through_a_long_run() {
    let folder = of_netlist("long_run", include_str!("../../panels/uneven.txt"));
    let forth: String = (0..200)
        .map(|_| "step S1=0 snk=take\nstep S2=0\n")
        .collect();
    let back = "back\n".repeat(400);
    let out = played(&folder, &(forth + &back));
    let pictures: Vec<&str> = out.split("./fabric.bin   step ").skip(1).collect();
    assert_eq!(pictures.len(), 801);
    // The queues, and what the last step was: all that no choice of the next step changes.
    let kept = |picture: &str| {
        let lines = picture.lines().take_while(|line| !line.contains("chooser"));
        let queues: Vec<&str> = lines.collect();
        let channels = picture.lines().skip_while(|line| !line.contains("channel"));
        let last: Vec<String> = channels
            .take_while(|line| !line.is_empty())
            .map(|line| line.chars().take(38).collect())
            .collect();
        (queues.join("\n"), last)
    };
    for steps in 0..400 {
        assert_eq!(
            kept(pictures[steps]),
            kept(pictures[800 - steps]),
            "{steps}"
        );
    }
}

#[test]
fn wrong_lines_are_named() {
    let folder = credit_loop("wrong_lines");
    let commands = "choose, step, run, back, save, load, show, quit";
    let cases = [
        ("walk", format!("'walk' is no command: {commands}")),
        (
            "choose alarms",
            "'choose' is written: choose NAME CHOICE".into(),
        ),
        ("choose alrms 0", "'alrms' is no component".into()),
        (
            "choose split 0",
            "fork 'split' has no choice: sources, sinks and merges have one".into(),
        ),
        (
            "choose alarms red",
            "'red' is no choice of source 'alarms': none, 0".into(),
        ),
        (
            "choose alarms 255",
            "'255' is no choice of source 'alarms': none, 0".into(),
        ),
        (
            "choose alarms +0",
            "'+0' is no choice of source 'alarms': none, 0".into(),
        ),
        (
            "choose porter yes",
            "'yes' is no choice of sink 'porter': no, take".into(),
        ),
        (
            "step alarms",
            "'alarms' is no choice, such as NAME=CHOICE".into(),
        ),
        ("step alarms=0 alarms=none", "'alarms' chooses twice".into()),
        ("run", "'run' is written: run COUNT [seed SEED]".into()),
        ("run many", "'many' is no number".into()),
        ("run +5", "'+5' is no number".into()),
        (
            "run 5 seed",
            "'run' is written: run COUNT [seed SEED]".into(),
        ),
        (
            "run 100001",
            "'100001' is too many: a run takes at most 100000 steps".into(),
        ),
        ("back 1 2", "'back' is written: back [COUNT]".into()),
        ("save", "'save' is written: save FILE".into()),
        ("load", "'load' is written: load FILE".into()),
        (
            "load missing.txt",
            "missing.txt: there is no such file".into(),
        ),
        (
            "save none/list.txt",
            "none/list.txt: there is no folder none".into(),
        ),
        ("show all", "nothing comes after 'show'".into()),
        ("quit now", "nothing comes after 'quit'".into()),
    ];
    for (line, message) in cases {
        let said = play(&folder, &format!("step\n\n{line}\nstep\n"));
        assert_eq!(said.code, 2, "{line}");
        assert_eq!(said.err, format!("panel: lesson.txt:3: {message}\n"));
        // What came before it was played.
        assert_eq!(said.out.matches("> step\n").count(), 1);
    }
    let said = from_standard_input(&folder, "step\nwalk\n");
    assert_eq!(said.code, 2);
    let message = format!("panel: standard input:2: 'walk' is no command: {commands}\n");
    assert_eq!(said.err, message);
}

/// The source's choice 02 of docs/FORMAT.md.
#[test]
fn a_refused_choice() {
    let folder = credit_loop("refused_choice");
    for line in ["choose alarms 1", "step alarms=1 porter=take"] {
        let said = play(&folder, &format!("{line}\n"));
        assert_eq!(said.code, 1);
        assert_eq!(
            said.err,
            "panel: lesson.txt:1: source 'alarms' does not emit colour 1 (10 at 0)\n"
        );
    }
}

#[test]
fn colours_merges_and_a_held_sink() {
    let netlist = "\
colours red blue
source  bells   -> a         emits red
source  doors   -> b         emits blue
merge   both    a b -> c
queue   line    c -> d       capacity 3 filling 1 colour blue
sink    guard   d
source  spare   -> e
sink    drain   e
";
    let folder = of_netlist("colours", netlist);
    let said = play(&folder, "choose bells blue\n");
    assert_eq!(said.code, 1);
    assert_eq!(
        said.err,
        "panel: lesson.txt:1: source 'bells' does not emit colour blue (10 at 0)\n"
    );
    let lesson = "step bells=red doors=blue both=b drain=take\nstep guard=take\n";
    assert_eq!(
        last_picture(&played(&folder, lesson)),
        "\
./fabric.bin   step 2

no sums yet: 'panel propose' finds them

  queue  count   front first
  line   2 of 3  blue red

  chooser  name   last step  next step  holds
  source   bells  none       none       -
  source   doors  none       none       -
  merge    both   a          a          -
  sink     guard  take       take       no
  source   spare  none       none       -
  sink     drain  no         no         yes

                         last step             next step
  channel  from   to     offer  take  moved    offer  take
  a        bells  both   red    yes   red      -      no
  b        doors  both   -      no    -        -      no
  c        both   line   red    yes   red      -      yes
  d        line   guard  blue   yes   blue     blue   yes
  e        spare  drain  -      yes   -        -      yes
"
    );
    // The list has the names.
    played(&folder, &format!("{lesson}save list.txt\n"));
    assert_eq!(
        String::from_utf8(folder.read("list.txt")).expect("text"),
        "step bells=red doors=blue both=b drain=take\nstep guard=take\n"
    );
}

#[test]
fn a_stalled_merge_keeps_its_packet() {
    let netlist = "\
colours red blue
source  bells   -> a         emits red
source  doors   -> b         emits blue
merge   both    a b -> c
queue   line    c -> d       capacity 1 filling 1 colour red
sink    guard   d
";
    let folder = of_netlist("stalled", netlist);
    // The queue is full, so blue waits; then the other input is chosen.
    let lesson = "step bells=red doors=blue both=b\nchoose both a\n";
    assert_eq!(
        last_picture(&played(&folder, lesson)),
        "\
./fabric.bin   step 1

no sums yet: 'panel propose' finds them

  queue  count   front first
  line   1 of 1  red

  chooser  name   last step  next step  holds
  source   bells  red        red        red
  source   doors  blue       blue       blue
  merge    both   b          a          b
  sink     guard  no         no         no

                         last step             next step
  channel  from   to     offer  take  moved    offer  take
  a        bells  both   red    no    -        red    no
  b        doors  both   blue   no    -        blue   no
  c        both   line   blue   no    -        blue   no
  d        line   guard  red    no    -        red    no
"
    );
    // Once there is room blue moves, and nothing is held.
    let on = "step guard=take both=a\nstep both=a\n";
    assert_eq!(
        last_picture(&played(&folder, &format!("{lesson}{on}"))),
        "\
./fabric.bin   step 3

no sums yet: 'panel propose' finds them

  queue  count   front first
  line   1 of 1  blue

  chooser  name   last step  next step  holds
  source   bells  none       none       red
  source   doors  none       none       -
  merge    both   a          a          -
  sink     guard  no         no         no

                         last step             next step
  channel  from   to     offer  take  moved    offer  take
  a        bells  both   red    no    -        red    no
  b        doors  both   blue   yes   blue     -      no
  c        both   line   blue   yes   blue     red    no
  d        line   guard  -      no    -        blue   no
"
    );
}

#[test]
fn a_seed_names_a_run() {
    let folder = of_netlist("seeds", include_str!("../../panels/uneven.txt"));
    let run = |seed: u64| played(&folder, &format!("run 60 seed {seed}\nsave {seed}.txt\n"));
    assert_eq!(run(7), run(7));
    run(8);
    assert_ne!(folder.read("7.txt"), folder.read("8.txt"));
    let out = run(7);
    assert!(out.contains("\nran 60 steps at random, seed 7\n./fabric.bin   step 60   seed 7\n"));
    // Its list, played from the start, ends in the same queues.
    let again = played(&folder, "load 7.txt\n");
    let queues = |out: &str| {
        let lines = last_picture(out).lines().skip(1);
        let queues: Vec<String> = lines
            .take_while(|line| !line.contains("chooser"))
            .map(String::from)
            .collect();
        queues
    };
    assert_eq!(queues(&out), queues(&again));
    // A run without a seed says its own.
    let out = played(&folder, "run 60\n");
    let seed = out
        .rsplit("seed ")
        .next()
        .and_then(|rest| rest.lines().next());
    let seed = seed.expect("a seed").parse().expect("a number");
    assert_eq!(last_picture(&out), last_picture(&run(seed)));
}

/// Each drawn choice is one of those allowed, and all of them come.
#[test]
fn all_choices_are_drawn() {
    let folder = of_netlist("all_drawn", include_str!("../../panels/distributor.txt"));
    played(&folder, "run 200 seed 5\nsave list.txt\n");
    let list = String::from_utf8(folder.read("list.txt")).expect("text");
    assert_eq!(list.lines().count(), 200);
    for (choice, least, most) in [
        ("select=0", 30, 70),
        ("select=1", 30, 70),
        ("select=2", 30, 70),
        ("in=0", 75, 125),
        ("drop=take", 75, 125),
    ] {
        let count = list.lines().filter(|line| line.contains(choice)).count();
        assert!((least..=most).contains(&count), "{choice}: {count}");
    }
}

/// The constants and the values now of the sums in a picture.
fn sums(picture: &str) -> Vec<(String, String)> {
    let lines = picture
        .lines()
        .filter_map(|line| line.split_once("   now "));
    lines
        .map(|(sum, now)| {
            let constant = sum.rsplit("= ").next().expect("a constant");
            (constant.to_string(), now.to_string())
        })
        .collect()
}

/// Runs, and hands back how many sums kept their values.
fn kept_sums(folder: &Folder, seed: u64) -> usize {
    let out = played(folder, &format!("run 1000 seed {seed}\n"));
    let picture = last_picture(&out);
    assert!(picture.starts_with("./fabric.bin   step 1000 "));
    let sums = sums(picture);
    for (constant, now) in &sums {
        assert_eq!(constant, now);
    }
    sums.len()
}

/// Blocks, each a count of terms and the terms.
fn write_proofs(folder: &Folder, proposals: &[Vec<u8>]) {
    let block = |proposal: &Vec<u8>| {
        let count = (proposal.len() / 4) as u16;
        [&count.to_be_bytes(), &proposal[..]].concat()
    };
    let blocks: Vec<u8> = proposals.iter().flat_map(block).collect();
    folder.write("proofs.bin", blocks);
}

#[test]
fn sums_keep_their_values_on_every_panel() {
    for (seed, panel) in panels().into_iter().enumerate() {
        let path = format!("../panels/{}.txt", panel.name);
        let netlist = fs::read_to_string(path).expect("a netlist");
        let folder = of_netlist(&format!("sums_{}", panel.name), &netlist);
        let proposals: Vec<Vec<u8>> = panel.sums.iter().map(|sum| sum.proposal.clone()).collect();
        write_proofs(&folder, &proposals);
        assert_eq!(kept_sums(&folder, seed as u64), panel.sums.len());
    }
}

/// The sums of a fabric, as many as a file of blocks can have.
fn found_sums(fabric: &Fabric) -> Vec<Vec<u8>> {
    let sums = sum_basis(fabric).sums;
    let proposals = sums.iter().map(|terms| write_proposal(terms));
    proposals.take(MOST_BLOCKS).collect()
}

#[test]
fn sums_keep_their_values_on_large_fabrics() {
    let random = &mut Random::new(1, 0);
    let mut followed = 0;
    for place in 0..4 {
        let plan = Plan {
            size: 128,
            colours: 1 + place,
            circles: false,
        };
        let fabric = random_fabric(random, &plan);
        let folder = of_fabric(&format!("large_{place}"), &fabric);
        write_proofs(&folder, &found_sums(&fabric));
        followed += kept_sums(&folder, place as u64);
    }
    assert!(followed >= 4, "{followed}");
}

#[test]
fn sums_keep_their_values_on_many_credit_loops() {
    let fabric = credit_loops(21);
    let folder = of_fabric("many_loops", &fabric);
    write_proofs(&folder, &found_sums(&fabric));
    assert_eq!(kept_sums(&folder, 3), 21);
}

/// With every state kept, ten thousand steps of 128 components would take 82 million bytes.
#[test]
fn a_long_run_takes_little_memory() {
    let folder = of_fabric("memory", &looped_queues(128));
    let mut command = folder.command(&["step", "."]);
    let mut child = command
        .stdin(Stdio::piped())
        .stdout(Stdio::piped())
        .spawn()
        .expect("it runs");
    let mut input = child.stdin.take().expect("an input");
    input.write_all(b"run 10000 seed 1\n").expect("it reads");
    let output = BufReader::new(child.stdout.take().expect("an output"));
    let mut lines = output.lines().map(|line| line.expect("text"));
    // The last picture to its end: the program waits for the next command.
    for begin in ["./fabric.bin   step 10000", "  c127 "] {
        assert!(lines.any(|line| line.starts_with(begin)));
    }
    let status = format!("/proc/{}/status", child.id());
    let status = fs::read_to_string(status).expect("a status");
    let most = status.lines().find_map(|line| line.strip_prefix("VmHWM:"));
    let most = most.and_then(|most| most.split_whitespace().next());
    let kilobytes: usize = most.expect("a line").parse().expect("a number");
    drop(input);
    child.wait().expect("it ends");
    assert!(kilobytes < 30_000, "{kilobytes}");
}

#[test]
fn wrong_command_lines_and_folders() {
    let folder = credit_loop("wrong_words");
    let said = folder.panel(&["step", ".", "a", "b"]);
    assert_eq!(
        said,
        usage("'b' is one word too many after 'step FOLDER LESSON'")
    );
    let said = folder.panel(&["step", "--fast"]);
    assert_eq!(said, usage("'--fast' is no option of 'step'"));
    let said = folder.panel(&["step", "nowhere"]);
    let message = "nowhere/fabric.bin: there is no folder nowhere";
    assert_eq!(said, Said::failed(2, message));
    let said = folder.panel(&["step", ".", "nothing.txt"]);
    assert_eq!(said, Said::failed(2, "nothing.txt: there is no such file"));
    let said = folder.panel(&["step", "--help"]);
    assert_eq!((said.code, said.err.as_str()), (0, ""));
    assert!(said.out.starts_with("panel step [FOLDER [LESSON]]\n"));
    folder.write("fabric.bin", [0x10]);
    let said = folder.panel(&["step", "."]);
    assert_eq!(said.code, 1);
}
