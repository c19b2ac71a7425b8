//! panel step on a terminal: what the screen shows, what the keys do, and how it is left. The
//! pictures are written by hand from the credit loop's steps in docs/FORMAT.md.

mod common;

use std::os::unix::process::ExitStatusExt;
use std::process::Command;

use common::folders::{credit_loop, of_fabric, of_netlist};
use common::on_terminal::OnTerminal;
use common::Folder;
use reference::samples::credit_loops;

const START: &str = include_str!("pictures/screen-start.txt");
const CHOSEN: &str = include_str!("pictures/screen-chosen.txt");
const TWO_STEPS: &str = include_str!("pictures/screen-two-steps.txt");
const ONE_STEP_AGAIN: &str = include_str!("pictures/screen-one-step-again.txt");

const UP: &str = "\x1b[A";
const DOWN: &str = "\x1b[B";
const RIGHT: &str = "\x1b[C";
const LEFT: &str = "\x1bOD";
const PAGE_UP: &str = "\x1b[5~";
const PAGE_DOWN: &str = "\x1b[6~";
const ESCAPE: &str = "\x1b";
const ENTER: &str = "\r";
const CONTROL_C: &str = "\x03";
const CONTROL_L: &str = "\x0c";
const CONTROL_U: &str = "\x15";
const CONTROL_Z: &str = "\x1a";

const ROWS: usize = 24;
const COLUMNS: usize = 80;
const MESSAGE: usize = ROWS - 2;

fn stepping(folder: &Folder) -> OnTerminal {
    let mut command = folder.command(&["step", "."]);
    command.env_remove("NO_COLOR");
    OnTerminal::start(command, ROWS, COLUMNS)
}

/// The program on the credit loop, showing its first screen.
fn started(folder: &Folder) -> OnTerminal {
    let mut terminal = stepping(folder);
    terminal.until_shown(START);
    terminal
}

#[test]
fn the_first_screen_and_choices() {
    let folder = credit_loop("first_screen");
    let mut terminal = started(&folder);
    assert!(!terminal.screen.shows_cursor);
    terminal.press(RIGHT);
    terminal.press(DOWN);
    terminal.press(" ");
    terminal.until_shown(CHOSEN);
    // Back by the other arrows.
    terminal.press(LEFT);
    terminal.press(UP);
    terminal.press(LEFT);
    terminal.until_shown(START);
}

#[test]
fn steps_and_back() {
    let folder = credit_loop("steps_and_back");
    let mut terminal = started(&folder);
    terminal.press(RIGHT);
    terminal.press("s");
    terminal.press(ENTER);
    terminal.until_shown(TWO_STEPS);
    terminal.press("b");
    terminal.until_shown(ONE_STEP_AGAIN);
    terminal.press("s");
    terminal.until_shown(TWO_STEPS);
    terminal.press("bb");
    terminal.until_row(MESSAGE, "back at step 0");
    terminal.press("b");
    terminal.until_row(MESSAGE, "this is the start");
}

/// The screen with words on its message line.
fn with_message(screen: &str, message: &str) -> String {
    let mut rows: Vec<&str> = screen.lines().collect();
    rows[MESSAGE] = message;
    rows.join("\n")
}

#[test]
fn save_and_load() {
    let folder = credit_loop("save_and_load");
    let mut terminal = started(&folder);
    terminal.press(RIGHT);
    terminal.press("ss");
    terminal.until_shown(TWO_STEPS);

    terminal.press("w");
    terminal.until_shown(&with_message(TWO_STEPS, "save the steps to: ./choices.txt"));
    terminal.press(ESCAPE);
    terminal.until_shown(TWO_STEPS);
    assert_eq!(
        folder.files(),
        ["fabric.bin", "fabric.names", "proof.bin"].map(String::from)
    );

    terminal.press("w");
    terminal.press(ENTER);
    terminal.until_shown(&with_message(TWO_STEPS, "saved 2 steps to ./choices.txt"));
    assert_eq!(
        folder.read("choices.txt"),
        b"step alarms=0\nstep alarms=0\n"
    );

    terminal.press("bl");
    terminal.until_row(MESSAGE, "load steps from: ./choices.txt");
    terminal.press(ENTER);
    terminal.until_shown(&with_message(
        TWO_STEPS,
        "loaded 2 steps from ./choices.txt",
    ));
}

#[test]
fn another_file_is_named() {
    let folder = credit_loop("another_file");
    folder.write(
        "wrong.txt",
        "step alarms=0\n# nobody is called so\nstep alrms=0\n",
    );
    let mut terminal = started(&folder);
    terminal.press("w");
    terminal.press(CONTROL_U);
    terminal.press("nonex\x7fe");
    terminal.until_shown(&with_message(START, "save the steps to: nonee"));
    terminal.press(ENTER);
    terminal.until_shown(&with_message(START, "saved no step to nonee"));
    assert_eq!(folder.read("nonee"), b"");

    terminal.press("l");
    terminal.press(CONTROL_U);
    terminal.press("missing.txt");
    terminal.press(ENTER);
    terminal.until_shown(&with_message(START, "missing.txt: there is no such file"));
    terminal.press("l");
    terminal.press(CONTROL_U);
    terminal.press("wrong.txt");
    terminal.press(ENTER);
    terminal.until_shown(&with_message(START, "wrong.txt:3: 'alrms' is no component"));
    terminal.press("w");
    terminal.press(CONTROL_U);
    terminal.press(ENTER);
    terminal.until_shown(&with_message(START, "no file is named"));
}

#[test]
fn commands_on_the_screen() {
    let folder = credit_loop("commands_on_screen");
    let mut terminal = started(&folder);
    terminal.press(":choose alarms 1");
    terminal.until_shown(&with_message(START, "command: choose alarms 1"));
    terminal.press(ENTER);
    terminal.until_shown(&with_message(
        START,
        "source 'alarms' does not emit colour 1 (10 at 0)",
    ));
    terminal.press(":walk\r");
    terminal.until_shown(&with_message(
        START,
        "'walk' is no command: choose, step, run, back, save, load, show, quit",
    ));
    // Nothing interrupts a run on the screen.
    terminal.press(":run 10001\r");
    terminal.until_shown(&with_message(
        START,
        "a run on the screen takes at most 10000 steps",
    ));
    terminal.press(":choose alarms 0\r");
    terminal.press("ss");
    terminal.until_shown(TWO_STEPS);
}

#[test]
fn help_covers_the_panel_until_a_key() {
    let folder = credit_loop("help_lines");
    let mut terminal = started(&folder);
    terminal.press("?");
    terminal.until_row(2, "up, down      select a chooser");
    terminal.until_row(16, "any key       back to the panel");
    let words = terminal.screen.text().join("\n");
    for key in [
        "left, right",
        "Enter",
        "seed",
        "back",
        "save",
        "load",
        "q, Ctrl-C",
    ] {
        assert!(words.contains(key), "{key}");
    }
    // It steps nothing.
    terminal.press("s");
    terminal.until_shown(START);
}

#[test]
fn a_random_run_is_that_of_its_seed() {
    let folder = credit_loop("random_on_screen");
    let mut terminal = started(&folder);
    terminal.press("r");
    terminal.until_row(MESSAGE, "ran 100 steps at random, seed ");
    let shown = terminal.screen.text();
    let seed = shown[MESSAGE].rsplit(' ').next().expect("a seed");
    assert_eq!(shown[0], format!("./fabric.bin   step 100   seed {seed}"));

    folder.write("lesson.txt", format!("run 100 seed {seed}\n"));
    let said = folder.panel(&["step", ".", "lesson.txt"]);
    let mut lines = said
        .out
        .lines()
        .skip_while(|line| !line.starts_with("> run"));
    assert_eq!(lines.nth(1), Some(shown[MESSAGE].as_str()));
    for row in &shown[..20] {
        assert_eq!(
            lines.next(),
            Some(row.replace("> source", "  source").as_str())
        );
    }
    assert_eq!(lines.next(), None);

    terminal.press("b");
    terminal.until_row(MESSAGE, "back at step 99");
    let shown = terminal.screen.text();
    assert_eq!(shown[0], format!("./fabric.bin   step 99   seed {seed}"));
    terminal.press("B");
    terminal.until_row(MESSAGE, "back at step 0");
    assert_eq!(terminal.screen.text()[0], "./fabric.bin   step 0");
    terminal.press("B");
    terminal.until_row(MESSAGE, "there was no random run");
}

#[test]
fn a_large_panel_scrolls() {
    let folder = of_fabric("large_panel", &credit_loops(21));
    let mut terminal = stepping(&folder);
    terminal.until_shown(include_str!("pictures/screen-large.txt"));
    terminal.press(&PAGE_DOWN.repeat(15));
    terminal.until_shown(include_str!("pictures/screen-large-end.txt"));
    terminal.press(&PAGE_UP.repeat(15));
    terminal.until_shown(include_str!("pictures/screen-large.txt"));
    terminal.press(&DOWN.repeat(18));
    terminal.press(RIGHT);
    terminal.until_shown(include_str!("pictures/screen-large-chooser.txt"));
    // Wherever the screen stands, a change of the choice shows it.
    terminal.press(&PAGE_DOWN.repeat(15));
    terminal.until_row(0, "./fabric.bin   step 0   lines 199 to 218 of 218");
    terminal.press(&RIGHT.repeat(2));
    terminal.until_row(2, "> source   source54              0          -");
    // A window that has room for all shows all.
    terminal.press(&PAGE_DOWN.repeat(15));
    terminal.until_row(0, "./fabric.bin   step 0   lines 199 to 218 of 218");
    terminal.resize(222, 80);
    terminal.until_row(219, "  c125 ");
    assert_eq!(terminal.screen.text()[0], "./fabric.bin   step 0");
    assert_eq!(
        terminal.screen.text()[2],
        "no sums yet: 'panel propose' finds them"
    );
}

/// 63 packets of one letter and the blanks between them: 31 find room after the queue's count.
#[test]
fn a_long_queue_goes_on_below() {
    let netlist = "\
source  s  -> a
queue   q  a -> b   capacity 63 filling 63
sink    t  b
";
    let folder = of_netlist("long_queue", netlist);
    let mut terminal = stepping(&folder);
    let some = ["0"; 31].join(" ");
    terminal.until_row(9, "  chooser  name");
    let shown = terminal.screen.text();
    assert_eq!(shown[4], "  queue  count     front first");
    assert_eq!(shown[5], format!("  q      63 of 63  {some}"));
    assert_eq!(shown[6], format!("                   {some}"));
    assert_eq!(shown[7], "                   0");
}

/// Six packets find room in a line, so a full queue takes 11 lines and an empty one 1: fewer are left
/// than were scrolled away.
#[test]
fn a_panel_that_gets_shorter_is_still_seen() {
    let one = |number: usize| {
        format!(
            "source s{number} -> a{number}\nqueue q{number} a{number} -> b{number} capacity 63\n\
             sink t{number} b{number}\n"
        )
    };
    let netlist: String = (0..9).map(one).collect();
    let folder = of_netlist("shorter", &format!("colours emergency\n{netlist}"));
    let mut terminal = stepping(&folder);
    let all_emit: String = (0..9).map(|s| format!(" s{s}=emergency")).collect();
    folder.write(
        "fill.txt",
        format!("step{all_emit}\n") + &"step\n".repeat(62),
    );
    terminal.press(":load fill.txt\r");
    terminal.until_row(MESSAGE, "loaded 63 steps");
    terminal.press(&PAGE_DOWN.repeat(15));
    terminal.until_row(0, "./fabric.bin   step 63   lines 124 to 143 of 143");
    terminal.press(":back 63\r");
    terminal.until_row(0, "./fabric.bin   step 0   lines 34 to 53 of 53");
    terminal.until_row(ROWS - 3, "  b8 ");
}

#[test]
fn windows_of_any_size() {
    let folder = credit_loop("any_size");
    let mut terminal = started(&folder);
    terminal.resize(24, 60);
    terminal.until_shown(include_str!("pictures/screen-narrow.txt"));
    terminal.resize(8, 42);
    terminal.until_shown(include_str!("pictures/screen-small.txt"));
    for (rows, columns) in [(1, 1), (1, 200), (2, 5), (3, 3), (4, 1), (9, 39), (60, 2)] {
        terminal.resize(rows, columns);
        let title = "./fabric.bin   step 0   lines 1 to";
        // The last place marks a cut.
        let begin = &title[..(columns - 1).min(21)];
        terminal.until("all drawn", |screen| {
            let drawn = screen.cells().all(|cell| cell.character != '#');
            drawn && screen.text()[0].starts_with(begin.trim_end())
        });
        terminal.press(&(PAGE_DOWN.to_string() + DOWN + "w" + ESCAPE));
        terminal.press(&(PAGE_UP.repeat(18) + UP));
    }
    terminal.resize(24, 80);
    terminal.until_shown(START);
}

#[test]
fn only_what_changed_is_written() {
    let folder = credit_loop("only_changes");
    let mut terminal = started(&folder);
    terminal.press(RIGHT);
    terminal.until_row(
        14,
        "  wanted   alarms    gate                            0      yes",
    );
    let before = terminal.written;
    terminal.press("s");
    terminal.until_shown(&with_message(ONE_STEP_AGAIN, ""));
    let first = terminal.written - before;
    let before = terminal.written;
    terminal.press("s");
    terminal.until_shown(TWO_STEPS);
    let second = terminal.written - before;

    // The screen must be written whole to be the same again.
    terminal.screen.resize(ROWS, COLUMNS);
    let before = terminal.written;
    terminal.press(CONTROL_L);
    terminal.until_shown(TWO_STEPS);
    let whole = terminal.written - before;
    assert!(first < 400 && second < 400, "{first} {second}");
    assert!(whole > 2 * first, "{whole}");
}

#[test]
fn packets_have_colours() {
    let folder = credit_loop("in_colours");
    let terminal = started(&folder);
    // The front of the credits.
    let packet = terminal.screen.cell(6, 20);
    assert_eq!((packet.character, &packet.style[..]), ('0', &[36][..]));

    let mut command = folder.command(&["step", "."]);
    command.env("NO_COLOR", "1");
    let mut terminal = OnTerminal::start(command, ROWS, COLUMNS);
    terminal.until_shown(START);
    let mut codes = terminal.screen.cells().flat_map(|cell| &cell.style);
    assert!(codes.all(|code| *code < 30));
}

/// Presses or signals something, and the terminal is as it was found.
fn ends(name: &str, by: impl FnOnce(&mut OnTerminal)) -> std::process::ExitStatus {
    let folder = credit_loop(name);
    let mut terminal = started(&folder);
    assert_ne!(terminal.pty.modes(), terminal.modes_before);
    by(&mut terminal);
    let status = terminal.end();
    terminal.until_given_back();
    status
}

#[test]
fn the_terminal_is_left_as_it_was_found() {
    let code = |status: std::process::ExitStatus| status.code();
    assert_eq!(
        code(ends("left_q", |terminal| terminal.press("q"))),
        Some(0)
    );
    let by_control_c = ends("left_c", |terminal| terminal.press(CONTROL_C));
    assert_eq!(code(by_control_c), Some(0));
    let from_prompt = ends("left_prompt", |terminal| {
        terminal.press("w");
        terminal.press(CONTROL_C);
    });
    assert_eq!(code(from_prompt), Some(0));
    let by_command = ends("left_command", |terminal| terminal.press(":quit\r"));
    assert_eq!(code(by_command), Some(0));
}

#[test]
fn the_terminal_is_left_as_it_was_found_after_a_signal() {
    for (name, signal) in [("left_hup", 1), ("left_int", 2), ("left_term", 15)] {
        let status = ends(name, |terminal| terminal.signal(signal));
        assert_eq!(status.signal(), Some(signal));
    }
}

/// A shell that waits for a line before it tells the stopped program to go on.
#[test]
fn a_stop_leaves_the_terminal_to_the_shell() {
    let folder = credit_loop("stopped");
    let mut shell = Command::new("bash");
    let script = "set -m; \"$0\" step .; read -r line; fg >/dev/null";
    shell.args(["--norc", "-c", script, env!("CARGO_BIN_EXE_panel")]);
    shell.current_dir(folder.path(".")).env("TERM", "xterm");
    let mut terminal = OnTerminal::start(shell, ROWS, COLUMNS);
    terminal.until_shown(START);
    terminal.press(CONTROL_Z);
    terminal.until("the shell's screen", |screen| {
        !screen.on_alternate && screen.shows_cursor
    });
    terminal.until_modes_are_back();
    terminal.press("go on\r");
    terminal.until_shown(START);
    assert_ne!(terminal.pty.modes(), terminal.modes_before);
    terminal.press("q");
    assert_eq!(terminal.end().code(), Some(0));
    terminal.until_modes_are_back();
}

/// Nobody could tell it to go on.
#[test]
fn without_a_shell_there_is_no_stop() {
    const TERMINAL_STOP: i32 = 20;
    let folder = credit_loop("not_stopped");
    let mut terminal = started(&folder);
    terminal.press(CONTROL_Z);
    terminal.signal(TERMINAL_STOP);
    terminal.press(RIGHT);
    terminal.press("ss");
    terminal.until_shown(TWO_STEPS);
    terminal.press("q");
    assert_eq!(terminal.end().code(), Some(0));
    terminal.until_given_back();
}

#[test]
fn a_terminal_that_cannot_draw_takes_commands() {
    let folder = credit_loop("cannot_draw");
    for name in ["dumb", ""] {
        let mut command = folder.command(&["step", "."]);
        command.env("TERM", name);
        let mut terminal = OnTerminal::start(command, 60, 80);
        terminal.press("step alarms=0\rquit\r");
        assert_eq!(terminal.end().code(), Some(0));
        terminal.until("the end", |screen| screen.text().contains(&"> quit".into()));
        assert!(!terminal.screen.on_alternate);
        assert_eq!(terminal.pty.modes(), terminal.modes_before);
    }
}

#[test]
fn alt_and_a_letter_do_nothing() {
    let folder = credit_loop("alt");
    let mut terminal = started(&folder);
    terminal.press(RIGHT);
    terminal.press("ss\x1bb\x1bq");
    terminal.press("w");
    terminal.until_shown(&with_message(TWO_STEPS, "save the steps to: ./choices.txt"));
}

#[test]
fn a_lesson_on_a_terminal_is_played_as_text() {
    let folder = credit_loop("lesson_on_terminal");
    folder.write("lesson.txt", "step alarms=0\nquit\n");
    let command = folder.command(&["step", ".", "lesson.txt"]);
    let mut terminal = OnTerminal::start(command, 60, 80);
    assert_eq!(terminal.end().code(), Some(0));
    terminal.until("the end", |screen| screen.text().contains(&"> quit".into()));
    assert!(!terminal.screen.on_alternate);
    assert!(terminal.screen.cells().all(|cell| cell.style.is_empty()));
    assert_eq!(terminal.pty.modes(), terminal.modes_before);
}
