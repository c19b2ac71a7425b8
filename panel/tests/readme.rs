//! The first steps of README: what is pasted prints what stands there, and the screen is as shown.

mod common;

use std::env;
use std::path::Path;
use std::process::Command;

use common::on_terminal::OnTerminal;
use common::page::fenced;
use common::{said, Folder, Said};

const README: &str = include_str!("../../README.md");
const HOST_PRINTS: &str = include_str!("../../host/example.expected");

/// Where the program was built, before all other folders.
fn path() -> String {
    let built = Path::new(env!("CARGO_BIN_EXE_panel"));
    let folder = built.parent().expect("a folder").display();
    format!("{folder}:{}", env::var("PATH").unwrap_or_default())
}

/// What is to be pasted, in a shell.
fn first_step(folder: &Folder) -> Said {
    let mut shell = Command::new("sh");
    shell.args(["-ec", &fenced(README, "mkdir loop")]);
    said(
        shell
            .env("PATH", path())
            .current_dir(folder.path("."))
            .output(),
    )
}

#[test]
fn the_desk_s_first_step() {
    let folder = Folder::new("readme-desk");
    let first = "loop/fabric.bin: 6 components, 6 channels, 1 colour, 82 bytes";
    assert_eq!(first_step(&folder), Said::printed(&fenced(README, first)));
}

#[test]
fn the_teacher_s_screen() {
    let folder = Folder::new("readme-screen");
    assert_eq!(first_step(&folder).code, 0);
    let mut terminal = OnTerminal::start(folder.command(&["step", "loop"]), 24, 80);
    terminal.press("\x1b[Css");
    terminal.until_shown(&fenced(README, "loop/fabric.bin   step 2"));
}

#[test]
fn what_the_host_s_example_prints() {
    let first = HOST_PRINTS.lines().next().expect("a line");
    assert_eq!(fenced(README, first), HOST_PRINTS);
}
