use std::io::Read;
use std::panic;
use std::sync::mpsc;

use super::pty::{modes, Pty};
use crate::step::terminal::{Palette, Terminal};

/// The only test here that takes a terminal over: there is one for a program.
#[test]
fn a_panic_gives_the_terminal_back_before_it_speaks() {
    let mut pty = Pty::open(24, 80);
    let before = pty.modes();
    let slave = || pty.slave.try_clone().expect("a copy");
    let (input, output) = (slave(), slave());

    // What a panic says comes from the hook that the terminal finds.
    let (sender, modes_then) = mpsc::channel();
    let watched = slave();
    let usual = panic::take_hook();
    panic::set_hook(Box::new(move |about| {
        let _ = sender.send(modes(&watched));
        usual(about);
    }));
    let panicked = panic::catch_unwind(|| {
        let palette = Palette::without_colours();
        let _terminal = Terminal::take_over(&input, &output, palette).expect("a terminal");
        assert_ne!(pty.modes(), before);
        panic!("while the screen is shown");
    });
    assert!(panicked.is_err());
    assert_eq!(modes_then.recv(), Ok(before));
    assert_eq!(pty.modes(), before);
    let expected = "\x1b[?1049h\x1b[?25l\x1b[m\x1b[?25h\x1b[?1049l";
    let mut written = vec![0; expected.len()];
    pty.master.read_exact(&mut written).expect("it is written");
    assert_eq!(written, expected.as_bytes());
}
