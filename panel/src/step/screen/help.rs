//! What the keys do, in words.

pub const KEYS: &str = "arrows choose  s step  r run 100  b back  w save  l load  ? help  q quit";

pub const HELP: [&str; 15] = [
    "up, down      select a chooser",
    "left, right   change its choice for the next step; so does the space bar",
    "s, Enter      step; the choices stay set",
    "r             run a hundred steps at random, with a new seed",
    "b             back one step; its choices are set again",
    "B             back to before the last random run; its first choices are set",
    "w             save the steps taken, as a list of choices",
    "l             load such a list and take its steps from the start",
    ":             a command, such as: run 50 seed 7",
    "PgUp, PgDn    scroll",
    "Ctrl-L        draw the screen again",
    "Ctrl-Z        stop, and let the shell go on",
    "q, Ctrl-C     quit",
    "",
    "any key       back to the panel",
];
