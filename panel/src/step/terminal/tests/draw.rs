use reference::random::Random;

use super::emulator::Emulator;
use crate::step::terminal::draw::{changes, whole};
use crate::step::terminal::frame::{Frame, Size};
use crate::step::terminal::palette::Palette;
use crate::step::view::{Span, Style};

const ROWS: usize = 6;
const COLUMNS: usize = 30;

fn palette() -> Palette {
    Palette::new(&["red", "blue"].map(String::from))
}

fn random_span(random: &mut Random) -> Span {
    let text: String = (0..random.between(1, 6))
        .map(|_| random.pick(&[' ', ' ', 'a', 'b']))
        .collect();
    let style = Style {
        colour: random.pick(&[None, None, Some(0), Some(1)]),
        bold: random.percent(20),
        reverse: random.percent(20),
    };
    Span::new(text, style)
}

/// A frame like the one given, with some rows changed.
fn random_frame(random: &mut Random, lines: &mut [Vec<Span>]) -> Frame {
    for line in lines.iter_mut() {
        if random.percent(50) {
            *line = (0..random.below(9)).map(|_| random_span(random)).collect();
        } else if !line.is_empty() && random.percent(50) {
            let place = random.below(line.len());
            line[place] = random_span(random);
        }
    }
    let size = Size {
        rows: ROWS,
        columns: COLUMNS,
    };
    let mut frame = Frame::blank(size);
    for (row, line) in lines.iter().enumerate() {
        frame.put(row, line);
    }
    frame
}

/// The codes that the palette has for the style, in the order in which it writes them.
fn codes(style: Style) -> Vec<u8> {
    let bold = style.bold.then_some(1);
    let reverse = style.reverse.then_some(7);
    let colour = style.colour.map(|colour| [31, 34][usize::from(colour)]);
    bold.into_iter().chain(reverse).chain(colour).collect()
}

fn assert_shows(screen: &Emulator, frame: &Frame) {
    for row in 0..ROWS {
        for (column, cell) in frame.row(row).iter().enumerate() {
            let shown = screen.cell(row, column);
            assert_eq!(shown.character, cell.character);
            // Nobody sees the colour of a blank.
            if cell.character != ' ' || cell.style.reverse || shown.style.contains(&7) {
                assert_eq!(shown.style, codes(cell.style));
            }
        }
    }
}

#[test]
fn changes_lead_from_frame_to_frame() {
    let random = &mut Random::new(1, 0);
    let mut screen = Emulator::new(ROWS, COLUMNS);
    let mut lines = vec![Vec::new(); ROWS];
    let mut last = random_frame(random, &mut lines);
    screen.resize(ROWS, COLUMNS);
    screen.write(whole(&last, &palette()).as_bytes());
    assert_shows(&screen, &last);
    for _ in 0..2_000 {
        let next = random_frame(random, &mut lines);
        screen.write(changes(&last, &next, &palette()).as_bytes());
        assert_shows(&screen, &next);
        last = next;
    }
}

#[test]
fn nothing_is_written_for_the_same_frame() {
    let frame = || random_frame(&mut Random::new(2, 0), &mut vec![Vec::new(); ROWS]);
    assert_eq!(changes(&frame(), &frame(), &palette()), "");
}

#[test]
fn one_place_takes_one_move() {
    let frame = |text: &str| {
        let size = Size {
            rows: ROWS,
            columns: COLUMNS,
        };
        let mut frame = Frame::blank(size);
        frame.put(2, &[Span::plain(text)]);
        frame
    };
    let (last, next) = (frame("step 1 of all"), frame("step 2 of all"));
    assert_eq!(changes(&last, &next, &palette()), "\x1b[3;6H2");
    let next = frame("step");
    assert_eq!(changes(&last, &next, &palette()), "\x1b[3;6H\x1b[K");
}

#[test]
fn colours_named_after_inks_get_them() {
    let sequence = |names: &[&str], colour| {
        let names: Vec<String> = names.iter().map(|name| name.to_string()).collect();
        let style = Style {
            colour: Some(colour),
            ..Style::default()
        };
        Palette::new(&names).sequence(style)
    };
    assert_eq!(sequence(&["0", "1"], 0), "\x1b[;36m");
    assert_eq!(sequence(&["request", "red", "cyan"], 0), "\x1b[;35m");
    assert_eq!(sequence(&["request", "red", "cyan"], 1), "\x1b[;31m");
    assert_eq!(sequence(&["request", "red", "cyan"], 2), "\x1b[;36m");
    let eight: Vec<String> = (0..8)
        .map(|colour| sequence(&["0", "1", "2", "3", "4", "5", "6", "7"], colour))
        .collect();
    for (place, code) in eight.iter().enumerate() {
        assert!(!eight[..place].contains(code));
    }
}
