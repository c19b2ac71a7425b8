//! What to write to a terminal so that it shows a frame: only what changed.

use super::frame::{is_blank, Cell, Frame};
use super::palette::Palette;
use crate::step::view::{Style, PLAIN};

/// So many places that stay are written again rather than jumped over.
const SHORTEST_JUMP: usize = 4;

const CLEAR: &str = "\x1b[m\x1b[2J";
const CLEAR_TO_END_OF_ROW: &str = "\x1b[K";

/// Everything, on a terminal that may show anything.
pub fn whole(next: &Frame, palette: &Palette) -> String {
    CLEAR.to_string() + &changes(&Frame::blank(next.size), next, palette)
}

/// The changes from one frame to another of the same size. The style is plain before and after.
pub fn changes(last: &Frame, next: &Frame, palette: &Palette) -> String {
    let mut pen = Pen::new(palette);
    for row in 0..next.size.rows {
        row_changes(&mut pen, row, last.row(row), next.row(row));
    }
    pen.set(PLAIN);
    pen.written
}

fn row_changes(pen: &mut Pen, row: usize, last: &[Cell], next: &[Cell]) {
    let mut column = 0;
    while let Some(begin) = first_change(last, next, column) {
        let end = end_of_stretch(last, next, begin);
        pen.move_to(row, begin);
        let blank_from = begin
            + next[begin..]
                .iter()
                .rposition(not_blank)
                .map_or(0, |at| at + 1);
        pen.write(&next[begin..end.min(blank_from)]);
        if blank_from < end {
            debug_assert!(is_blank(&next[blank_from..]));
            pen.set(PLAIN);
            pen.written += CLEAR_TO_END_OF_ROW;
            return;
        }
        column = end;
    }
}

fn not_blank(cell: &Cell) -> bool {
    !is_blank(std::slice::from_ref(cell))
}

fn first_change(last: &[Cell], next: &[Cell], from: usize) -> Option<usize> {
    (from..next.len()).find(|&column| last[column] != next[column])
}

/// Past the last changed place before a jump is worth it.
fn end_of_stretch(last: &[Cell], next: &[Cell], begin: usize) -> usize {
    let mut end = begin + 1;
    while let Some(change) = first_change(last, next, end) {
        if change - end >= SHORTEST_JUMP {
            break;
        }
        end = change + 1;
    }
    end
}

/// Keeps where the cursor is and what style is set.
struct Pen<'a> {
    palette: &'a Palette,
    written: String,
    /// Not known at first.
    place: Option<(usize, usize)>,
    style: Style,
}

impl Pen<'_> {
    fn new(palette: &Palette) -> Pen<'_> {
        Pen {
            palette,
            written: String::new(),
            place: None,
            style: PLAIN,
        }
    }

    fn move_to(&mut self, row: usize, column: usize) {
        self.written += &match self.place {
            Some((same, before)) if same == row && before < column => {
                format!("\x1b[{}C", column - before)
            }
            _ => format!("\x1b[{};{}H", row + 1, column + 1),
        };
        self.place = Some((row, column));
    }

    fn write(&mut self, cells: &[Cell]) {
        for cell in cells {
            // A blank looks the same in every style that is not reverse.
            if cell.character != ' ' || cell.style.reverse || self.style.reverse {
                self.set(cell.style);
            }
            self.written.push(cell.character);
        }
        let (row, column) = self.place.expect("moved to");
        self.place = Some((row, column + cells.len()));
    }

    fn set(&mut self, style: Style) {
        if self.style != style {
            self.written += &self.palette.sequence(style);
            self.style = style;
        }
    }
}
