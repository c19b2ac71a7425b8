//! Rows of cells, in columns as wide as they need to be.

use super::line::{blanks, Line, Span, BOLD};

const BETWEEN: usize = 2;

/// No column is cut below it.
const NARROWEST: usize = 5;

pub struct Table {
    heading: Line,
    rows: Vec<Line>,
    /// Headings above the heading, each from a column on.
    groups: Vec<(usize, &'static str)>,
    marked: Option<usize>,
}

impl Table {
    pub fn new(heading: &[&str]) -> Table {
        Table {
            heading: heading.iter().map(|&text| Span::new(text, BOLD)).collect(),
            rows: Vec::new(),
            groups: Vec::new(),
            marked: None,
        }
    }

    pub fn group(mut self, column: usize, text: &'static str) -> Table {
        self.groups.push((column, text));
        self
    }

    /// As many cells as the heading has.
    pub fn row(&mut self, cells: Line) {
        self.rows.push(cells);
    }

    /// Puts `>` before a row.
    pub fn mark(&mut self, row: Option<usize>) {
        self.marked = row;
    }

    /// The headings, then a line a row. Where there is no room for all, the widest columns are cut.
    pub fn lines(&self, room: usize) -> Vec<Line> {
        let widths = self.widths(room);
        let mut lines = Vec::new();
        if !self.groups.is_empty() {
            lines.push(self.group_line(&widths));
        }
        lines.push(laid_out(&self.heading, &widths, false));
        let rows = self.rows.iter().enumerate();
        lines.extend(rows.map(|(place, row)| laid_out(row, &widths, self.marked == Some(place))));
        lines
    }

    fn widths(&self, room: usize) -> Vec<usize> {
        let mut widths = vec![0; self.heading.len()];
        for row in std::iter::once(&self.heading).chain(&self.rows) {
            for (width, cell) in widths.iter_mut().zip(row) {
                *width = cell.width().max(*width);
            }
        }
        while start_of(widths.len(), &widths) - BETWEEN > room {
            let widest = widths.iter_mut().max().expect("a column");
            if *widest <= NARROWEST {
                break;
            }
            *widest -= 1;
        }
        widths
    }

    fn group_line(&self, widths: &[usize]) -> Line {
        let mut line = Vec::new();
        let mut end = 0;
        for &(column, text) in &self.groups {
            let start = start_of(column, widths);
            line.push(blanks(start.saturating_sub(end)));
            line.push(Span::new(text, BOLD));
            end = start + text.len();
        }
        line
    }
}

/// Where a column begins, after the mark.
fn start_of(column: usize, widths: &[usize]) -> usize {
    let before = widths[..column].iter().map(|width| width + BETWEEN);
    BETWEEN + before.sum::<usize>()
}

fn laid_out(cells: &[Span], widths: &[usize], marked: bool) -> Line {
    let mut line = vec![Span::plain(if marked { "> " } else { "  " })];
    for (cell, &width) in cells.iter().zip(widths) {
        let cell = cell.cut(width);
        let after = width - cell.width() + BETWEEN;
        line.extend([cell, blanks(after)]);
    }
    line
}
