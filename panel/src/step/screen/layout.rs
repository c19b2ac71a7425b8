//! Where the parts of the screen stand: title, panel, message and keys.

use super::controls::{Mode, Screen};
use super::help::{HELP, KEYS};
use super::prompt::Prompt;
use crate::step::terminal::{Frame, Size};
use crate::step::view::{self, Body, Line, Span, Style, BOLD, PLAIN};

/// Rows above and below the panel: title and a blank row, message and keys.
const ABOVE: usize = 2;
const BELOW: usize = 2;

impl Screen {
    pub fn resize(&mut self, size: Size) {
        self.size = size;
        self.scroll_to(self.top);
    }

    pub fn frame(&self) -> Frame {
        let mut frame = Frame::blank(self.size);
        let (title, lines) = match self.mode {
            Mode::Help => (view::title(&self.session), help()),
            _ => self.panel(),
        };
        for (place, line) in lines.iter().take(self.body_rows()).enumerate() {
            frame.put(ABOVE + place, line);
        }
        frame.put(0, &[Span::new(title, BOLD)]);
        if let Some(row) = self.size.rows.checked_sub(BELOW).filter(|&row| row > 0) {
            frame.put(row, &self.message_line());
            frame.put(row + 1, &[Span::new(KEYS, BOLD)]);
        }
        frame
    }

    /// The title says which lines are seen, if not all are.
    fn panel(&self) -> (String, Vec<Line>) {
        let mut title = view::title(&self.session);
        let mut lines = self.body().lines;
        let (count, rows) = (lines.len(), self.body_rows());
        if count > rows {
            let (first, last) = (self.top + 1, self.top + rows);
            title += &format!("   lines {first} to {last} of {count}");
        }
        (title, lines.split_off(self.top))
    }

    fn message_line(&self) -> Line {
        match &self.mode {
            Mode::Asks(prompt) => typed_line(prompt, self.size.columns),
            _ => vec![Span::plain(&self.message)],
        }
    }

    fn body(&self) -> Body {
        let selected = (!self.session.choosers.is_empty()).then_some(self.selected);
        view::body(&self.session, selected, self.size.columns)
    }

    fn body_rows(&self) -> usize {
        self.size.rows.saturating_sub(ABOVE + BELOW)
    }

    /// How far a key scrolls.
    pub fn page(&self) -> usize {
        self.body_rows().saturating_sub(1).max(1)
    }

    pub fn scroll_to(&mut self, top: usize) {
        let lines = self.body().lines.len();
        self.top = top.min(lines.saturating_sub(self.body_rows()));
    }

    pub fn scroll_to_selected(&mut self) {
        if let Some(line) = self.body().selected {
            let lowest_top = (line + 1).saturating_sub(self.body_rows().max(1));
            self.scroll_to(self.top.clamp(lowest_top, line));
        }
    }
}

fn help() -> Vec<Line> {
    HELP.map(|text| vec![Span::plain(text)]).to_vec()
}

/// The end of what is typed is always seen, and a place for the cursor.
fn typed_line(prompt: &Prompt, columns: usize) -> Line {
    let room = columns.saturating_sub(prompt.question().len() + 1);
    let over = prompt.text.chars().count().saturating_sub(room);
    let cursor = Style {
        reverse: true,
        ..PLAIN
    };
    vec![
        Span::plain(prompt.question()),
        Span::plain(prompt.text.chars().skip(over).collect::<String>()),
        Span::new(" ", cursor),
    ]
}
