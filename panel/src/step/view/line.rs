//! Lines of text with styles.

#[derive(Clone, Copy, Default, PartialEq, Eq, Debug)]
pub struct Style {
    /// The colour of a packet.
    pub colour: Option<u8>,
    pub bold: bool,
    pub reverse: bool,
}

pub const PLAIN: Style = Style {
    colour: None,
    bold: false,
    reverse: false,
};

pub const BOLD: Style = Style {
    bold: true,
    ..PLAIN
};

/// A stretch of one style.
#[derive(Clone, PartialEq, Eq, Debug)]
pub struct Span {
    pub text: String,
    pub style: Style,
}

pub type Line = Vec<Span>;

impl Span {
    pub fn new(text: impl Into<String>, style: Style) -> Span {
        Span {
            text: text.into(),
            style,
        }
    }

    pub fn plain(text: impl Into<String>) -> Span {
        Span::new(text, PLAIN)
    }

    pub fn width(&self) -> usize {
        self.text.chars().count()
    }

    /// Cut to a width, the cut marked by `~`.
    pub fn cut(&self, width: usize) -> Span {
        if self.width() <= width {
            return self.clone();
        }
        let kept: String = self.text.chars().take(width.saturating_sub(1)).collect();
        Span::new(kept + "~", self.style)
    }
}

pub fn blanks(count: usize) -> Span {
    Span::plain(" ".repeat(count))
}

pub fn width(line: &[Span]) -> usize {
    line.iter().map(Span::width).sum()
}

/// Without styles, and without blanks at the end.
pub fn text(line: &[Span]) -> String {
    let text: String = line.iter().map(|span| span.text.as_str()).collect();
    text.trim_end().to_string()
}

/// The pieces after the beginning of a line, a blank between them; those that find no room go to
/// lines of their own below them.
pub fn wrapped(begin: Line, pieces: impl IntoIterator<Item = Span>, room: usize) -> Vec<Line> {
    let indent = width(&begin);
    let mut lines = vec![begin];
    let mut column = indent;
    for piece in pieces {
        let first = column == indent;
        if !first && column + 1 + piece.width() > room {
            lines.push(vec![blanks(indent)]);
            column = indent;
        }
        let line = lines.last_mut().expect("the first line");
        if column > indent {
            line.push(blanks(1));
            column += 1;
        }
        column += piece.width();
        line.push(piece);
    }
    lines
}
