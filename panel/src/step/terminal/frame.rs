//! What a screen shows: a character and a style for each place.

use crate::step::view::{Span, Style, PLAIN};

#[derive(Clone, Copy, PartialEq, Eq, Debug)]
pub struct Cell {
    pub character: char,
    pub style: Style,
}

const CUT: char = '~';

const BLANK: Cell = Cell {
    character: ' ',
    style: PLAIN,
};

#[derive(Clone, Copy, PartialEq, Eq, Debug)]
pub struct Size {
    pub rows: usize,
    pub columns: usize,
}

#[derive(PartialEq, Eq, Debug)]
pub struct Frame {
    pub size: Size,
    rows: Vec<Vec<Cell>>,
}

impl Frame {
    pub fn blank(size: Size) -> Frame {
        Frame {
            size,
            rows: vec![vec![BLANK; size.columns]; size.rows],
        }
    }

    pub fn row(&self, row: usize) -> &[Cell] {
        &self.rows[row]
    }

    /// Puts a line at the beginning of a row; one that finds no room is cut, and marked so.
    pub fn put(&mut self, row: usize, line: &[Span]) {
        let Some(cells) = self.rows.get_mut(row) else {
            return;
        };
        let mut characters = line
            .iter()
            .flat_map(|span| span.text.chars().map(|character| (character, span.style)));
        for (cell, (character, style)) in cells.iter_mut().zip(&mut characters) {
            *cell = Cell {
                character: shown(character),
                style,
            };
        }
        if characters.any(|(character, _)| character != ' ') {
            if let Some(last) = cells.last_mut() {
                last.character = CUT;
            }
        }
    }
}

/// A character that takes one place on every terminal: others are shown as `?`.
fn shown(character: char) -> char {
    match character {
        ' '..='~' | '\u{a1}'..='\u{ac}' | '\u{ae}'..='\u{2ff}' | '\u{370}'..='\u{482}' => character,
        _ => '?',
    }
}

pub fn is_blank(cells: &[Cell]) -> bool {
    cells.iter().all(|cell| *cell == BLANK)
}
