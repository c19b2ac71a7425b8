//! A small terminal: what it shows after the bytes that were written to it. It knows the sequences
//! that the program uses and fails on any other.

#[derive(Clone, PartialEq, Eq, Debug)]
pub struct Cell {
    pub character: char,
    /// The codes of its style, such as 1 for bold and 36 for cyan.
    pub style: Vec<u8>,
}

fn blank() -> Cell {
    Cell {
        character: ' ',
        style: Vec::new(),
    }
}

type Grid = Vec<Vec<Cell>>;

pub struct Emulator {
    rows: usize,
    columns: usize,
    main: Grid,
    alternate: Grid,
    pub on_alternate: bool,
    pub shows_cursor: bool,
    pub cursor: (usize, usize),
    saved_cursor: (usize, usize),
    style: Vec<u8>,
    /// Bytes of a character or a sequence whose end has not come.
    part: Vec<u8>,
}

impl Emulator {
    pub fn new(rows: usize, columns: usize) -> Emulator {
        let grid = vec![vec![blank(); columns]; rows];
        Emulator {
            rows,
            columns,
            main: grid.clone(),
            alternate: grid,
            on_alternate: false,
            shows_cursor: true,
            cursor: (0, 0),
            saved_cursor: (0, 0),
            style: Vec::new(),
            part: Vec::new(),
        }
    }

    /// What is left of a screen after that differs from terminal to terminal: here it is `#`, which
    /// the program never writes.
    pub fn resize(&mut self, rows: usize, columns: usize) {
        (self.rows, self.columns) = (rows, columns);
        let unknown = Cell {
            character: '#',
            style: Vec::new(),
        };
        *self.grid_mut() = vec![vec![unknown; columns]; rows];
        self.cursor = (0, 0);
    }

    pub fn write(&mut self, bytes: &[u8]) {
        for &byte in bytes {
            self.part.push(byte);
            if self.take_part() {
                self.part.clear();
            }
        }
    }

    /// The rows, without blanks at their ends.
    pub fn text(&self) -> Vec<String> {
        let row = |row: &Vec<Cell>| row.iter().map(|cell| cell.character).collect::<String>();
        let rows = self.grid().iter().map(row);
        rows.map(|row| row.trim_end().to_string()).collect()
    }

    pub fn cell(&self, row: usize, column: usize) -> &Cell {
        &self.grid()[row][column]
    }

    pub fn cells(&self) -> impl Iterator<Item = &Cell> {
        self.grid().iter().flatten()
    }

    fn grid(&self) -> &Grid {
        if self.on_alternate {
            &self.alternate
        } else {
            &self.main
        }
    }

    fn grid_mut(&mut self) -> &mut Grid {
        if self.on_alternate {
            &mut self.alternate
        } else {
            &mut self.main
        }
    }

    /// Whether the bytes were whole.
    fn take_part(&mut self) -> bool {
        match self.part[..] {
            [b'\r'] => self.cursor.1 = 0,
            [b'\n'] => self.line_feed(),
            [0x1b] | [0x1b, b'['] => return false,
            [0x1b, b'[', .., last @ 0x40..=0x7e] => {
                let parameters = &self.part[2..self.part.len() - 1];
                let parameters = String::from_utf8(parameters.to_vec()).expect("digits");
                self.sequence(&parameters, last);
            }
            [0x1b, b'[', ..] => return false,
            [0x00..=0x1f, ..] => panic!("unknown control {:?}", self.part),
            _ => match std::str::from_utf8(&self.part) {
                Ok(text) => {
                    let character = text.chars().next().expect("a character");
                    self.put(character);
                }
                Err(_) => return false,
            },
        }
        true
    }

    fn put(&mut self, character: char) {
        // The cursor stays past the last column until something more comes.
        if self.cursor.1 == self.columns {
            self.cursor.1 = 0;
            self.line_feed();
        }
        let (row, column) = self.cursor;
        let style = self.style.clone();
        self.grid_mut()[row][column] = Cell { character, style };
        self.cursor.1 += 1;
    }

    fn line_feed(&mut self) {
        if self.cursor.0 + 1 < self.rows {
            self.cursor.0 += 1;
            return;
        }
        let columns = self.columns;
        let grid = self.grid_mut();
        grid.remove(0);
        grid.push(vec![blank(); columns]);
    }

    fn sequence(&mut self, parameters: &str, last: u8) {
        let number = |text: &str| text.parse::<usize>().expect("a number");
        match (last, parameters) {
            (b'H', _) => {
                let (row, column) = parameters.split_once(';').expect("two numbers");
                self.move_to(number(row) - 1, number(column) - 1);
            }
            (b'C', _) => self.move_to(self.cursor.0, self.cursor.1 + number(parameters)),
            (b'J', "2") => {
                let all = vec![vec![blank(); self.columns]; self.rows];
                *self.grid_mut() = all;
            }
            (b'K', "") => {
                let (row, column) = self.cursor;
                self.grid_mut()[row][column..].fill(blank());
            }
            (b'm', _) => self.set_style(parameters),
            (b'h', "?25") => self.shows_cursor = true,
            (b'l', "?25") => self.shows_cursor = false,
            (b'h', "?1049") => {
                self.saved_cursor = self.cursor;
                self.on_alternate = true;
                self.alternate = vec![vec![blank(); self.columns]; self.rows];
            }
            (b'l', "?1049") => {
                self.cursor = self.saved_cursor;
                self.on_alternate = false;
            }
            _ => panic!("unknown sequence ESC [ {parameters} {}", last as char),
        }
    }

    /// Not beyond the last row and column.
    fn move_to(&mut self, row: usize, column: usize) {
        self.cursor = (row.min(self.rows - 1), column.min(self.columns - 1));
    }

    fn set_style(&mut self, parameters: &str) {
        for code in parameters.split(';') {
            match code {
                "" | "0" => self.style.clear(),
                _ => self.style.push(code.parse().expect("a code")),
            }
        }
    }
}
