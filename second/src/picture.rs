//! What a row shows: its cells, and the words of its clocks.

use std::cmp::Ordering;
use std::ops::Range;

use crate::composition::Composition;
use crate::row::{Filling, Kind, Row};

const LA0: u32 = 1 << 12;
const LA1: u32 = 1 << 13;
const LTEN: u32 = 1 << 14;
const RVV: u32 = 1 << 15;
const VSP: u32 = 1 << 16;
const HGLT: u32 = 1 << 17;
const GPA0: u32 = 1 << 18;
const GPA1: u32 = 1 << 19;
const HRTC: u32 = 1 << 20;
const VRTC: u32 = 1 << 21;
pub const DRQ: u32 = 1 << 22;
pub const IRQ: u32 = 1 << 23;

/// The six attributes in force, laid out as in a field code.
#[derive(Clone, Copy, Debug, Default, PartialEq, Eq)]
pub struct Field(u8);

impl Field {
    fn of_code(code: u8) -> Field {
        Field(code & 0x3F)
    }

    fn underlines(self) -> bool {
        self.0 & 0x20 != 0
    }

    fn blinks(self) -> bool {
        self.0 & 0x02 != 0
    }

    fn highlight(self) -> u32 {
        on_if(self.0 & 0x01 != 0, HGLT)
    }

    /// The attributes that act on every kind of character.
    fn common(self) -> u32 {
        on_if(self.0 & 0x10 != 0, RVV) | on_if(self.0 & 0x08 != 0, GPA1) | on_if(self.0 & 0x04 != 0, GPA0)
    }
}

fn on_if(condition: bool, bits: u32) -> u32 {
    if condition {
        bits
    } else {
        0
    }
}

/// What the rows above leave to the rows below.
#[derive(Clone, Copy, Debug, Default, PartialEq, Eq)]
pub struct Above {
    field: Field,
    /// F2 or F3 has come: all further rows are dark.
    screen_ended: bool,
    /// F3 has come: no further row takes bytes.
    pub stopped: bool,
}

impl Above {
    /// What is left below one more row.
    pub fn and(&self, row: &Row) -> Above {
        Above {
            field: field_behind(lit_part(row), self.field),
            screen_ended: self.screen_ended || row.ends_screen(),
            stopped: self.stopped || row.stops_screen(),
        }
    }
}

/// The positions before the first of F0 to F3, the only ones with effective field codes.
fn lit_part(row: &Row) -> &[Filling] {
    &row.fillings[..row.first_special().unwrap_or(row.fillings.len())]
}

/// The field that is in force behind these positions.
fn field_behind(fillings: &[Filling], before: Field) -> Field {
    fillings.iter().fold(before, |field, filling| code_of(*filling).map_or(field, Field::of_code))
}

/// The field code of a position, whether it fills it alone or with a character.
fn code_of(filling: Filling) -> Option<u8> {
    match filling {
        Filling::Field { code, .. } => Some(code),
        Filling::Byte(byte) => (Kind::of(byte) == Kind::FieldCode).then_some(byte),
    }
}

/// What one column of a row shows.
#[derive(Clone, Copy, Debug, PartialEq, Eq)]
pub enum Cell {
    Dark,
    Character { code: u8, field: Field },
    Graphic { byte: u8, field: Field },
}

/// The cells of a row, one for each column.
pub fn cells(row: &Row, above: &Above, composition: &Composition) -> Vec<Cell> {
    let mut cells = vec![Cell::Dark; composition.columns as usize];
    if above.screen_ended {
        return cells;
    }
    let characters = shown_field_characters(row);
    let mut field_positions = 0;
    let mut field = above.field;
    for (cell, filling) in cells.iter_mut().zip(lit_part(row)) {
        // A position's own code comes first: its field begins with its own character.
        field = code_of(*filling).map_or(field, Field::of_code);
        *cell = match *filling {
            Filling::Field { .. } => {
                field_positions += 1;
                Cell::Character { code: characters[field_positions - 1], field }
            }
            Filling::Byte(byte) => match Kind::of(byte) {
                Kind::Ordinary => Cell::Character { code: byte, field },
                Kind::Graphic => Cell::Graphic { byte, field },
                _ => Cell::Dark,
            },
        };
    }
    cells
}

/// The field characters as the memory of sixteen places gives them back, one for each field position.
fn shown_field_characters(row: &Row) -> Vec<u8> {
    const PLACES: usize = 16;
    let written: Vec<u8> = row
        .fillings
        .iter()
        .filter_map(|filling| match filling {
            Filling::Field { character, .. } => Some(*character),
            Filling::Byte(_) => None,
        })
        .collect();
    let last_in_place = |k: usize| k + (written.len() - 1 - k) / PLACES * PLACES;
    (0..written.len()).map(|k| written[last_in_place(k)]).collect()
}

/// What a graphic code sets above line U, on it and below it.
const SHAPES: [[u32; 3]; 12] = [
    [VSP, LA1, LA0],
    [VSP, LA1 | LA0, LA0],
    [LA0, LA1, VSP],
    [LA0, LA1 | LA0, VSP],
    [VSP, LTEN, LA0],
    [LA0, LA1 | LA0, LA0],
    [LA0, LA1, LA0],
    [LA0, LTEN, VSP],
    [VSP, LTEN, VSP],
    [LA0, LA0, LA0],
    [LA0, LTEN, LA0],
    [0, 0, 0],
];

/// A column and a row, both from 0.
#[derive(Clone, Copy, Debug, Default, PartialEq, Eq)]
pub struct Place {
    pub column: u8,
    pub row: u8,
}

/// All besides the cells that makes up the words of a row.
pub struct View<'a> {
    pub composition: &'a Composition,
    pub blink: u32,
    pub cursor: Option<Place>,
}

impl View<'_> {
    /// Adds the words of some clocks of a row's time, in which these cells are shown.
    pub fn shown(&self, number: u32, cells: &[Cell], clocks: Range<u32>, words: &mut Vec<u32>) {
        let cursor_column = self.cursor_column(number);
        for (line, columns) in self.lines(clocks) {
            for column in columns {
                words.push(match cells.get(column as usize) {
                    Some(cell) => self.word(*cell, line, cursor_column == Some(column)),
                    None => self.dark_word(line) | HRTC,
                });
            }
        }
    }

    /// Adds the words of some clocks of a row time in which nothing is shown.
    pub fn dark(&self, vertical_retrace: bool, clocks: Range<u32>, words: &mut Vec<u32>) {
        for (line, columns) in self.lines(clocks) {
            let word = self.dark_word(line) | on_if(vertical_retrace, VRTC);
            for column in columns {
                words.push(word | on_if(column >= self.composition.columns, HRTC));
            }
        }
    }

    /// Cuts clocks of a row time into lines, each with the clocks in it.
    fn lines(&self, clocks: Range<u32>) -> impl Iterator<Item = (u32, Range<u32>)> {
        let width = self.composition.line_clocks();
        (clocks.start / width..clocks.end.div_ceil(width)).map(move |line| {
            let first = line * width;
            (line, clocks.start.max(first) - first..clocks.end.min(first + width) - first)
        })
    }

    fn dark_word(&self, line: u32) -> u32 {
        VSP | self.composition.line_count(line) << 8
    }

    fn word(&self, cell: Cell, line: u32, at_cursor: bool) -> u32 {
        let picture = match cell {
            Cell::Dark => return self.dark_word(line),
            Cell::Character { code, field } => self.character(code, field, line),
            Cell::Graphic { byte, field } => self.graphic(byte, field, line),
        };
        let word = picture | self.composition.line_count(line) << 8 | on_if(self.is_edge(line), VSP);
        if at_cursor {
            self.with_cursor(word, line)
        } else {
            word
        }
    }

    fn character(&self, code: u8, field: Field, line: u32) -> u32 {
        u32::from(code)
            | field.common()
            | field.highlight()
            | on_if(field.underlines() && line == self.composition.underline, LTEN)
            | on_if(field.blinks() && self.is_blinked_off(), VSP)
    }

    fn graphic(&self, byte: u8, field: Field, line: u32) -> u32 {
        let shape = SHAPES[usize::from(byte >> 2 & 15)];
        let part = match line.cmp(&self.composition.underline) {
            Ordering::Less => shape[0],
            Ordering::Equal => shape[1],
            Ordering::Greater => shape[2],
        };
        u32::from(byte & 0x7F)
            | part
            | field.common()
            | on_if(byte & 1 != 0, HGLT)
            | on_if(byte & 2 != 0 && self.is_blinked_off(), VSP)
    }

    fn is_blinked_off(&self) -> bool {
        self.blink >= 16
    }

    /// With U of 8 or more the first and the last line are suppressed, without being dark.
    fn is_edge(&self, line: u32) -> bool {
        self.composition.underline >= 8 && (line == 0 || line == self.composition.lines - 1)
    }

    /// The column at which the cursor acts in a row, if it does.
    fn cursor_column(&self, number: u32) -> Option<u32> {
        let acts = self.composition.cursor_is_steady || self.blink % 16 < 8;
        self.cursor.filter(|cursor| acts && u32::from(cursor.row) + 1 == number).map(|cursor| u32::from(cursor.column))
    }

    fn with_cursor(&self, word: u32, line: u32) -> u32 {
        if self.composition.cursor_is_underline {
            word | on_if(line == self.composition.underline, LTEN)
        } else {
            word ^ RVV
        }
    }
}
