//! Which bytes a row takes, and what fills its positions.

use crate::composition::{Burst, Composition};

/// The kinds of bytes that rows tell apart.
#[derive(Clone, Copy, Debug, PartialEq, Eq)]
pub enum Kind {
    Ordinary,
    FieldCode,
    Graphic,
    EndOfRow,
    EndOfRowStop,
    EndOfScreen,
    EndOfScreenStop,
    Unused,
}

impl Kind {
    pub fn of(byte: u8) -> Kind {
        match byte {
            0x00..=0x7F => Kind::Ordinary,
            0x80..=0xBF => Kind::FieldCode,
            0xC0..=0xEF => Kind::Graphic,
            0xF0 => Kind::EndOfRow,
            0xF1 => Kind::EndOfRowStop,
            0xF2 => Kind::EndOfScreen,
            0xF3 => Kind::EndOfScreenStop,
            0xF4..=0xFF => Kind::Unused,
        }
    }

    pub fn is_special(self) -> bool {
        use Kind::*;
        matches!(self, EndOfRow | EndOfRowStop | EndOfScreen | EndOfScreenStop)
    }

    pub fn is_stop(self) -> bool {
        matches!(self, Kind::EndOfRowStop | Kind::EndOfScreenStop)
    }

    pub fn ends_screen(self) -> bool {
        matches!(self, Kind::EndOfScreen | Kind::EndOfScreenStop)
    }
}

/// What fills one position.
#[derive(Clone, Copy, Debug, PartialEq, Eq)]
pub enum Filling {
    Byte(u8),
    /// A transparent field code together with the byte behind it, less bit 7.
    Field {
        code: u8,
        character: u8,
    },
}

impl Filling {
    /// The kind of a byte that fills a position alone; what stands in a field position is no code.
    pub fn kind(self) -> Option<Kind> {
        match self {
            Filling::Byte(byte) => Some(Kind::of(byte)),
            Filling::Field { .. } => None,
        }
    }
}

/// The number of the field character that overruns the memory.
const OVERRUN: usize = 17;

/// A row as far as its bytes go.
#[derive(Clone, Debug, Default, PartialEq, Eq)]
pub struct Row {
    pub fillings: Vec<Filling>,
    /// How many bytes it takes, a dropped one included.
    pub taken: usize,
    /// Whether the bytes reach to the row's end.
    pub ended: bool,
    /// Which of its bytes, from 1, is the seventeenth field character.
    pub overrun: Option<usize>,
}

impl Row {
    /// A row that takes no bytes has ended at once.
    pub fn without_bytes() -> Row {
        Row { ended: true, ..Row::default() }
    }

    /// The row that takes its bytes from the front of these.
    pub fn read(bytes: impl Iterator<Item = u8>, composition: &Composition, burst: Burst) -> Row {
        let mut row = Row { fillings: Vec::with_capacity(composition.columns as usize), ..Row::default() };
        row.ended = row.fill(bytes, composition, burst).is_some();
        row
    }

    /// Fills the row to its end; `None` if a byte is lacking.
    fn fill(&mut self, mut bytes: impl Iterator<Item = u8>, composition: &Composition, burst: Burst) -> Option<()> {
        let width = composition.columns as usize;
        let mut field_characters = 0;
        while self.fillings.len() < width {
            let byte = self.next(&mut bytes)?;
            let kind = Kind::of(byte);
            if kind == Kind::FieldCode && !composition.fields_have_positions {
                let character = self.next(&mut bytes)? & 0x7F;
                self.fillings.push(Filling::Field { code: byte, character });
                field_characters += 1;
                if field_characters == OVERRUN {
                    self.overrun = Some(self.taken);
                }
                continue;
            }
            self.fillings.push(Filling::Byte(byte));
            if kind.is_stop() {
                if self.fillings.len() < width && !burst.ends_with(self.taken) {
                    self.next(&mut bytes)?;
                }
                break;
            }
        }
        Some(())
    }

    fn next(&mut self, bytes: &mut impl Iterator<Item = u8>) -> Option<u8> {
        let byte = bytes.next()?;
        self.taken += 1;
        Some(byte)
    }

    fn has(&self, wanted: impl Fn(Kind) -> bool) -> bool {
        self.fillings.iter().filter_map(|filling| filling.kind()).any(wanted)
    }

    /// The first position of F0 to F3, from which on the row is dark.
    pub fn first_special(&self) -> Option<usize> {
        self.fillings.iter().position(|filling| filling.kind().is_some_and(Kind::is_special))
    }

    pub fn ends_screen(&self) -> bool {
        self.has(Kind::ends_screen)
    }

    pub fn stops_screen(&self) -> bool {
        self.has(|kind| kind == Kind::EndOfScreenStop)
    }
}
