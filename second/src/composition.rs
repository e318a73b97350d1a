//! The screen composition, the format of the screen, as the four parameters of Reset give it,
//! and the burst, as Start gives it.

#[derive(Clone, Copy, Debug, PartialEq, Eq)]
pub struct Composition {
    /// Even rows are blank.
    pub spaced: bool,
    /// H, characters in a row.
    pub columns: u32,
    /// V, row times of vertical retrace.
    pub retrace_row_times: u32,
    /// R, rows in a frame.
    pub rows: u32,
    /// U, the line of underlines, from 0.
    pub underline: u32,
    /// L, lines in a row.
    pub lines: u32,
    /// Line mode 1: the line count is one less than the line's number.
    pub count_is_one_less: bool,
    /// F: field codes fill a position of their own.
    pub fields_have_positions: bool,
    pub cursor_is_steady: bool,
    pub cursor_is_underline: bool,
    /// Z, clocks of horizontal retrace in a line.
    pub retrace_clocks: u32,
}

impl Composition {
    /// Whether a byte can be the first parameter: it must not ask for more than 80 characters.
    pub fn accepts_first(byte: u8) -> bool {
        byte & 0x7F <= 79
    }

    /// The composition of four parameters, of which the first has been accepted.
    pub fn from_parameters(parameters: [u8; 4]) -> Composition {
        let [first, second, third, fourth] = parameters.map(u32::from);
        Composition {
            spaced: first & 0x80 != 0,
            columns: (first & 0x7F) + 1,
            retrace_row_times: (second >> 6) + 1,
            rows: (second & 0x3F) + 1,
            underline: third >> 4,
            lines: (third & 0x0F) + 1,
            count_is_one_less: fourth & 0x80 != 0,
            fields_have_positions: fourth & 0x40 != 0,
            cursor_is_steady: fourth & 0x20 != 0,
            cursor_is_underline: fourth & 0x10 != 0,
            retrace_clocks: 2 * (fourth & 0x0F) + 2,
        }
    }

    /// W
    pub fn line_clocks(&self) -> u32 {
        self.columns + self.retrace_clocks
    }

    /// W × L
    pub fn row_clocks(&self) -> u32 {
        self.line_clocks() * self.lines
    }

    /// R + V
    pub fn row_times(&self) -> u32 {
        self.rows + self.retrace_row_times
    }

    pub fn frame_clocks(&self) -> u32 {
        self.row_clocks() * self.row_times()
    }

    pub fn is_blank(&self, row: u32) -> bool {
        self.spaced && row.is_multiple_of(2)
    }

    /// The number put out for the character generator on a line.
    pub fn line_count(&self, line: u32) -> u32 {
        match (self.count_is_one_less, line) {
            (false, _) => line,
            (true, 0) => self.lines - 1,
            (true, _) => line - 1,
        }
    }
}

/// N bytes are asked for in one go, then nothing for D clocks.
#[derive(Clone, Copy, Debug, PartialEq, Eq)]
pub struct Burst {
    pub size: usize,
    pub space: u32,
}

impl Burst {
    /// What a console has before its first Start.
    pub const FIRST: Burst = Burst { size: 1, space: 0 };

    pub fn from_start(byte: u8) -> Burst {
        Burst {
            size: 1 << (byte & 3),
            space: match byte >> 2 & 7 {
                0 => 0,
                eighths => 8 * u32::from(eighths) - 1,
            },
        }
    }

    /// Whether byte k of a row, from 1, is its burst's last.
    pub fn ends_with(&self, k: usize) -> bool {
        k.is_multiple_of(self.size)
    }
}
