//! One controller with its state: the ports, the light pen, and the clocks.

use crate::composition::{Burst, Composition};
use crate::frame::{Frame, Taken};
use crate::page::{self, Window};
use crate::picture::{Place, View, DRQ, IRQ};
use crate::refusal::Refusal;
use crate::source::Source;

/// Bits of the status byte.
mod status {
    pub const IE: u8 = 0x40;
    pub const IR: u8 = 0x20;
    pub const LP: u8 = 0x10;
    pub const IC: u8 = 0x08;
    pub const VE: u8 = 0x04;
    pub const DU: u8 = 0x02;
    pub const FO: u8 = 0x01;
    /// Those that a read clears.
    pub const FLAGS: u8 = IR | LP | IC | DU | FO;
}

#[derive(Clone, Copy)]
enum Command {
    Reset,
    Start(Burst),
    Stop,
    ReadLightPen,
    LoadCursor,
    EnableInterrupt,
    DisableInterrupt,
    PresetCounters,
}

impl Command {
    fn of(byte: u8) -> Option<Command> {
        Some(match byte {
            0x00 => Command::Reset,
            0x20..=0x3F => Command::Start(Burst::from_start(byte)),
            0x40 => Command::Stop,
            0x60 => Command::ReadLightPen,
            0x80 => Command::LoadCursor,
            0xA0 => Command::EnableInterrupt,
            0xC0 => Command::DisableInterrupt,
            0xE0 => Command::PresetCounters,
            _ => return None,
        })
    }
}

/// What waits for a parameter, with the parameters that have come.
#[derive(Clone, Copy)]
enum Waiting {
    Nothing,
    Reset { parameters: [u8; 4], come: usize },
    CursorColumn,
    CursorRow { column: u8 },
    PenColumn,
    PenRow,
}

impl Waiting {
    const FIRST_OF_RESET: Waiting = Waiting::Reset { parameters: [0; 4], come: 0 };

    fn is_for_a_write(self) -> bool {
        matches!(self, Waiting::Reset { .. } | Waiting::CursorColumn | Waiting::CursorRow { .. })
    }
}

pub struct Console {
    composition: Option<Composition>,
    /// The status byte as it stands: IE, VE and the flags.
    status: u8,
    /// The latest burst; a running frame has its own.
    burst: Burst,
    cursor: Option<Place>,
    waiting: Waiting,
    /// The next clock's number in its frame. Row time, line and column follow from it.
    clock: u32,
    blink: u32,
    pen: Place,
    /// The running frame while it is armed and has no late row; otherwise it is dark.
    frame: Option<Frame>,
}

impl Console {
    pub fn new() -> Console {
        Console {
            composition: None,
            status: 0,
            burst: Burst::FIRST,
            cursor: None,
            waiting: Waiting::Nothing,
            clock: 0,
            blink: 0,
            pen: Place::default(),
            frame: None,
        }
    }

    fn set(&mut self, bits: u8) {
        self.status |= bits;
    }

    fn clear(&mut self, bits: u8) {
        self.status &= !bits;
    }

    fn is_on(&self, bit: u8) -> bool {
        self.status & bit != 0
    }
}

/// The ports and the light pen.
impl Console {
    pub fn command(&mut self, byte: u8) -> Result<(), Refusal> {
        let command = Command::of(byte).ok_or(Refusal::NoCommand)?;
        self.drop_what_waits();
        match command {
            Command::Reset => {
                self.clear(status::VE | status::IE | status::IR);
                self.frame = None;
                self.waiting = Waiting::FIRST_OF_RESET;
            }
            Command::Start(burst) => {
                self.set(status::VE | status::IE);
                self.burst = burst;
            }
            Command::Stop => {
                self.clear(status::VE);
                self.frame = None;
            }
            Command::ReadLightPen => self.waiting = Waiting::PenColumn,
            Command::LoadCursor => self.waiting = Waiting::CursorColumn,
            Command::EnableInterrupt => self.set(status::IE),
            Command::DisableInterrupt => self.clear(status::IE),
            Command::PresetCounters => {
                self.frame = None;
                self.clock = self.composition.map_or(0, |composition| composition.row_clocks());
            }
        }
        Ok(())
    }

    fn drop_what_waits(&mut self) {
        if self.waiting.is_for_a_write() {
            self.set(status::IC);
        }
        self.waiting = Waiting::Nothing;
    }

    pub fn write_parameter(&mut self, byte: u8) -> Result<(), Refusal> {
        match self.waiting {
            Waiting::Reset { parameters, come } => return self.write_reset_parameter(parameters, come, byte),
            Waiting::CursorColumn => self.waiting = Waiting::CursorRow { column: byte },
            Waiting::CursorRow { column } => {
                self.cursor = Some(Place { column, row: byte });
                self.waiting = Waiting::Nothing;
            }
            Waiting::Nothing | Waiting::PenColumn | Waiting::PenRow => self.set(status::IC),
        }
        Ok(())
    }

    fn write_reset_parameter(&mut self, mut parameters: [u8; 4], come: usize, byte: u8) -> Result<(), Refusal> {
        if come == 0 && !Composition::accepts_first(byte) {
            return Err(Refusal::TooWide);
        }
        parameters[come] = byte;
        if come < 3 {
            self.waiting = Waiting::Reset { parameters, come: come + 1 };
        } else {
            self.waiting = Waiting::Nothing;
            self.composition = Some(Composition::from_parameters(parameters));
            self.clock = 0;
            self.blink = 0;
        }
        Ok(())
    }

    pub fn read_status(&mut self) -> u8 {
        let byte = self.status;
        self.clear(status::FLAGS);
        byte
    }

    pub fn read_parameter(&mut self) -> u8 {
        match self.waiting {
            Waiting::PenColumn => {
                self.waiting = Waiting::PenRow;
                self.pen.column
            }
            Waiting::PenRow => {
                self.waiting = Waiting::Nothing;
                self.pen.row
            }
            _ => {
                self.set(status::IC);
                0
            }
        }
    }

    pub fn stroke(&mut self) -> Result<(), Refusal> {
        let composition = self.composition.ok_or(Refusal::NoComposition)?;
        let column = self.clock % composition.line_clocks();
        let row_time = self.clock / composition.row_clocks();
        let row = row_time.checked_sub(1).unwrap_or(composition.row_times() - 1);
        self.pen = Place { column: column as u8, row: row as u8 };
        self.set(status::LP);
        Ok(())
    }
}

/// Questions about a page.
impl Console {
    pub fn window(&self, page: &[u8], row: u32) -> Result<Window, Refusal> {
        let composition = self.composition.ok_or(Refusal::NoComposition)?;
        page::window(page, &composition, self.burst, row)
    }

    pub fn still(&self, page: &[u8], row: u32, buffer: &mut [u32]) -> Result<(), Refusal> {
        let composition = self.composition.ok_or(Refusal::NoComposition)?;
        page::still(page, &self.view(&composition), self.burst, row, buffer)
    }

    fn view<'a>(&self, composition: &'a Composition) -> View<'a> {
        View { composition, blink: self.blink, cursor: self.cursor }
    }
}

/// The clocks.
impl Console {
    /// Lets at least one clock pass over a source, at most `most` (not 0), and none beyond the row
    /// time's end, and adds their words.
    pub fn clocks(&mut self, most: u64, source: &mut Source, words: &mut Vec<u32>) -> Result<(), Refusal> {
        let composition = self.composition.ok_or(Refusal::NoComposition)?;
        let row_clocks = composition.row_clocks();
        let row_time = self.clock / row_clocks;
        let from = self.clock % row_clocks;
        let to = from + most.min(u64::from(row_clocks - from)) as u32;
        if from == 0 {
            self.enter(row_time, &composition, source);
        }
        let taken = match &mut self.frame {
            Some(frame) => frame.take(from..to, source, &composition),
            None => Taken::default(),
        };
        let first = words.len();
        self.put_picture(row_time, from, to, &composition, words);
        self.put_signals(&taken, from, &mut words[first..]);
        if taken.overrun {
            self.set(status::FO);
        }
        source.pass(to - from, taken.bytes);
        self.move_on(to - from, &composition);
        Ok(())
    }

    /// What a row time's first clock does ahead of its word.
    fn enter(&mut self, row_time: u32, composition: &Composition, source: &mut Source) {
        if row_time == 0 {
            self.frame = self.is_on(status::VE).then(|| Frame::new(self.burst));
            if self.frame.is_some() {
                source.begin();
            }
        }
        if row_time == composition.rows && self.is_on(status::IE) {
            self.set(status::IR);
        }
        if let Some(frame) = &mut self.frame {
            if frame.enter(row_time, composition).is_err() {
                self.set(status::DU);
                // From here on it is as if it had been disarmed: dark, asking for nothing, no DU.
                self.frame = None;
            }
        }
    }

    fn put_picture(&self, row_time: u32, from: u32, to: u32, composition: &Composition, words: &mut Vec<u32>) {
        let view = self.view(composition);
        let vertical_retrace = row_time == 0 || row_time > composition.rows;
        match &self.frame {
            Some(frame) if !vertical_retrace => view.shown(row_time, frame.shown(), from..to, words),
            _ => view.dark(vertical_retrace, from..to, words),
        }
    }

    /// Adds DRQ and IRQ to the words of clocks from `from` on.
    fn put_signals(&self, taken: &Taken, from: u32, words: &mut [u32]) {
        for request in &taken.requests {
            for word in &mut words[(request.start - from) as usize..(request.end - from) as usize] {
                *word |= DRQ;
            }
        }
        if self.is_on(status::IR) {
            words.iter_mut().for_each(|word| *word |= IRQ);
        }
    }

    fn move_on(&mut self, clocks: u32, composition: &Composition) {
        self.clock += clocks;
        if self.clock == composition.frame_clocks() {
            self.clock = 0;
            self.blink = (self.blink + 1) % 32;
        }
    }
}
