//! The player: lines of digits in, answers and faults out.

use std::io::{self, BufRead, Write};

use crate::console::Console;
use crate::hex;
use crate::page;
use crate::refusal::Refusal;
use crate::script::write_clocks;
use crate::source::Source;

const LAST_LINE: u32 = 65_535;
const LONGEST_LINE: usize = 66;

/// Plays all lines. What follows the last that counts is read, so that no writer is cut off.
pub fn play(mut input: impl BufRead, out: &mut impl Write) -> io::Result<()> {
    let mut player = Player::new();
    for number in 1..=LAST_LINE {
        let Some(line) = Line::read(&mut input)? else {
            return Ok(());
        };
        player.play_line(&line, number, out)?;
    }
    io::copy(&mut input, &mut io::sink())?;
    Ok(())
}

/// The front of a line, and whether there is more of it. A line of any length needs no more memory.
struct Line {
    front: Vec<u8>,
    is_too_long: bool,
}

impl Line {
    /// The next line, or `None` at the input's end.
    fn read(input: &mut impl BufRead) -> io::Result<Option<Line>> {
        let mut line = Line { front: Vec::new(), is_too_long: false };
        let mut is_there = false;
        loop {
            let piece = match input.fill_buf() {
                Ok(piece) => piece,
                Err(error) if error.kind() == io::ErrorKind::Interrupted => continue,
                Err(error) => return Err(error),
            };
            if piece.is_empty() {
                return Ok(is_there.then_some(line));
            }
            is_there = true;
            let feed = piece.iter().position(|character| *character == b'\n');
            line.add(&piece[..feed.unwrap_or(piece.len())]);
            let read = feed.map_or(piece.len(), |place| place + 1);
            input.consume(read);
            if feed.is_some() {
                return Ok(Some(line));
            }
        }
    }

    fn add(&mut self, characters: &[u8]) {
        let room = LONGEST_LINE - self.front.len();
        self.front.extend_from_slice(&characters[..room.min(characters.len())]);
        self.is_too_long |= characters.len() > room;
    }

    fn bytes(&self) -> Result<Vec<u8>, Fault> {
        let fault = |column| Fault { layer: Layer::Line, refusal: Refusal::BadLine, column };
        if let Some(place) = self.front.iter().position(|character| hex::digit(*character).is_none()) {
            return Err(fault(place as u8 + 1));
        }
        if self.is_too_long || self.front.is_empty() {
            return Err(fault(0));
        }
        hex::bytes(&self.front).ok_or(fault(0))
    }
}

#[derive(Clone, Copy)]
enum Layer {
    Line = 1,
    Event = 2,
    Port = 3,
}

struct Fault {
    layer: Layer,
    refusal: Refusal,
    column: u8,
}

impl Fault {
    fn event(refusal: Refusal) -> Fault {
        Fault { layer: Layer::Event, refusal, column: 0 }
    }

    fn port(refusal: Refusal) -> Fault {
        Fault { layer: Layer::Port, refusal, column: 0 }
    }
}

/// A line that has passed the line's and the event's checks.
enum Event {
    PageBytes(Vec<u8>),
    Call(Call),
}

enum Call {
    Command(u8),
    Parameter(u8),
    Status,
    Read,
    Stroke,
    Clocks(u16),
}

struct Player {
    console: Console,
    page: Vec<u8>,
    /// The source over the page, from the first line on that closes the page.
    source: Option<Source>,
}

impl Player {
    fn new() -> Player {
        Player { console: Console::new(), page: Vec::new(), source: None }
    }

    fn play_line(&mut self, line: &Line, number: u32, out: &mut impl Write) -> io::Result<()> {
        let played = match line.bytes().and_then(|bytes| self.event(&bytes)) {
            Ok(Event::PageBytes(more)) => {
                self.page.extend(more);
                write_byte(out, Ok(0))?
            }
            Ok(Event::Call(call)) => self.play_call(call, out)?,
            Err(fault) => Err(fault),
        };
        match played {
            Ok(()) => Ok(()),
            Err(fault) => write_fault(out, &fault, number),
        }
    }

    fn event(&self, bytes: &[u8]) -> Result<Event, Fault> {
        Ok(Event::Call(match *bytes {
            [0x00, byte] => Call::Command(byte),
            [0x01, byte] => Call::Parameter(byte),
            [0x02] => Call::Status,
            [0x03] => Call::Read,
            [0x04] => Call::Stroke,
            [0x05, high, low] => Call::Clocks(u16::from_be_bytes([high, low])),
            [0x06, ref more @ ..] if !more.is_empty() => return self.page_event(more),
            _ => return Err(Fault::event(Refusal::BadEvent)),
        }))
    }

    /// Too many bytes are told before bytes that come too late.
    fn page_event(&self, more: &[u8]) -> Result<Event, Fault> {
        if self.page.len() + more.len() > page::LONGEST {
            return Err(Fault::event(Refusal::PageTooLong));
        }
        if self.source.is_some() {
            return Err(Fault::event(Refusal::BadEvent));
        }
        Ok(Event::PageBytes(more.to_vec()))
    }

    /// Closes the page, if it is still open, and makes the call.
    fn play_call(&mut self, call: Call, out: &mut impl Write) -> io::Result<Result<(), Fault>> {
        let page = &self.page;
        let source = self.source.get_or_insert_with(|| Source::free(page).expect("the page was kept within its limit"));
        let console = &mut self.console;
        match call {
            Call::Command(byte) => write_byte(out, console.command(byte).map(|()| 0)),
            Call::Parameter(byte) => write_byte(out, console.write_parameter(byte).map(|()| 0)),
            Call::Status => write_byte(out, Ok(console.read_status())),
            Call::Read => write_byte(out, Ok(console.read_parameter())),
            Call::Stroke => write_byte(out, console.stroke().map(|()| 0)),
            Call::Clocks(count) => Ok(write_clocks(console, source, count.into(), out)?.map_err(Fault::port)),
        }
    }
}

fn write_byte(out: &mut impl Write, answer: Result<u8, Refusal>) -> io::Result<Result<(), Fault>> {
    match answer {
        Ok(byte) => writeln!(out, "{byte:02X}").map(Ok),
        Err(refusal) => Ok(Err(Fault::port(refusal))),
    }
}

fn write_fault(out: &mut impl Write, fault: &Fault, line: u32) -> io::Result<()> {
    let (layer, refusal, column) = (fault.layer as u8, fault.refusal.number(), fault.column);
    writeln!(out, "FF{layer:02X}{refusal:02X}{line:04X}{column:02X}")
}
