//! Plays a script: one request a line, each with its answer.

use std::io::{self, BufRead, Write};

use crate::console::Console;
use crate::hex;
use crate::refusal::Refusal;
use crate::source::{Source, Span};

const BUFFER_LIMIT: usize = 4096;

/// What is kept from line to line.
struct Bench {
    console: Console,
    page: Vec<u8>,
    source: Source,
}

/// Plays all lines. A line that is no request ends the play with an error that names it.
pub fn play(mut input: impl BufRead, out: &mut impl Write) -> io::Result<()> {
    let mut bench = Bench::new();
    let mut line = Vec::new();
    for number in 1.. {
        line.clear();
        if input.read_until(b'\n', &mut line)? == 0 {
            break;
        }
        let text = line.strip_suffix(b"\n").unwrap_or(&line);
        match std::str::from_utf8(text).ok().and_then(Request::read) {
            Some(request) => bench.answer(request, out)?,
            None => {
                let message = format!("line {number} of the script is no request");
                return Err(io::Error::new(io::ErrorKind::InvalidData, message));
            }
        }
    }
    Ok(())
}

enum Request {
    New,
    Page(Vec<u8>),
    Free,
    Turns(u8, u8),
    Spans(Vec<Span>),
    Command(u8),
    Parameter(u8),
    Status,
    Read,
    Stroke,
    Clocks(u64),
    Window(u8),
    Still(u8, usize),
}

impl Request {
    fn read(line: &str) -> Option<Request> {
        let fields: Vec<&str> = line.split(' ').collect();
        Some(match fields[..] {
            ["new"] => Request::New,
            ["page", "-"] => Request::Page(Vec::new()),
            ["page", digits] => Request::Page(hex::bytes(digits.as_bytes())?),
            ["free"] => Request::Free,
            ["turns", free, busy] => Request::Turns(free.parse().ok()?, busy.parse().ok()?),
            ["spans", ref spans @ ..] => Request::Spans(read_spans(spans.iter().copied())?),
            ["command", byte] => Request::Command(read_byte(byte)?),
            ["parameter", byte] => Request::Parameter(read_byte(byte)?),
            ["status"] => Request::Status,
            ["read"] => Request::Read,
            ["stroke"] => Request::Stroke,
            ["clocks", count] => Request::Clocks(count.parse().ok()?),
            ["window", row] => Request::Window(row.parse().ok()?),
            ["still", row, size] => {
                let size = size.parse().ok().filter(|size| *size <= BUFFER_LIMIT)?;
                Request::Still(row.parse().ok()?, size)
            }
            _ => return None,
        })
    }
}

fn read_byte(digits: &str) -> Option<u8> {
    match hex::bytes(digits.as_bytes())?[..] {
        [byte] => Some(byte),
        _ => None,
    }
}

pub fn read_spans<'a>(spans: impl Iterator<Item = &'a str>) -> Option<Vec<Span>> {
    spans.map(read_span).collect()
}

fn read_span(text: &str) -> Option<Span> {
    let (first, length) = text.split_once('+')?;
    Some(Span { first: first.parse().ok()?, length: length.parse().ok()? })
}

impl Bench {
    fn new() -> Bench {
        Bench { console: Console::new(), page: Vec::new(), source: empty_source() }
    }

    fn answer(&mut self, request: Request, out: &mut impl Write) -> io::Result<()> {
        match request {
            Request::New => {
                *self = Bench::new();
                write_done(out, Ok(()))
            }
            Request::Page(page) => {
                self.page = page;
                write_done(out, Ok(()))
            }
            Request::Free => self.make(Source::free(&self.page), out),
            Request::Turns(free, busy) => self.make(Source::turns(&self.page, free, busy), out),
            Request::Spans(spans) => self.make(Source::spans(&self.page, &spans), out),
            Request::Command(byte) => write_done(out, self.console.command(byte)),
            Request::Parameter(byte) => write_done(out, self.console.write_parameter(byte)),
            Request::Status => writeln!(out, "byte {:02X}", self.console.read_status()),
            Request::Read => writeln!(out, "byte {:02X}", self.console.read_parameter()),
            Request::Stroke => write_done(out, self.console.stroke()),
            Request::Clocks(count) => match write_clocks(&mut self.console, &mut self.source, count, out)? {
                Ok(()) => Ok(()),
                Err(refusal) => write_refusal(out, refusal),
            },
            Request::Window(row) => match self.console.window(&self.page, row.into()) {
                Ok(window) => writeln!(out, "window {} {}", window.place, window.count),
                Err(refusal) => write_refusal(out, refusal),
            },
            Request::Still(row, size) => self.still(row, size, out),
        }
    }

    fn make(&mut self, made: Result<Source, Refusal>, out: &mut impl Write) -> io::Result<()> {
        write_done(out, made.map(|source| self.source = source))
    }

    fn still(&self, row: u8, size: usize, out: &mut impl Write) -> io::Result<()> {
        let mut buffer = vec![u32::MAX; size];
        if let Err(refusal) = self.console.still(&self.page, row.into(), &mut buffer) {
            write_refusal(out, refusal)?;
        }
        buffer.into_iter().try_for_each(|word| hex::write_word(out, word))
    }
}

fn empty_source() -> Source {
    Source::free(&[]).expect("an empty page isn't too long")
}

fn write_done(out: &mut impl Write, done: Result<(), Refusal>) -> io::Result<()> {
    match done {
        Ok(()) => out.write_all(b"ok\n"),
        Err(refusal) => write_refusal(out, refusal),
    }
}

fn write_refusal(out: &mut impl Write, refusal: Refusal) -> io::Result<()> {
    writeln!(out, "refused {}", refusal.number())
}

/// Plays clocks and writes their words, one a line. They are refused all or none.
pub fn write_clocks(
    console: &mut Console,
    source: &mut Source,
    count: u64,
    out: &mut impl Write,
) -> io::Result<Result<(), Refusal>> {
    let mut left = count;
    let mut words = Vec::new();
    while left > 0 {
        words.clear();
        if let Err(refusal) = console.clocks(left, source, &mut words) {
            return Ok(Err(refusal));
        }
        left -= words.len() as u64;
        words.iter().try_for_each(|word| hex::write_word(out, *word))?;
    }
    Ok(Ok(()))
}
