//! Plays clocks without printing their words: what the library is timed against.

use std::io;

use crate::console::Console;
use crate::hex;
use crate::script::read_spans;
use crate::source::Source;

/// What is played, as it stands among the arguments.
pub struct Run<'a> {
    pub composition: &'a str,
    pub start: &'a str,
    pub page: &'a str,
    pub bus: &'a str,
    pub clocks: u64,
}

impl Run<'_> {
    /// Answers all words as one exclusive or, so that none of them goes unused.
    pub fn play(&self) -> io::Result<u32> {
        let page = std::fs::read(self.page)?;
        let mut source = read_bus(&page, self.bus).ok_or_else(|| bad("no bus"))?;
        let mut console = self.programmed().ok_or_else(|| bad("no composition or no start"))?;
        let (mut left, mut words, mut sum) = (self.clocks, Vec::new(), 0);
        while left > 0 {
            words.clear();
            console.clocks(left, &mut source, &mut words).map_err(|_| bad("no composition"))?;
            left -= words.len() as u64;
            sum = words.iter().fold(sum, |sum, word| sum ^ word);
        }
        Ok(sum)
    }

    fn programmed(&self) -> Option<Console> {
        let mut console = Console::new();
        console.command(0x00).ok()?;
        for parameter in hex::bytes(self.composition.as_bytes())? {
            console.write_parameter(parameter).ok()?;
        }
        let start = *hex::bytes(self.start.as_bytes())?.first()?;
        console.command(start).ok()?;
        Some(console)
    }
}

fn read_bus(page: &[u8], bus: &str) -> Option<Source> {
    let made = match bus.split(':').collect::<Vec<_>>()[..] {
        ["free"] => Source::free(page),
        ["turns", free, busy] => Source::turns(page, free.parse().ok()?, busy.parse().ok()?),
        ["spans", spans] => Source::spans(page, &read_spans(spans.split(','))?),
        _ => return None,
    };
    made.ok()
}

fn bad(what: &str) -> io::Error {
    io::Error::new(io::ErrorKind::InvalidInput, what)
}
