//! A second, independent program of the Welzour console, to be played against the first.

mod compare;
mod composition;
mod console;
mod frame;
mod hex;
mod page;
mod picture;
mod player;
mod random;
mod refusal;
mod row;
mod script;
mod source;
#[cfg(test)]
mod tests;
mod timed;

use compare::{Compared, Kind};
use std::io::{self, BufWriter, Write};
use std::process::ExitCode;
use timed::Run;

const USAGE: &str = "usage: second script | player | random SEED | random-player SEED
       second against-script PROGRAM SEED COUNT | against-player PROGRAM SEED COUNT
       second timed COMPOSITION START PAGEFILE BUS CLOCKS";
const OUTPUT_BUFFER: usize = 1 << 16;

fn main() -> ExitCode {
    let arguments: Vec<String> = std::env::args().skip(1).collect();
    let arguments: Vec<&str> = arguments.iter().map(String::as_str).collect();
    let mut out = BufWriter::with_capacity(OUTPUT_BUFFER, io::stdout().lock());
    let done = match arguments[..] {
        ["script"] => script::play(io::stdin().lock(), &mut out),
        ["player"] => player::play(io::stdin().lock(), &mut out),
        ["random", seed] => print(seed, |seed| random::script::make(seed).into_bytes(), &mut out),
        ["random-player", seed] => print(seed, random::player::make, &mut out),
        ["against-script", program, seed, count] => against(Kind::Scripts, program, seed, count, &mut out),
        ["against-player", program, seed, count] => against(Kind::Lines, program, seed, count, &mut out),
        ["timed", composition, start, page, bus, clocks] => timed(composition, start, page, bus, clocks, &mut out),
        _ => Err(bad_usage()),
    };
    match done.and_then(|()| out.flush()) {
        Ok(()) => ExitCode::SUCCESS,
        // Whoever reads the answers has seen enough.
        Err(error) if error.kind() == io::ErrorKind::BrokenPipe => ExitCode::SUCCESS,
        Err(error) => {
            // The answers so far are worth having, and this error is the one to tell.
            let _ = out.flush();
            eprintln!("second: {error}");
            ExitCode::FAILURE
        }
    }
}

fn bad_usage() -> io::Error {
    io::Error::new(io::ErrorKind::InvalidInput, USAGE)
}

fn number(text: &str) -> io::Result<u64> {
    text.parse().map_err(|_| bad_usage())
}

/// Plays `count` seeds against another program and says what was compared.
fn against(kind: Kind, program: &str, seed: &str, count: &str, out: &mut impl Write) -> io::Result<()> {
    let (seed, count) = (number(seed)?, number(count)?);
    let Some(Compared { lines, clocks }) = compare::seeds(kind, program, seed, count)? else {
        return Err(io::Error::other("the programs differ"));
    };
    writeln!(
        out,
        "{count} seeds from {seed} on: {lines} lines of answers compared with {program}, {clocks} of them words of clocks, all equal"
    )
}

/// Plays clocks, and prints no word of them but their exclusive or.
fn timed(composition: &str, start: &str, page: &str, bus: &str, clocks: &str, out: &mut impl Write) -> io::Result<()> {
    let clocks = number(clocks)?;
    let sum = Run { composition, start, page, bus, clocks }.play()?;
    writeln!(out, "{clocks} clocks played, the exclusive or of their words is {sum:08X}")
}

fn print(seed: &str, make: impl Fn(u64) -> Vec<u8>, out: &mut impl Write) -> io::Result<()> {
    out.write_all(&make(number(seed)?))
}
