//! Plays seeded random input to this program and to another, and compares what they answer.

use std::io::{self, Write};
use std::process::{Command, Stdio};

use crate::{player, random, script};

/// What is played: scripts, or the player's lines.
#[derive(Clone, Copy)]
pub enum Kind {
    Scripts,
    Lines,
}

impl Kind {
    fn input(self, seed: u64) -> Vec<u8> {
        match self {
            Kind::Scripts => random::script::make(seed).into_bytes(),
            Kind::Lines => random::player::make(seed),
        }
    }

    fn own(self, input: &[u8]) -> io::Result<Vec<u8>> {
        let mut out = Vec::new();
        match self {
            Kind::Scripts => script::play(input, &mut out)?,
            Kind::Lines => player::play(input, &mut out)?,
        }
        Ok(out)
    }
}

/// What another program answers to the same input.
fn other(program: &str, input: &[u8]) -> io::Result<Vec<u8>> {
    let mut child = Command::new(program).stdin(Stdio::piped()).stdout(Stdio::piped()).spawn()?;
    let mut stdin = child.stdin.take().expect("standard input was asked for");
    let input = input.to_vec();
    // Both ends have pipes of limited size, so one must write while the other is read.
    let writer = std::thread::spawn(move || stdin.write_all(&input));
    let answer = child.wait_with_output()?;
    let _ = writer.join();
    Ok(answer.stdout)
}

fn differ(kind: Kind, program: &str, input: &[u8]) -> io::Result<bool> {
    Ok(kind.own(input)? != other(program, input)?)
}

/// Leaves out lines for as long as the answers still differ, large parts first.
fn shrunk(kind: Kind, program: &str, input: Vec<u8>) -> io::Result<Vec<u8>> {
    let mut lines: Vec<Vec<u8>> = input.split_inclusive(|b| *b == b'\n').map(<[u8]>::to_vec).collect();
    let mut part = lines.len().div_ceil(2);
    while part > 0 {
        let mut at = 0;
        while at < lines.len() {
            let mut fewer = lines.clone();
            fewer.drain(at..(at + part).min(lines.len()));
            if differ(kind, program, &fewer.concat()).unwrap_or(false) {
                lines = fewer;
            } else {
                at += part;
            }
        }
        part /= 2;
    }
    Ok(lines.concat())
}

fn report(kind: Kind, program: &str, seed: u64, input: Vec<u8>) -> io::Result<()> {
    let input = shrunk(kind, program, input)?;
    let (ours, theirs) = (kind.own(&input)?, other(program, &input)?);
    eprintln!("seed {seed}: the answers differ; a short input that shows it:");
    io::stderr().write_all(&input)?;
    let pairs = ours.split(|b| *b == b'\n').zip(theirs.split(|b| *b == b'\n'));
    let same = pairs.clone().take_while(|(a, b)| a == b).count();
    if let Some((a, b)) = pairs.clone().nth(same) {
        let (a, b) = (String::from_utf8_lossy(a), String::from_utf8_lossy(b));
        eprintln!("line {} of the answers: {a} here, {b} there", same + 1);
    }
    Ok(())
}

/// How much was compared.
#[derive(Default)]
pub struct Compared {
    pub lines: usize,
    pub clocks: usize,
}

impl Compared {
    fn add(&mut self, input: &[u8], answers: &[u8]) {
        let lines = || answers.split(|b| *b == b'\n').filter(|line| !line.is_empty());
        self.lines += lines().count();
        // Only words have eight digits, and those that are no still's are clocks'.
        self.clocks += lines().filter(|line| line.len() == 8).count() - still_words(input);
    }
}

/// How many words the stills of a script print; each prints its whole buffer, even if it is refused.
fn still_words(input: &[u8]) -> usize {
    let lines = input.split(|b| *b == b'\n').filter_map(|line| std::str::from_utf8(line).ok());
    let sizes = lines.filter_map(|line| line.strip_prefix("still ")?.split(' ').nth(1)?.parse::<usize>().ok());
    sizes.sum()
}

/// Plays the seeds from `first` on; answers what was compared, or nothing if a difference was found.
pub fn seeds(kind: Kind, program: &str, first: u64, count: u64) -> io::Result<Option<Compared>> {
    let mut compared = Compared::default();
    for seed in first..first + count {
        let input = kind.input(seed);
        let ours = kind.own(&input)?;
        if ours != other(program, &input)? {
            report(kind, program, seed, input)?;
            return Ok(None);
        }
        compared.add(&input, &ours);
    }
    Ok(Some(compared))
}
