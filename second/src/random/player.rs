//! Pseudo-random inputs of the player: good lines, and lines damaged in every way.

use super::bytes::{self, Size};
use super::rng::Rng;
use crate::composition::{Burst, Composition};
use crate::page;

/// The most characters that a line may have.
const LONGEST_LINE: usize = 66;
/// The most page bytes in one line.
const LINE_BYTES: usize = 32;
/// How many clocks an input may ask for, so that its answers stay of a handy size.
const MOST_CLOCKS: u32 = 60_000;
const LAST_LINE: usize = 65_535;

pub fn make(seed: u64) -> Vec<u8> {
    let mut maker = Maker { rng: Rng::new(seed), text: Vec::new(), clocks: 0 };
    if maker.rng.one_in(40) {
        return Vec::new();
    }
    let size = maker.rng.pick(&[bytes::SMALLEST, bytes::TINY, bytes::SMALL, bytes::MIDDLE, bytes::FULL]);
    if maker.rng.one_in(4) {
        maker.page_to_the_limit();
    } else {
        maker.page(&size);
    }
    for _ in 0..maker.rng.between(1, 8) {
        maker.scene(&size);
    }
    if maker.rng.one_in(12) {
        maker.more_lines_than_count();
    }
    if maker.rng.one_in(2) {
        maker.text.pop();
    }
    maker.text
}

struct Maker {
    rng: Rng,
    text: Vec<u8>,
    clocks: u32,
}

impl Maker {
    /// Adds a line, now and then damaged or with a damaged one ahead of it.
    fn line(&mut self, bytes: &[u8]) {
        let good = digits(bytes);
        if self.rng.one_in(5) {
            let bad = self.damaged(&good);
            self.raw(&bad);
            if self.rng.one_in(2) {
                return;
            }
        }
        self.raw(&good);
    }

    fn raw(&mut self, line: &[u8]) {
        self.text.extend_from_slice(line);
        self.text.push(b'\n');
    }

    /// The page of a frame, in lines of all lengths.
    fn page(&mut self, size: &Size) {
        let parameters = bytes::parameters(&mut self.rng, size);
        let composition = Composition::from_parameters(parameters);
        let bytes = bytes::fitting(&mut self.rng, &composition, Burst::FIRST);
        let mut left = &bytes[..];
        while !left.is_empty() {
            let most = LINE_BYTES.min(left.len());
            let count = if self.rng.one_in(4) { 1 + self.rng.index(most) } else { most };
            self.page_line(&left[..count]);
            left = &left[count..];
        }
    }

    /// A page that is nearly full, and then lines of which some go over the limit by one byte.
    fn page_to_the_limit(&mut self) {
        let room = 1 + self.rng.index(LINE_BYTES - 1);
        let bytes = bytes::mixed(&mut self.rng, page::LONGEST - room);
        for chunk in bytes.chunks(LINE_BYTES) {
            self.raw(&digits(&[&[0x06], chunk].concat()));
        }
        for count in [LINE_BYTES, room + 1, room, 1, 2] {
            let more = bytes::mixed(&mut self.rng, count);
            self.page_line(&more);
        }
    }

    fn page_line(&mut self, bytes: &[u8]) {
        self.line(&[&[0x06], bytes].concat());
    }

    /// A Reset and what may follow it.
    fn scene(&mut self, size: &Size) {
        if !self.rng.one_in(4) {
            self.line(&[0x00, 0x00]);
            for parameter in bytes::parameters(&mut self.rng, size) {
                self.line(&[0x01, parameter]);
            }
            let start = 0x20 | self.rng.byte() & 0x1F;
            self.line(&[0x00, start]);
        }
        for _ in 0..self.rng.between(5, 60) {
            self.call();
        }
    }

    fn call(&mut self) {
        match self.rng.between(0, 12) {
            0 => {
                let command = self.rng.byte();
                self.line(&[0x00, command]);
            }
            1 | 2 => {
                let command = self.rng.pick(&[0x00, 0x20, 0x23, 0x3F, 0x40, 0x60, 0x80, 0xA0, 0xC0, 0xE0]);
                self.line(&[0x00, command]);
            }
            3 | 4 => {
                let parameter = self.rng.byte();
                self.line(&[0x01, parameter]);
            }
            5 => self.line(&[0x02]),
            6 => self.line(&[0x03]),
            7 => self.line(&[0x04]),
            8 => {
                let late = self.rng.byte();
                self.page_line(&[late]);
            }
            9 => {
                let count = 1 + self.rng.index(LINE_BYTES);
                let late = bytes::mixed(&mut self.rng, count);
                self.page_line(&late);
            }
            _ => self.clock_line(),
        }
    }

    fn clock_line(&mut self) {
        let most = self.rng.pick(&[0, 9, 300, 300, 6_000]);
        let count = self.rng.between(0, most).min(MOST_CLOCKS.saturating_sub(self.clocks));
        self.clocks += count;
        let [high, low] = (count as u16).to_be_bytes();
        self.line(&[0x05, high, low]);
    }

    /// Lines up to the last that counts, and some beyond it.
    fn more_lines_than_count(&mut self) {
        let have = self.text.iter().filter(|character| **character == b'\n').count();
        let beyond = self.rng.index(4);
        for _ in have..LAST_LINE + beyond {
            let line: &[u8] = self.rng.pick(&[&b"02"[..], b"03", b"", b"7", b"0641", b"050001"]);
            self.raw(line);
        }
    }
}

/// Damage.
impl Maker {
    fn damaged(&mut self, good: &[u8]) -> Vec<u8> {
        match self.rng.between(0, 13) {
            0 | 1 => self.with_wrong_digit(good.to_vec()),
            2 | 3 => {
                let length = 1 + self.rng.index(LONGEST_LINE + 10);
                let padded = self.padded(good, length);
                self.with_wrong_digit(padded)
            }
            4 => good[..good.len() - 1].to_vec(),
            5 => [good, b"0"].concat(),
            6 => [good, b"00"].concat(),
            7 => good[..good.len() - 2].to_vec(),
            8 => {
                let length = self.rng.pick(&[64, 65, 66, 67, 68, 69, 133, 1_000, 70_000]);
                self.padded(good, length)
            }
            9 => self.with_unknown_kind(good),
            10 => [good, b"\r"].concat(),
            11 => good.to_ascii_lowercase(),
            12 => self.junk(),
            _ => self.wrong_behind_the_last_column(good),
        }
    }

    fn padded(&mut self, good: &[u8], length: usize) -> Vec<u8> {
        let digits = b"0123456789ABCDEF";
        let mut line = good.to_vec();
        line.truncate(length);
        while line.len() < length {
            line.push(self.rng.pick(digits));
        }
        line
    }

    fn with_wrong_digit(&mut self, mut line: Vec<u8>) -> Vec<u8> {
        for _ in 0..self.rng.between(1, 2) {
            let place = self.rng.index(line.len());
            line[place] = self.wrong_digit();
        }
        line
    }

    /// A character just beside the digits, or any other that is none.
    fn wrong_digit(&mut self) -> u8 {
        if self.rng.one_in(2) {
            return self.rng.pick(b"/:@G`afgxz -+\r\t\x00\x7F\x80\xB0\xC1\xFF");
        }
        loop {
            let character = self.rng.byte();
            if character != b'\n' && crate::hex::digit(character).is_none() {
                return character;
            }
        }
    }

    /// Digits to the last column or beyond, and a wrong one just before or behind the 66th.
    fn wrong_behind_the_last_column(&mut self, good: &[u8]) -> Vec<u8> {
        let length = LONGEST_LINE - 1 + self.rng.index(3);
        let mut line = self.padded(good, length);
        line.push(self.wrong_digit());
        line
    }

    fn with_unknown_kind(&mut self, good: &[u8]) -> Vec<u8> {
        let kind = self.rng.between(0x07, 0xFF) as u8;
        [&digits(&[kind]), &good[2..]].concat()
    }

    fn junk(&mut self) -> Vec<u8> {
        let length = self.rng.index(140);
        (0..length).map(|_| self.rng.byte()).collect()
    }
}

fn digits(bytes: &[u8]) -> Vec<u8> {
    bytes.iter().flat_map(|byte| format!("{byte:02X}").into_bytes()).collect()
}
