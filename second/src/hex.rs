//! Hexadecimal digits, in capital letters only.

use std::io::{self, Write};

const DIGITS: &[u8; 16] = b"0123456789ABCDEF";

pub fn digit(character: u8) -> Option<u8> {
    match character {
        b'0'..=b'9' => Some(character - b'0'),
        b'A'..=b'F' => Some(character - b'A' + 10),
        _ => None,
    }
}

/// The bytes that a run of digits stands for, the high digit of each first.
pub fn bytes(digits: &[u8]) -> Option<Vec<u8>> {
    if !digits.len().is_multiple_of(2) {
        return None;
    }
    digits.chunks_exact(2).map(|pair| Some(digit(pair[0])? << 4 | digit(pair[1])?)).collect()
}

/// One word as a line of eight digits.
pub fn write_word(out: &mut impl Write, word: u32) -> io::Result<()> {
    let mut line = *b"00000000\n";
    for (place, byte) in word.to_be_bytes().into_iter().enumerate() {
        line[2 * place] = DIGITS[usize::from(byte >> 4)];
        line[2 * place + 1] = DIGITS[usize::from(byte & 15)];
    }
    out.write_all(&line)
}
