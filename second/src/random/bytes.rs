//! Compositions and pages of all sorts.

use super::rng::Rng;
use crate::composition::{Burst, Composition};
use crate::page;
use crate::row::Kind;

/// Lowest and highest of each number that makes up a composition's size.
#[derive(Clone, Copy)]
pub struct Size {
    pub columns: (u32, u32),
    pub rows: (u32, u32),
    pub lines: (u32, u32),
    /// z, with Z = 2 × z + 2
    pub retrace: (u32, u32),
}

pub const SMALLEST: Size = Size { columns: (1, 1), rows: (1, 1), lines: (1, 1), retrace: (0, 0) };
pub const TINY: Size = Size { columns: (1, 6), rows: (1, 3), lines: (1, 3), retrace: (0, 1) };
pub const BLINKING: Size = Size { columns: (2, 6), rows: (1, 2), lines: (2, 3), retrace: (0, 1) };
pub const SMALL: Size = Size { columns: (1, 12), rows: (1, 6), lines: (1, 4), retrace: (0, 4) };
pub const MIDDLE: Size = Size { columns: (8, 40), rows: (2, 12), lines: (1, 5), retrace: (0, 15) };
pub const AVERAGE: Size = Size { columns: (30, 70), rows: (8, 35), lines: (1, 3), retrace: (0, 10) };
pub const WIDE: Size = Size { columns: (60, 80), rows: (1, 4), lines: (1, 16), retrace: (0, 15) };
pub const TALL: Size = Size { columns: (1, 20), rows: (30, 64), lines: (1, 4), retrace: (0, 3) };
pub const FULL: Size = Size { columns: (80, 80), rows: (64, 64), lines: (1, 1), retrace: (0, 2) };
pub const FULLEST: Size = Size { columns: (80, 80), rows: (64, 64), lines: (16, 16), retrace: (15, 15) };

/// Four parameters of Reset that are all accepted.
pub fn parameters(rng: &mut Rng, size: &Size) -> [u8; 4] {
    let mut within = |(low, high): (u32, u32)| rng.between(low, high);
    let (columns, rows, lines, z) = (within(size.columns), within(size.rows), within(size.lines), within(size.retrace));
    let spaced = u32::from(rng.one_in(4));
    // Short vertical retraces are the likelier ones, to spend clocks on rows.
    let retrace_row_times = rng.pick(&[1, 1, 1, 2, 3, 4]);
    let underline = underline(rng, lines);
    let modes = rng.between(0, 15);
    [
        spaced << 7 | (columns - 1),
        (retrace_row_times - 1) << 6 | (rows - 1),
        underline << 4 | (lines - 1),
        modes << 4 | z,
    ]
    .map(|parameter| parameter as u8)
}

/// U inside the row, just behind it, of 8 or more, or any.
fn underline(rng: &mut Rng, lines: u32) -> u32 {
    match rng.between(0, 3) {
        0 => rng.between(0, lines - 1),
        1 => lines.min(15),
        2 => rng.between(8, 15),
        _ => rng.between(0, 15),
    }
}

/// How many of a page's bytes are of which kind, by weight.
#[derive(Clone, Copy)]
pub struct Mixture {
    ordinary: u32,
    field: u32,
    graphic: u32,
    unused: u32,
    end_of_row: u32,
    end_of_screen: u32,
}

/// Bytes that make nothing behind them dark.
pub const BRIGHT: Mixture =
    Mixture { ordinary: 40, field: 30, graphic: 40, unused: 2, end_of_row: 0, end_of_screen: 0 };

/// Bytes with many stop codes, whose dropped bytes may be codes as well.
pub const STOPPING: Mixture =
    Mixture { ordinary: 40, field: 20, graphic: 10, unused: 5, end_of_row: 40, end_of_screen: 6 };

const MIXTURES: [Mixture; 7] = [
    BRIGHT,
    STOPPING,
    Mixture { ordinary: 80, field: 10, graphic: 10, unused: 2, end_of_row: 0, end_of_screen: 0 },
    Mixture { ordinary: 30, field: 60, graphic: 20, unused: 3, end_of_row: 2, end_of_screen: 0 },
    Mixture { ordinary: 10, field: 20, graphic: 90, unused: 5, end_of_row: 3, end_of_screen: 0 },
    Mixture { ordinary: 80, field: 40, graphic: 30, unused: 5, end_of_row: 6, end_of_screen: 1 },
    Mixture { ordinary: 1, field: 30, graphic: 1, unused: 1, end_of_row: 0, end_of_screen: 0 },
];

/// Bytes of one mixture.
pub fn of(rng: &mut Rng, mixture: &Mixture, length: usize) -> Vec<u8> {
    (0..length).map(|_| byte_of(rng, mixture)).collect()
}

/// Bytes of any mixture, or any bytes, with some special codes put in on purpose.
pub fn mixed(rng: &mut Rng, length: usize) -> Vec<u8> {
    let mut bytes = if rng.one_in(8) {
        (0..length).map(|_| rng.byte()).collect()
    } else {
        let mixture = rng.pick(&MIXTURES);
        of(rng, &mixture, length)
    };
    thin_out(rng, &mut bytes);
    for _ in 0..rng.between(0, 3) {
        plant(rng, &mut bytes);
    }
    bytes
}

/// Takes most ends of screen out of a long page, which otherwise would be dark from its first rows on.
fn thin_out(rng: &mut Rng, bytes: &mut [u8]) {
    let one_in = 1 + bytes.len() as u32 / 20;
    for byte in bytes {
        if Kind::of(*byte).ends_screen() && !rng.one_in(one_in) {
            *byte = 0x40 | rng.byte() & 0x3F;
        }
    }
}

fn byte_of(rng: &mut Rng, mixture: &Mixture) -> u8 {
    let kinds = [
        (mixture.ordinary, 0x00..=0x7F),
        (mixture.field, 0x80..=0xBF),
        (mixture.graphic, 0xC0..=0xEF),
        (mixture.end_of_row, 0xF0..=0xF1),
        (mixture.end_of_screen, 0xF2..=0xF3),
        (mixture.unused, 0xF4..=0xFF),
    ];
    let mut left = rng.between(1, kinds.iter().map(|(weight, _)| weight).sum());
    for (weight, bytes) in kinds {
        if left <= weight {
            return rng.between(*bytes.start(), *bytes.end()) as u8;
        }
        left -= weight;
    }
    unreachable!("the weights add up")
}

/// Puts special codes somewhere: alone, behind each other, or behind a field code.
fn plant(rng: &mut Rng, bytes: &mut [u8]) {
    if bytes.len() < 2 {
        return;
    }
    let place = rng.index(bytes.len() - 1);
    bytes[place] = if rng.one_in(3) { field_code(rng) } else { special(rng) };
    if rng.one_in(2) {
        bytes[place + 1] = special(rng);
    }
}

pub fn field_code(rng: &mut Rng) -> u8 {
    0x80 | rng.byte() & 0x3F
}

pub fn special(rng: &mut Rng) -> u8 {
    rng.pick(&[0xF0, 0xF0, 0xF1, 0xF1, 0xF2, 0xF3])
}

/// Makes most field and graphic codes blink.
pub fn make_blink(rng: &mut Rng, bytes: &mut [u8]) {
    for byte in bytes {
        if matches!(Kind::of(*byte), Kind::FieldCode | Kind::Graphic) && !rng.one_in(4) {
            *byte |= 0x02;
        }
    }
}

/// Puts codes behind many of the stop codes, where they may be dropped.
pub fn plant_behind_stops(rng: &mut Rng, bytes: &mut [u8]) {
    for place in 1..bytes.len() {
        if Kind::of(bytes[place - 1]).is_stop() && rng.one_in(2) {
            bytes[place] = rng.pick(&[0xF0, 0xF1, 0xF2, 0xF3, 0x9D, 0xB2]);
        }
    }
}

/// Rows with a given number of field positions among other ones, for transparent field codes.
pub fn rows_of_fields(rng: &mut Rng, columns: usize, rows: u32) -> Vec<u8> {
    (0..rows).flat_map(|_| row_of_fields(rng, columns)).collect()
}

fn row_of_fields(rng: &mut Rng, columns: usize) -> Vec<u8> {
    let fields = rng.pick(&[15, 16, 17, 17, 18, 31, 32, 33, 34, columns]).min(columns);
    let mut positions: Vec<Vec<u8>> = (0..columns)
        .map(|position| if position < fields { vec![field_code(rng), rng.byte()] } else { vec![rng.byte() & 0x7F] })
        .collect();
    rng.shuffle(&mut positions);
    if rng.one_in(3) {
        let place = rng.index(columns);
        positions[place] = vec![special(rng)];
    }
    positions.concat()
}

/// How many bytes the rows down to one take, if the page has them.
pub fn need(page: &[u8], composition: &Composition, burst: Burst, row: u32) -> Option<usize> {
    page::find(page, composition, burst, row).map(|found| found.place + found.row.taken)
}

/// A page that has just what a frame takes.
pub fn fitting(rng: &mut Rng, composition: &Composition, burst: Burst) -> Vec<u8> {
    let bytes = mixed(rng, most_taken(composition));
    fitted(bytes, composition, burst)
}

/// The same, all of one mixture.
pub fn fitting_of(rng: &mut Rng, mixture: &Mixture, composition: &Composition, burst: Burst) -> Vec<u8> {
    let bytes = of(rng, mixture, most_taken(composition));
    fitted(bytes, composition, burst)
}

/// No row takes more than two bytes a column.
fn most_taken(composition: &Composition) -> usize {
    (2 * composition.columns * composition.rows) as usize
}

fn fitted(mut bytes: Vec<u8>, composition: &Composition, burst: Burst) -> Vec<u8> {
    let need = need(&bytes, composition, burst, composition.rows).expect("two bytes a column are enough");
    bytes.truncate(need);
    bytes
}
