//! Rows of a page in memory: what the frame would make of it, without a clock.

use crate::composition::{Burst, Composition};
use crate::picture::{cells, Above, View};
use crate::refusal::Refusal;
use crate::row::Row;

pub const LONGEST: usize = 16_384;

/// A row where it lies in its page.
pub struct Found {
    /// The index of its first byte.
    pub place: usize,
    pub row: Row,
    pub above: Above,
}

/// Row `number` of a page; `None` if it or a row above it lacks a byte.
pub fn find(page: &[u8], composition: &Composition, burst: Burst, number: u32) -> Option<Found> {
    let mut place = 0;
    let mut above = Above::default();
    for above_it in 1..number {
        let row = row_at(page, place, &above, composition, burst, above_it)?;
        place += row.taken;
        above = above.and(&row);
    }
    let row = row_at(page, place, &above, composition, burst, number)?;
    Some(Found { place, row, above })
}

fn row_at(
    page: &[u8],
    place: usize,
    above: &Above,
    composition: &Composition,
    burst: Burst,
    number: u32,
) -> Option<Row> {
    let row = if above.stopped || composition.is_blank(number) {
        Row::without_bytes()
    } else {
        Row::read(page[place..].iter().copied(), composition, burst)
    };
    row.ended.then_some(row)
}

/// The part of a page that a row takes.
#[derive(Clone, Copy, Debug, PartialEq, Eq)]
pub struct Window {
    pub place: usize,
    pub count: usize,
}

pub fn window(page: &[u8], composition: &Composition, burst: Burst, number: u32) -> Result<Window, Refusal> {
    check(page, composition, number)?;
    let found = find(page, composition, burst, number).ok_or(Refusal::PageEnds)?;
    Ok(Window { place: found.place, count: found.row.taken })
}

/// Writes the page's picture of a row into the front of a buffer.
pub fn still(page: &[u8], view: &View, burst: Burst, number: u32, buffer: &mut [u32]) -> Result<(), Refusal> {
    let composition = view.composition;
    check(page, composition, number)?;
    let clocks = composition.row_clocks();
    let front = buffer.get_mut(..clocks as usize).ok_or(Refusal::BufferTooShort)?;
    let found = find(page, composition, burst, number).ok_or(Refusal::PageEnds)?;
    let mut words = Vec::with_capacity(front.len());
    view.shown(number, &cells(&found.row, &found.above, composition), 0..clocks, &mut words);
    front.copy_from_slice(&words);
    Ok(())
}

fn check(page: &[u8], composition: &Composition, number: u32) -> Result<(), Refusal> {
    if page.len() > LONGEST {
        return Err(Refusal::PageTooLong);
    }
    if number == 0 || number > composition.rows || composition.is_blank(number) {
        return Err(Refusal::NoSuchRow);
    }
    Ok(())
}
