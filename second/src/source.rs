//! Byte sources: a page, the rest of it still to be handed out, and the free clocks of a bus.

use crate::page;
use crate::refusal::Refusal;

const MOST_SPANS: usize = 256;
const SPAN_LIMIT: u32 = 1 << 31;

enum Bus {
    AlwaysFree,
    /// Free for some clocks, then busy for some, in turn.
    Turns {
        free: u64,
        busy: u64,
    },
    /// Busy stretches, each from its first clock to the one behind its last, in order and apart.
    Spans(Vec<(u64, u64)>),
}

/// Some clocks in which a bus is busy.
#[derive(Clone, Copy)]
pub struct Span {
    pub first: u32,
    pub length: u32,
}

pub struct Source {
    page: Vec<u8>,
    handed_out: usize,
    bus: Bus,
    /// Clocks since the making. Beyond the longest span all are free, so this needs no stop.
    passed: u64,
}

impl Source {
    pub fn free(page: &[u8]) -> Result<Source, Refusal> {
        check_length(page)?;
        Ok(Source::over(page, Bus::AlwaysFree))
    }

    pub fn turns(page: &[u8], free: u8, busy: u8) -> Result<Source, Refusal> {
        check_length(page)?;
        if free == 0 && busy == 0 {
            return Err(Refusal::BadBus);
        }
        Ok(Source::over(page, Bus::Turns { free: free.into(), busy: busy.into() }))
    }

    pub fn spans(page: &[u8], spans: &[Span]) -> Result<Source, Refusal> {
        check_length(page)?;
        let is_bad = |span: &Span| span.first >= SPAN_LIMIT || span.length >= SPAN_LIMIT;
        if spans.len() > MOST_SPANS || spans.iter().any(is_bad) {
            return Err(Refusal::BadBus);
        }
        Ok(Source::over(page, Bus::Spans(joined(spans))))
    }

    fn over(page: &[u8], bus: Bus) -> Source {
        Source { page: page.to_vec(), handed_out: 0, bus, passed: 0 }
    }

    pub fn begin(&mut self) {
        self.handed_out = 0;
    }

    /// The bytes still to be handed out.
    pub fn rest(&self) -> &[u8] {
        &self.page[self.handed_out..]
    }

    /// The first free clock that isn't before clock `ahead`, both counted from the next clock.
    pub fn first_free(&self, ahead: u32) -> Option<u64> {
        let from = self.passed + u64::from(ahead);
        let found = match &self.bus {
            Bus::AlwaysFree => from,
            Bus::Turns { free: 0, .. } => return None,
            Bus::Turns { free, busy } => {
                let turn = free + busy;
                if from % turn < *free {
                    from
                } else {
                    from.next_multiple_of(turn)
                }
            }
            Bus::Spans(stretches) => {
                let ahead_of_it = stretches.partition_point(|(_, behind)| *behind <= from);
                match stretches.get(ahead_of_it) {
                    Some((first, behind)) if *first <= from => *behind,
                    _ => from,
                }
            }
        };
        Some(found - self.passed)
    }

    /// Lets clocks pass in which so many bytes were handed out.
    pub fn pass(&mut self, clocks: u32, bytes: usize) {
        self.passed += u64::from(clocks);
        self.handed_out += bytes;
    }
}

fn check_length(bytes: &[u8]) -> Result<(), Refusal> {
    if bytes.len() > page::LONGEST {
        return Err(Refusal::PageTooLong);
    }
    Ok(())
}

/// Busy stretches in order, spans that overlap or touch made one, so that a free clock follows each.
fn joined(spans: &[Span]) -> Vec<(u64, u64)> {
    let mut stretches: Vec<(u64, u64)> = spans
        .iter()
        .filter(|span| span.length > 0)
        .map(|span| (u64::from(span.first), u64::from(span.first) + u64::from(span.length)))
        .collect();
    stretches.sort_unstable();
    let mut apart: Vec<(u64, u64)> = Vec::with_capacity(stretches.len());
    for (first, behind) in stretches {
        match apart.last_mut() {
            Some(last) if first <= last.1 => last.1 = last.1.max(behind),
            _ => apart.push((first, behind)),
        }
    }
    apart
}
