//! An armed frame, worked out row by row from the definitions of open and take.
//!
//! Nothing is kept between calls but the bytes that have really come for the row being taken. All
//! the rest is planned, from those bytes and the source that the next clocks are given: which bytes
//! the row takes, when each is opened and taken, and so the requests. A plan goes as far as the
//! clocks that are known to be given this source, because those behind them may go to another.

use std::ops::Range;

use crate::composition::{Burst, Composition};
use crate::picture::{cells, Above, Cell};
use crate::row::Row;
use crate::source::Source;

/// A frame that was armed, has not been disarmed and has had no late row.
pub struct Frame {
    burst: Burst,
    /// What the rows down to the one shown leave to those below.
    above: Above,
    /// The row that is shown; empty in row time 0.
    shown: Vec<Cell>,
    next: Next,
}

/// The row whose bytes come while the one above it is shown.
enum Next {
    Taking(Taking),
    /// Its taking has ended, or it takes nothing.
    Whole(Row),
}

/// A row was not whole when its row time began.
pub struct Late;

impl Frame {
    pub fn new(burst: Burst) -> Frame {
        Frame { burst, above: Above::default(), shown: Vec::new(), next: Next::Whole(Row::without_bytes()) }
    }

    pub fn shown(&self) -> &[Cell] {
        &self.shown
    }

    /// The rows change: the one that was taken is shown, and the next one's taking opens.
    pub fn enter(&mut self, row_time: u32, composition: &Composition) -> Result<(), Late> {
        if (1..=composition.rows).contains(&row_time) {
            let Next::Whole(row) = &self.next else {
                return Err(Late);
            };
            self.shown = cells(row, &self.above, composition);
            self.above = self.above.and(row);
        }
        let number = row_time + 1;
        let takes_nothing = number > composition.rows || composition.is_blank(number) || self.above.stopped;
        self.next = if takes_nothing { Next::Whole(Row::without_bytes()) } else { Next::Taking(Taking::default()) };
        Ok(())
    }

    /// Takes what comes in some clocks of the row time, all given this source.
    pub fn take(&mut self, clocks: Range<u32>, source: &Source, composition: &Composition) -> Taken {
        let Next::Taking(taking) = &mut self.next else {
            return Taken::default();
        };
        let plan = taking.plan(clocks, source, composition, self.burst);
        let taken = taking.carry_out(&plan, self.burst);
        if plan.row.ended && plan.row.taken == taking.bytes.len() {
            self.next = Next::Whole(plan.row);
        }
        taken
    }
}

/// What happened in some clocks of a row time.
#[derive(Default)]
pub struct Taken {
    /// Clocks of the row time in which a byte was asked for.
    pub requests: Vec<Range<u32>>,
    pub bytes: usize,
    /// The row's seventeenth field character was among the bytes.
    pub overrun: bool,
}

/// The facts of a row's taking: what has come, and from which clock on the next byte is asked for.
#[derive(Default)]
struct Taking {
    bytes: Vec<u8>,
    open: u32,
}

/// What comes for a row in some clocks of its row time.
struct Plan {
    /// The row, if the source goes on to be the one.
    row: Row,
    takes: Vec<Take>,
    /// Clocks at the end in which the row asks in vain.
    in_vain: Range<u32>,
}

struct Take {
    open: u32,
    clock: u32,
    byte: u8,
}

impl Taking {
    fn plan(&self, clocks: Range<u32>, source: &Source, composition: &Composition, burst: Burst) -> Plan {
        let bytes = self.bytes.iter().chain(source.rest()).copied();
        let row = Row::read(bytes, composition, burst);
        let mut takes = Vec::new();
        // A request that has been open for some time stands on in these clocks.
        let mut open = self.open.max(clocks.start);
        for (k, byte) in (self.bytes.len() + 1..=row.taken).zip(source.rest()) {
            let free = source.first_free(open - clocks.start).map(|ahead| u64::from(clocks.start) + ahead);
            let Some(clock) = free.filter(|clock| *clock < u64::from(clocks.end)) else {
                return Plan { row, takes, in_vain: open..clocks.end };
            };
            let clock = clock as u32;
            takes.push(Take { open, clock, byte: *byte });
            open = open_behind(k, clock, burst);
        }
        let in_vain = if row.ended { clocks.end..clocks.end } else { open..clocks.end };
        Plan { row, takes, in_vain }
    }

    /// Makes a plan come true.
    fn carry_out(&mut self, plan: &Plan, burst: Burst) -> Taken {
        let before = self.bytes.len();
        for take in &plan.takes {
            self.bytes.push(take.byte);
            self.open = open_behind(self.bytes.len(), take.clock, burst);
        }
        let now = self.bytes.len();
        Taken {
            requests: plan.requests(),
            bytes: now - before,
            overrun: plan.row.overrun.is_some_and(|k| before < k && k <= now),
        }
    }
}

/// open(k + 1), from take(k)
fn open_behind(k: usize, take: u32, burst: Burst) -> u32 {
    take + 1 + if burst.ends_with(k) { burst.space } else { 0 }
}

impl Plan {
    /// The clocks in which a byte is asked for.
    fn requests(&self) -> Vec<Range<u32>> {
        let granted = self.takes.iter().map(|take| take.open..take.clock + 1);
        granted.chain([self.in_vain.clone()]).filter(|request| !request.is_empty()).collect()
    }
}
