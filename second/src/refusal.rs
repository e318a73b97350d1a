//! The numbers with which a call is refused. A refused call alters nothing.

#[derive(Clone, Copy, Debug, PartialEq, Eq)]
pub enum Refusal {
    NoComposition = 1,
    NoCommand = 2,
    TooWide = 3,
    PageTooLong = 4,
    BadBus = 5,
    NoSuchRow = 6,
    BufferTooShort = 7,
    PageEnds = 8,
    BadLine = 9,
    BadEvent = 10,
}

impl Refusal {
    pub fn number(self) -> u8 {
        self as u8
    }
}
