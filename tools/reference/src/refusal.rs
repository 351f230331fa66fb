//! Refusals, by the numbers in the paper's table "What stops a call".

#[derive(Clone, Copy, Debug, PartialEq, Eq, PartialOrd, Ord)]
pub enum Refusal {
    Unopened = 1,
    AlreadyOpen = 2,
    Date = 3,
    Term = 4,
    Amount = 5,
    Rate = 6,
    Financing = 7,
    Day = 8,
    SettlementPending = 9,
    Holder = 10,
    Share = 11,
    BookFull = 12,
    NoDayHeld = 13,
    Overpaid = 14,
    EmptyFile = 20,
    Line = 21,
    Unfinished = 22,
}

impl Refusal {
    pub fn number(self) -> u32 {
        self as u32
    }
}
