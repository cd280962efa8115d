//! Why a command is refused.

/// The refusals, each with the number that the caller sees.
#[derive(Debug, Clone, Copy, PartialEq, Eq)]
pub enum Refusal {
    Size = 1,
    Name = 2,
    Unsound = 3,
    Absent = 4,
    Taken = 5,
    Protected = 6,
    Module = 7,
    Room = 8,
    NotPlain = 9,
    Short = 10,
    NoSector = 11,
    BadSheet = 12,
    Total = 13,
    BadList = 14,
}

impl Refusal {
    pub fn number(self) -> u32 {
        self as u32
    }
}

/// The number of a command that answers with nothing else: 0 when done.
pub fn number(outcome: Result<(), Refusal>) -> u32 {
    outcome.map_or_else(Refusal::number, |()| 0)
}
