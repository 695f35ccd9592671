//! What callers are told.

pub const AREA: u16 = 1; // an area has another length
pub const RANGE: u16 = 2; // an argument is out of range, or a write has not the port's size
pub const NOPORT: u16 = 3; // the index entry is 0 (not on opening)
pub const TAKEN: u16 = 4; // opening: the address has an entry, or word 1 of that port is not 0
pub const SIDE: u16 = 5; // the host writes to a sink
pub const DAMAGED: u16 = 6; // an entry needed is above 255, or port words needed are not well formed
pub const TEXT: u16 = 7; // program only: a malformed line

/// The number a call hands back: 0 if accepted, or that of its refusal.
pub fn number(outcome: Result<(), u16>) -> u16 {
    outcome.err().unwrap_or(0)
}

pub fn refuse_unless(right: bool, refusal: u16) -> Result<(), u16> {
    if right { Ok(()) } else { Err(refusal) }
}
