//! A plain reference of the step model that 01-scope.md describes, with W-201, W-205, W-206
//! and W-212 of 02-change-requests.md, written from the documents alone so that another
//! implementation can be compared with it call by call. It aims at being easy to hold
//! against the text: no tables, nothing computed ahead. Decisions taken where the text
//! leaves room are in NOTES.md.

pub mod areas; // Memory lent to the calls
pub mod controller; // The exchange, and the host's settings
pub mod event; // What one bus event does
pub mod frames; // Check sequence and frame sizes, hearings, sound frames
pub mod host; // Host calls on ports
pub mod interrupts; // Two interrupt groups
pub mod lines; // Two lines
pub mod quiet; // Quiet time
pub mod refusal; // What callers are told

pub use controller::{Controller, Exchange};
pub use event::{hear, Reply};
pub use frames::{check_byte, check_bytes, slave_size, Hearing, Kind};
pub use host::{ask, close, fetch, open, write, Answer};
pub use {areas::{Areas, Tables}, interrupts::Group, quiet::quiet};

#[cfg(test)]
mod tests;
