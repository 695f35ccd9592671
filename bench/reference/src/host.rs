//! Host calls on ports. Order of refusals: AREA, RANGE, DAMAGED for the entry, NOPORT or TAKEN, DAMAGED
//! for the port words (not on opening), SIDE, RANGE for the size of a write.

use crate::areas::{Areas, Port, Tables, AGE, EVER, LIMIT, SINK, SRC, STO, TERR, WORDS};
use crate::refusal::{number, refuse_unless, NOPORT, RANGE, SIDE, TAKEN};

#[derive(Clone, Copy, PartialEq, Debug)]
pub enum Answer { Never, Good, Held, Stale, Refused(u16) }

/// What close, write and fetch begin with.
fn sought(areas: &Areas, a: u16) -> Result<Port, u16> {
    areas.test_lengths()?;
    port_at(areas.tables(), a)
}

/// After the lengths: RANGE, DAMAGED for the entry, NOPORT, DAMAGED for the port words.
fn port_at(tables: Tables, a: u16) -> Result<Port, u16> {
    refuse_unless(a <= 4095, RANGE)?;
    tables.port_of(a)?.ok_or(NOPORT)
}

/// Sets the entry and the eight words, with status, EVER, VP, fills and age zero.
pub fn open(areas: &mut Areas, a: u16, p: u16, code: u16, sink: bool, interrupt: u16, limit: u16) -> u16 {
    number(try_open(areas, a, p, code, sink, interrupt, limit))
}

fn try_open(areas: &mut Areas, a: u16, p: u16, code: u16, sink: bool, interrupt: u16, limit: u16) -> Result<(), u16> {
    areas.test_lengths()?;
    let in_range = a <= 4095 && (1..=255).contains(&p) && code <= 4 && interrupt <= 7;
    refuse_unless(in_range, RANGE)?;
    let first = WORDS * p as usize;
    refuse_unless(areas.tables().entry(a)? == 0 && areas.ports[first + 1] == 0, TAKEN)?;
    areas.index[a as usize] = p;
    let side = if sink { SINK } else { SRC };
    areas.ports[first..first + WORDS].copy_from_slice(&[code * 4096 + a, side, interrupt, 0, limit, 0, 0, 0]);
    Ok(())
}

/// Zeroes entry and port words; pages stay.
pub fn close(areas: &mut Areas, a: u16) -> u16 {
    number(sought(areas, a).map(|port| {
        areas.index[a as usize] = 0;
        areas.ports[WORDS * port.number..WORDS * port.number + WORDS].fill(0);
    }))
}

/// Source only, exact size: fills as a slave frame does, without interrupt.
pub fn write(areas: &mut Areas, a: u16, words: &[u16]) -> u16 {
    number(try_write(areas, a, words))
}

fn try_write(areas: &mut Areas, a: u16, words: &[u16]) -> Result<(), u16> {
    let port = sought(areas, a)?;
    refuse_unless(!port.has(SINK), SIDE)?;
    refuse_unless(words.len() == port.size(), RANGE)?;
    areas.fill(port, words);
    Ok(())
}

/// Limit nonzero and age at or above it.
fn is_stale(words: &[u16]) -> bool {
    words[LIMIT] != 0 && words[AGE] >= words[LIMIT]
}

/// The first of the two calls of a read, from the index table and port words alone.
pub fn ask(tables: Tables, a: u16) -> Answer {
    match tables.test_lengths().and_then(|()| port_at(tables, a)) {
        Err(refusal) => Answer::Refused(refusal),
        Ok(port) if !port.has(EVER) => Answer::Never,
        Ok(port) if port.has(STO | TERR) => Answer::Held,
        Ok(port) if is_stale(&tables.ports[WORDS * port.number..]) => Answer::Stale,
        Ok(_) => Answer::Good,
    }
}

/// The second: empty exactly when asking refuses or answers never, or a page has another length.
pub fn fetch(areas: &Areas, a: u16) -> Vec<u16> {
    match sought(areas, a) {
        Ok(port) if port.has(EVER) => areas.valid_words(port),
        _ => Vec::new(),
    }
}
