//! Quiet time, one bit time after the other.

use crate::areas::{Areas, SINK, STO};
use crate::controller::{Controller, Exchange};
use crate::event::port_with;
use crate::interrupts::{BTI, RTI};
use crate::refusal::number;
#[cfg(not(table))]
use crate::refusal::{refuse_unless, RANGE};

#[cfg(table)]
#[path = "../../peer_quiet.rs"]
mod peer_quiet;
#[cfg(table)]
use peer_quiet::try_quiet;

/// A millisecond in bit times.
pub const MILLISECOND: u16 = 1500;

pub fn quiet(c: &mut Controller, areas: &mut Areas, n: u32) -> u16 {
    number(try_quiet(c, areas, n))
}

#[cfg(not(table))]
fn try_quiet(c: &mut Controller, areas: &mut Areas, n: u32) -> Result<(), u16> {
    areas.test_lengths()?;
    refuse_unless(n <= 65_535, RANGE)?;
    // On a copy, so that a refusal after some bit times changes nothing. The areas
    // need none: what ages before the one bit time that could refuse is aged afterwards,
    // which no caller can tell.
    let (mut later, mut milliseconds) = (c.clone(), 0);
    for _ in 0..n {
        bit_time(&mut later, areas)?;
        later.phase += 1;
        if later.phase == MILLISECOND {
            later.phase = 0;
            milliseconds += 1;
        }
    }
    *c = later;
    for _ in 0..milliseconds {
        areas.age();
    }
    Ok(())
}

fn bit_time(c: &mut Controller, areas: &mut Areas) -> Result<(), u16> {
    let before = c.since;
    c.since = before.saturating_add(1).min(1950);
    c.line_count = c.line_count.saturating_add(1);

    if let Exchange::Waiting(word) = c.exchange {
        if c.since >= c.adopted {
            reply_timeout(c, areas, word)?;
        }
    }
    if before < 1950 && c.since == 1950 {
        c.groups[0].raise(BTI);
    }
    if c.line_count >= 2130 {
        c.rule_2();
        c.line_count = 0;
    }
    c.rule_5();
    Ok(())
}

fn reply_timeout(c: &mut Controller, areas: &mut Areas, word: u16) -> Result<(), u16> {
    let sink = port_with(areas, word)?.filter(|port| port.has(SINK));
    c.groups[0].raise(RTI);
    if let Some(port) = sink {
        areas.set_status_bits(port, STO);
    }
    c.exchange = Exchange::Idle;
    c.rule_1(Some(word >> 12));
    Ok(())
}
