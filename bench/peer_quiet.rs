//! Quiet time as a firmware engineer would write it for speed: from one bit time in which something is due to the next, and the ports aged in one
//! walk, by as many milliseconds as end. The reference built with this in place of its loop over bit times is the peer of the bench.

use super::{bit_time, MILLISECOND};
use crate::areas::{Areas, AGE, SINK, SRC, WORDS, ZERO_BITS};
use crate::controller::{Controller, Exchange};
use crate::event::port_with;
use crate::refusal::{refuse_unless, RANGE};

pub fn try_quiet(c: &mut Controller, areas: &mut Areas, n: u32) -> Result<(), u16> {
    areas.test_lengths()?;
    refuse_unless(n <= 65_535, RANGE)?;
    if let Exchange::Waiting(word) = c.exchange {
        // Only this could refuse later on.
        if n > 0 && c.since as u32 + n >= c.adopted as u32 {
            port_with(areas, word)?;
        }
    }
    let mut left = n;
    while left > 0 {
        let next = left.min(next_due(c));
        c.since = c.since.saturating_add(next as u16 - 1).min(1950);
        c.line_count = c.line_count.saturating_add(next as u16 - 1);
        bit_time(c, areas)?;
        left -= next;
    }
    let bit_times = c.phase as u32 + n;
    let millisecond = MILLISECOND as u32;
    c.phase = (bit_times % millisecond) as u16;
    if bit_times >= millisecond {
        age(&mut areas.ports, (bit_times / millisecond) as u16);
    }
    Ok(())
}

/// How many bit times on something is due: a reply time, the bus timeout, a line timeout, or a filed LS.
fn next_due(c: &Controller) -> u32 {
    if c.ls && !c.rld && !c.slm {
        return 1;
    }
    let mut due = 2130u16.saturating_sub(c.line_count);
    if c.since < 1950 {
        due = due.min(1950 - c.since);
    }
    if let Exchange::Waiting(_) = c.exchange {
        due = due.min(c.adopted.saturating_sub(c.since));
    }
    due.max(1) as u32
}

fn age(ports: &mut [u16], milliseconds: u16) {
    for words in ports.chunks_exact_mut(WORDS).skip(1) {
        let sink = words[1] & (SRC | SINK | ZERO_BITS) == SINK;
        if sink && words[0] >> 12 <= 4 && words[2] <= 7 && words[6] == 0 && words[7] == 0 {
            words[AGE] = words[AGE].saturating_add(milliseconds);
        }
    }
}
