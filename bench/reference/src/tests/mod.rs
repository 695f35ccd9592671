//! Cases by section of the document. The program's own are in tests/program.rs.

mod ages;
mod check;
mod event;
mod host;
mod interrupts;
mod lines;
mod quiet;
mod settings;
mod walk;

use crate::areas::*;
use crate::*;

pub fn master(word: u16) -> Hearing {
    Hearing::of(Kind::Master, &[word], &check_bytes(&[word]))
}

pub fn slave(words: &[u16]) -> Hearing {
    Hearing::of(Kind::Slave, words, &check_bytes(words))
}

pub fn silence() -> Hearing {
    Hearing::of(Kind::Silence, &[], &[])
}

pub fn noise() -> Hearing {
    Hearing::of(Kind::Noise, &[], &[])
}

pub fn bad_check(mut hearing: Hearing) -> Hearing {
    hearing.checks[hearing.ends - 1] ^= 1;
    hearing
}

pub fn sqe(mut hearing: Hearing) -> Hearing {
    hearing.sqe = true;
    hearing
}

pub fn violation(mut hearing: Hearing) -> Hearing {
    hearing.violation = true;
    hearing
}

pub fn alo(mut hearing: Hearing) -> Hearing {
    hearing.alo = true;
    hearing
}

/// A controller with areas and all interrupts let through.
pub struct World {
    pub c: Controller,
    pub areas: Areas,
}

impl World {
    pub fn new() -> World {
        let mut c = Controller::fresh();
        c.groups[0].write_mask(0xFFFF);
        c.groups[1].write_mask(0xFFFF);
        World { c, areas: Areas::zero() }
    }

    /// Address 1 is port 1: F-code 0, sink, interrupt 3. Address 2 is port 2: F-code 2, source.
    pub fn with_ports() -> World {
        let mut w = World::new();
        assert_eq!(open(&mut w.areas, 1, 1, 0, true, 3, 0), 0);
        assert_eq!(open(&mut w.areas, 2, 2, 2, false, 5, 0), 0);
        w
    }

    pub fn both(&mut self, hearing: Hearing) -> Option<Reply> {
        self.lines(hearing, hearing)
    }

    pub fn lines(&mut self, a: Hearing, b: Hearing) -> Option<Reply> {
        let (refusal, reply) = hear(&mut self.c, &mut self.areas, a, b);
        assert_eq!(refusal, 0);
        reply
    }

    pub fn quiet(&mut self, n: u32) {
        assert_eq!(quiet(&mut self.c, &mut self.areas, n), 0);
    }

    /// Group 0 status since the last look, without freezing.
    pub fn seen(&mut self) -> u16 {
        std::mem::take(&mut self.c.groups[0].status)
    }

    pub fn word1(&self, p: usize) -> u16 {
        self.areas.ports[WORDS * p + 1]
    }

    pub fn fills(&self, p: usize) -> u16 {
        self.areas.ports[WORDS * p + 3]
    }

    /// The event is refused so, without a reply, and nothing changes.
    pub fn refused(&mut self, a: Hearing, b: Hearing, refusal: u16) {
        let before = (self.c.clone(), self.areas.clone());
        assert_eq!(hear(&mut self.c, &mut self.areas, a, b), (refusal, None));
        assert_eq!(before, (self.c.clone(), self.areas.clone()));
    }
}
