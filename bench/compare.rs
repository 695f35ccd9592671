//! Runs the library and the plain reference over the same random calls, and compares every answer, the whole controller and all four
//! areas after each. Stops at the first difference. `compare.sh SEED COUNT` builds and runs it.

#[path = "calls.rs"]
mod calls;
#[path = "random.rs"]
mod random;
#[path = "sides.rs"]
mod sides;
#[path = "../firmware/tolvendrum.rs"]
mod tolvendrum;

use plain::areas::WORDS;
use random::Random;
use reference as plain;
use std::collections::BTreeMap;
use tolvendrum as ours;

/// Every kind of call that is drawn, with how often, in a thousand.
const CALLS: [(&str, u16); 17] = [
    ("hear", 499), ("quiet", 70), ("write", 60), ("ask", 60), ("fetch", 60), ("open", 60), ("close", 5), ("group", 50), ("line", 20),
    ("setting", 40), ("counts", 10), ("checks", 10), ("reset", 2), ("poke", 10), ("jump", 10), ("stranger", 30), ("mend", 4),
];

const ADDRESSES: [u16; 10] = [0, 1, 2, 3, 5, 9, 17, 2048, 4094, 4095];

struct Run {
    random: Random,
    ours: sides::Memory,
    plain: plain::Areas,
    /// The library's controller as its last call gave it, and the reference's.
    flat: ours::Controller,
    controller: plain::Controller,
    /// How often each call was made, and how often each refusal was given.
    made: BTreeMap<&'static str, u64>,
    refused: BTreeMap<u16, u64>,
    /// What else was seen, so that a run that shows nothing is noticed.
    seen: BTreeMap<&'static str, u64>,
}

impl Run {
    fn new(seed: u64) -> Run {
        Run {
            random: Random::new(seed),
            ours: sides::Memory::cleared(),
            plain: plain::Areas::zero(),
            flat: ours::Controller::reset(),
            controller: plain::Controller::fresh(),
            made: BTreeMap::new(),
            refused: BTreeMap::new(),
            seen: BTreeMap::new(),
        }
    }

    fn see(&mut self, what: &'static str, when: bool) {
        *self.seen.entry(what).or_insert(0) += when as u64;
    }

    fn address(&mut self) -> u16 {
        if self.random.once_in(20) { self.random.one_of(&[4096, 65535, 777]) } else { self.random.one_of(&ADDRESSES) }
    }

    /// A master word: mostly that of a port in use, a status poll, or one that is waited for.
    fn master_word(&mut self) -> u16 {
        match self.random.below(20) {
            0..=11 => {
                let opened = |port: &u16| self.plain.ports.get(WORDS * *port as usize + 1).is_some_and(|flags| *flags != 0);
                let ports: Vec<u16> = (1..=12).filter(opened).collect();
                if ports.is_empty() { 1 } else { self.plain.ports[WORDS * self.random.one_of(&ports) as usize] }
            }
            12 | 13 => 0xF000 | self.controller.device_address,
            14 => match self.controller.exchange {
                plain::Exchange::Waiting(word) => word,
                _ => self.random.word(),
            },
            15 | 16 => self.random.below(16) << 12 | self.random.one_of(&ADDRESSES),
            _ => self.random.word(),
        }
    }

    /// A frame of these words with its check bytes, and now and then something wrong with it.
    fn frame(&mut self, kind: u16, words: &[u16]) -> ours::Hearing {
        let checks = plain::check_bytes(words);
        let mut h = ours::Hearing { kind, size: words.len() as u16, ends: checks.len() as u16, ..Default::default() };
        h.words[..words.len()].copy_from_slice(words);
        h.checks[..checks.len()].copy_from_slice(&checks);
        match self.random.below(60) {
            0 | 1 => h.checks[self.random.below(4) as usize] ^= 1 << self.random.below(8),
            2 => h.words[self.random.below(16) as usize] ^= 1 << self.random.below(16),
            3 => h.size = self.random.below(19),
            4 => h.ends = self.random.below(7),
            5 => h.sqe = 1,
            6 => h.violation = 1,
            7 => h.alo = 1,
            8 => h.checks = [self.random.word() as u8; 4],
            9 => h.checks = h.checks.map(|check| check ^ self.random.below(2) as u8),
            _ => {}
        }
        if self.random.once_in(400) {
            match self.random.below(5) {
                0 => h.kind = 4 + self.random.below(3),
                1 => h.sqe = 2,
                2 => h.violation = self.random.word(),
                3 => h.alo = 65535,
                _ => h.size = self.random.word(),
            }
        }
        h
    }

    /// What a line hears: mostly a master frame, or, while one waits, a slave frame sized for the waiting code.
    fn hearing(&mut self) -> ours::Hearing {
        let waiting = matches!(self.controller.exchange, plain::Exchange::Waiting(_));
        match self.random.below(20) {
            0 => self.frame(ours::SILENCE, &[]),
            1 => self.frame(ours::NOISE, &[]),
            n if (n < 6) == waiting => {
                let word = self.master_word();
                self.frame(ours::MASTER, &[word])
            }
            _ => {
                let size = match self.controller.exchange {
                    plain::Exchange::Waiting(word) if !self.random.once_in(12) => plain::slave_size(word >> 12).unwrap_or(1),
                    _ => self.random.one_of(&[1, 2, 4, 8, 16]),
                };
                let mut words = [0; 16];
                words.fill_with(|| self.random.word());
                self.frame(ours::SLAVE, &words[..size])
            }
        }
    }

    /// What both lines hear: mostly the same, or the same with a fault on one.
    fn two_lines(&mut self) -> (ours::Hearing, ours::Hearing) {
        let a = self.hearing();
        let mut b = a;
        match self.random.below(10) {
            0 => b = self.hearing(),
            1 => b.sqe = 1,
            2 => b.violation = 1,
            3 => b.kind = self.random.below(2),
            _ => {}
        }
        if self.random.flag() == 1 { (a, b) } else { (b, a) }
    }

    /// Bit times: mostly around a deadline.
    fn bit_times(&mut self) -> u32 {
        let c = &self.controller;
        let near = [c.adopted.saturating_sub(c.since), 1950 - c.since, 2130 - c.line_count, 1500 - c.phase, self.random.below(3), 31, 63, 64];
        match self.random.below(300) {
            0 => 65535,
            1 => 65536 + self.random.word() as u32,
            2 | 3 => self.random.word() as u32,
            4..=40 => self.random.below(2200) as u32,
            _ => (self.random.one_of(&near) + self.random.below(3)).saturating_sub(1) as u32,
        }
    }

    /// Random numbers of a controller: of ours, or near to one.
    fn any_controller(&mut self) -> ours::Controller {
        let r = &mut self.random;
        let near = [0, 1, 31, 32, 63, 64, 127, 1948, 1949, 1950, 2128, 2129];
        let times = [32, 64, 96, 128];
        let stage = r.below(3);
        let (frozen0, frozen1, set) = (r.flag(), r.flag(), r.flag());
        ours::Controller {
            exchange: ours::Exchange { stage, word: if stage == 1 { r.below(16) << 12 | r.one_of(&ADDRESSES) } else { 0 } },
            times: ours::Times {
                since: r.one_of(&near).min(1950), line: r.one_of(&near), chosen: r.one_of(&times), adopted: r.one_of(&times),
            },
            lines: ours::Lines { laa: r.flag(), rld: r.flag(), ls: r.flag(), slm: r.flag() },
            counts: ours::Counts { fc: r.one_of(&[0, 7, 65534, 65535]), ec: r.one_of(&[0, 7, 65534, 65535]) },
            group0: ours::Group { pending: frozen0 * r.word(), mask: r.word(), status: r.word(), frozen: frozen0 },
            group1: ours::Group {
                pending: frozen1 * (r.word() & 0xFF87), mask: r.word() & 0xFF87, status: r.word() & 0xFF87, frozen: frozen1,
            },
            device: ours::Device { address: r.one_of(&ADDRESSES), set, status: set * r.word() },
            phase: r.one_of(&[0, 1, 750, 1498, 1499]),
        }
    }

    /// One number of a controller changed to anything.
    fn changed(&mut self, f: ours::Controller) -> ours::Controller {
        // SAFETY: the struct is 24 words without padding (tolvendrum.rs asserts its 48 bytes), and any word is a value of each field.
        let mut words: [u16; 24] = unsafe { std::mem::transmute(f) };
        words[self.random.below(24) as usize] = if self.random.flag() == 1 { self.random.word() } else { 2 };
        unsafe { std::mem::transmute(words) }
    }
}

fn number(position: usize, otherwise: u64) -> u64 {
    std::env::args().nth(position).map_or(otherwise, |text| {
        text.parse().unwrap_or_else(|_| {
            eprintln!("usage: compare.sh [SEED [COUNT]], both decimal numbers; '{text}' is none");
            std::process::exit(2)
        })
    })
}

fn main() {
    let (seed, count) = (number(1, 1), number(2, 20_000));
    let mut run = Run::new(seed);
    for call in 1..=count {
        if let Some(difference) = run.step() {
            println!("seed {seed}, call {call}: {difference}");
            std::process::exit(1);
        }
    }
    println!("seed {seed}: {count} calls, no difference");
    println!("calls: {:?}", run.made);
    println!("refusals: {:?}", run.refused);
    println!("seen: {:?}", run.seen);
}
