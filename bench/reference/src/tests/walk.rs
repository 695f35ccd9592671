//! A long random walk: what holds of every step, whatever the order of the steps.

use super::*;
use crate::refusal::*;

struct Dice(u64);

impl Dice {
    fn below(&mut self, n: u64) -> u64 {
        self.0 = self.0.wrapping_mul(6364136223846793005).wrapping_add(1442695040888963407);
        (self.0 >> 33) % n
    }

    fn word(&mut self) -> u16 {
        let code = [0, 0, 0, 1, 2, 3, 4, 5, 8, 9, 11, 12, 13, 14, 15, 15][self.below(16) as usize];
        code << 12 | self.below(6) as u16
    }

    fn hearing(&mut self, waiting: Exchange) -> Hearing {
        let mut hearing = match self.below(12) {
            0 => silence(),
            1 => noise(),
            2..=6 => master(self.word()),
            _ => {
                let size = match waiting {
                    Exchange::Waiting(word) if self.below(5) > 0 => slave_size(word >> 12).unwrap(),
                    _ => self.below(17) as usize,
                };
                let words: Vec<u16> = (0..size).map(|_| self.below(65_536) as u16).collect();
                slave(&words)
            }
        };
        match self.below(12) {
            0 => hearing.checks[self.below(4) as usize] ^= 1 << self.below(8),
            1 => hearing.sqe = true,
            2 => hearing.violation = true,
            3 => hearing.alo = true,
            4 => hearing.size = self.below(18) as usize,
            5 => hearing.ends = self.below(6) as usize,
            _ => {}
        }
        hearing
    }
}

/// What every reachable controller satisfies.
fn invariants(c: &Controller) {
    if let Exchange::Waiting(word) = c.exchange {
        assert!(c.since < c.adopted && slave_size(word >> 12).is_some());
    }
    assert!(c.since <= 1950 && c.line_count < 2130);
    for group in &c.groups {
        assert!(group.frozen || group.pending == 0);
        assert_eq!((group.pending | group.mask | group.status) & !group.used, 0);
    }
}

#[test]
fn every_step_keeps_the_invariants() {
    let mut dice = Dice(1);
    let mut w = World::with_ports();
    let (mut refused, mut replies) = ([0u32; 8], 0);
    for _ in 0..150_000 {
        let before = (w.c.clone(), w.areas.clone());
        let a = dice.below(6) as u16;
        let waiting = w.c.exchange;
        let number = match dice.below(20) {
            0..=9 => {
                let trusted = dice.hearing(waiting);
                let other = if dice.below(3) > 0 { trusted } else { dice.hearing(waiting) };
                let (number, reply) = hear(&mut w.c, &mut w.areas, trusted, other);
                replies += reply.is_some() as u32;
                assert!(reply.is_none() || number == 0 && w.c.exchange == Exchange::Done);
                number
            }
            10 => { let n = dice.below(100) as u32; quiet(&mut w.c, &mut w.areas, n) }
            11 => { let n = dice.below(3000) as u32; quiet(&mut w.c, &mut w.areas, n) }
            12 => open(&mut w.areas, a, dice.below(8) as u16, dice.below(6) as u16, dice.below(3) > 0, dice.below(9) as u16, dice.below(4) as u16),
            13 => if dice.below(4) == 0 { close(&mut w.areas, a) } else { 0 },
            14 | 15 => write(&mut w.areas, a, &vec![dice.below(65_536) as u16; 1 << dice.below(5)]),
            16 => {
                let group = &mut w.c.groups[dice.below(2) as usize];
                let value = dice.below(65_536) as u16;
                match dice.below(6) {
                    0 => group.write_mask(value),
                    1 => group.write_pending(value),
                    2 => group.write_status(value),
                    3 => { group.read_vector(); }
                    _ => group.write_vector(value),
                }
                0
            }
            17 => match dice.below(6) {
                0 => w.c.set_address(dice.below(4) as u16),
                1 => w.c.set_status(dice.below(65_536) as u16),
                2 => w.c.set_reply_time(32 * dice.below(6) as u16),
                3 => w.c.set_slm(dice.below(3) == 0),
                4 => w.c.set_ls(true),
                _ => if dice.below(50) == 0 { w.c.reset() } else { w.c.clear_ec() },
            },
            18 => { // damage, or its repair
                if dice.below(3) == 0 { w.areas.index[a as usize] = [0, 300, 3][dice.below(3) as usize]; }
                for p in 1..8 { if dice.below(9) == 0 { w.areas.ports[WORDS * p..WORDS * p + WORDS].fill(0); } }
                continue;
            }
            _ => match ask(w.areas.tables(), a) {
                Answer::Refused(number) => { assert!(fetch(&w.areas, a).is_empty()); number }
                answer => { assert_eq!(fetch(&w.areas, a).is_empty(), answer == Answer::Never); 0 }
            },
        };
        invariants(&w.c);
        refused[number as usize] += 1;
        if number != 0 {
            assert_eq!(before, (w.c.clone(), w.areas.clone()));
        }
    }
    for number in [RANGE, NOPORT, TAKEN, SIDE, DAMAGED] {
        assert!(refused[number as usize] > 100, "{refused:?}");
    }
    assert!(replies > 100, "{replies}");
}

/// "Damage, as demand 3 means it": without a sound frame only status bits change; "ages may change during damage".
#[test]
fn a_damaged_stretch_changes_only_status_bits_and_ages() {
    let mut dice = Dice(7);
    let (mut changed, mut aged) = (0, 0);
    for _ in 0..500 {
        let mut w = World::with_ports();
        write(&mut w.areas, 2, &[1, 2, 3, 4]);
        w.both(master(1));
        w.both(slave(&[9]));
        w.both(master(1));
        let before = w.areas.clone();
        for _ in 0..20 {
            let (a, b) = (dice.hearing(w.c.exchange), dice.hearing(w.c.exchange));
            let waited = if let Exchange::Waiting(word) = w.c.exchange { slave_size(word >> 12) } else { None };
            let sound = |h: &Hearing| match h.kind {
                Kind::Master => h.test_range().is_ok() && h.sound(Some(1)),
                Kind::Slave => h.test_range().is_ok() && h.sound(waited),
                _ => false,
            };
            if !sound(&a) && !sound(&b) {
                hear(&mut w.c, &mut w.areas, a, b);
                w.quiet(dice.below(500) as u32);
            }
        }
        aged += (w.areas.ports[WORDS + AGE] != 0) as u32;
        w.areas.ports[WORDS + AGE] = 0;
        changed += (w.areas != before) as u32;
        for port in 1..=2 {
            w.areas.ports[WORDS * port + 1] &= !STATUS_BITS;
        }
        assert_eq!(w.areas, before);
    }
    assert!(changed > 100 && aged > 100, "{changed} {aged}");
}
