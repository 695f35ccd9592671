//! The calls of the comparison. Each is made on both sides and says what each answered; `Run::step` compares.

use crate::{ours, plain, sides, Run};
use plain::areas::{AGE, FILLS, WORDS};

/// Both sides' answers as text, equal where they agree.
pub type Answers = (String, String);

fn pair<T: std::fmt::Debug>(ours: T, plain: T) -> Answers {
    (format!("{ours:?}"), format!("{plain:?}"))
}

/// What a call lent the areas answers to an argument that is none: 1 where an area has another length, else 2.
fn away(areas: &plain::Areas) -> u16 {
    if areas.test_lengths().is_err() { 1 } else { 2 }
}

impl Run {
    fn refusal(&mut self, number: u16) {
        *self.refused.entry(number).or_insert(0) += 1;
    }

    fn hear(&mut self, f: ours::Controller) -> Answers {
        let (a, b) = self.two_lines();
        let got = self.ours.lent().hear(f, a, b);
        let mut c = sides::controller(&f);
        let before = self.plain.ports.clone();
        let (refusal, reply) = match (&mut c, sides::hearing(&a), sides::hearing(&b)) {
            (Some(c), Some(a), Some(b)) => plain::hear(c, &mut self.plain, a, b),
            _ => (away(&self.plain), None),
        };
        let left = c.as_ref().map_or(f, sides::flat);
        self.see("replies", reply.is_some());
        let fills = |words: &[u16]| words.get(FILLS).copied();
        let blocks = |words: &[u16]| words.get(1).map(|flags| flags & plain::areas::BLOCKS);
        let changed = |test: &dyn Fn(&[u16], &[u16]) -> bool| before.chunks(WORDS).zip(self.plain.ports.chunks(WORDS)).any(|(x, y)| test(x, y));
        let (filled, marked) = (changed(&|x, y| fills(x) != fills(y)), changed(&|x, y| x != y && fills(x) == fills(y)));
        let blocked = changed(&|x, y| blocks(x) != blocks(y));
        self.see("fills", filled);
        self.see("status bits", marked);
        self.see("block marks", blocked);
        self.see("line switches", left.lines.laa != f.lines.laa && refusal == 0);
        self.refusal(refusal);
        self.keep(f, got.controller, c);
        pair(got, ours::Answered { refusal, controller: left, reply: sides::reply(&reply) })
    }

    fn quiet(&mut self, f: ours::Controller) -> Answers {
        let n = self.bit_times();
        let before = self.plain.ports.clone();
        let got = self.ours.lent().quiet(f, n);
        let mut c = sides::controller(&f);
        let refusal = match &mut c {
            Some(c) => plain::quiet(c, &mut self.plain, n),
            None => away(&self.plain),
        };
        let left = c.as_ref().map_or(f, sides::flat);
        let ages = |ports: &[u16]| ports.chunks(WORDS).map(|words| words.get(AGE).copied()).collect::<Vec<_>>();
        self.see("ages", ages(&before) != ages(&self.plain.ports));
        self.see("reply timeouts", f.exchange.stage == 1 && left.exchange.stage == 0);
        self.refusal(refusal);
        self.keep(f, got.controller, c);
        pair(got, ours::Answered { refusal, controller: left, reply: sides::reply(&None) })
    }

    /// The controllers that the next call is made with; a stranger's numbers are not kept.
    fn keep(&mut self, given: ours::Controller, got: ours::Controller, c: Option<plain::Controller>) {
        if given == self.flat {
            self.flat = got;
            self.controller = c.expect("the library handed out what is no controller of ours");
        }
    }

    fn setting(&mut self, f: ours::Controller) -> Answers {
        let which = self.random.below(6);
        let value = match which {
            0 => self.address(),
            2 => self.random.one_of(&[32, 64, 96, 128, 128, 32, 33, 0]),
            3 | 4 if !self.random.once_in(8) => self.random.flag(),
            _ => self.random.word(),
        };
        let got = match which {
            0 => f.set_address(value),
            1 => f.set_status(value),
            2 => f.set_reply_time(value),
            3 => f.set_slm(value),
            4 => f.set_ls(value),
            _ => f.clear_ec(),
        };
        let mut c = sides::controller(&f);
        let flag = value <= 1 || !(3..=4).contains(&which);
        let refusal = match &mut c {
            Some(c) if flag => match which {
                0 => c.set_address(value),
                1 => c.set_status(value),
                2 => c.set_reply_time(value),
                3 => c.set_slm(value == 1),
                4 => c.set_ls(value == 1),
                _ => c.clear_ec(),
            },
            _ => 2,
        };
        let left = c.as_ref().map_or(f, sides::flat);
        self.refusal(refusal);
        self.keep(f, got.controller, c);
        pair(got, ours::Told { refusal, controller: left })
    }

    fn group(&mut self, f: ours::Controller) -> Answers {
        let (n, value) = (if self.random.once_in(30) { self.random.word() } else { self.random.flag() }, self.random.word());
        let which = self.random.below(6);
        let got = match which {
            0 => f.read_status(n),
            1 => f.read_vector(n),
            2 => f.write_status(n, value),
            3 => f.write_vector(n),
            4 => f.write_pending(n, value),
            _ => f.write_mask(n, value),
        };
        let mut c = sides::controller(&f);
        let (refusal, read) = match c.as_mut().and_then(|c| c.groups.get_mut(n as usize)) {
            Some(g) => (0, match which {
                0 => g.read_status(),
                1 => g.read_vector(),
                2 => { g.write_status(value); 0 }
                3 => { g.write_vector(value); 0 }
                4 => { g.write_pending(value); 0 }
                _ => { g.write_mask(value); 0 }
            }),
            None => (2, 0),
        };
        let left = c.as_ref().map_or(f, sides::flat);
        self.see("vectors", which == 1 && read != 0);
        self.refusal(refusal);
        self.keep(f, got.controller, c);
        pair(got, ours::Reading { refusal, value: read, controller: left })
    }

    fn line(&mut self, f: ours::Controller) -> Answers {
        let n = if self.random.once_in(10) { self.random.word() } else { self.random.flag() };
        let c = sides::controller(&f);
        let plain = match c.as_ref().and_then(|c| c.groups.get(n as usize)) {
            Some(g) => ours::Number { refusal: 0, value: g.line() as u16 },
            None => ours::Number { refusal: 2, value: 0 },
        };
        self.see("active lines", plain.value == 1);
        self.refusal(plain.refusal);
        pair(f.line(n), plain)
    }

    fn counts(&mut self, f: ours::Controller) -> Answers {
        let c = sides::controller(&f);
        let number = |value: fn(&plain::Controller) -> u16| match &c {
            Some(c) => ours::Number { refusal: 0, value: value(c) },
            None => ours::Number { refusal: 2, value: 0 },
        };
        let plain = [number(|c| c.fc), number(|c| c.ec)];
        pair([f.fc(), f.ec()], plain)
    }

    fn open(&mut self) -> Answers {
        let address = self.address();
        let port = if self.random.once_in(8) { self.random.below(300) } else { 1 + self.random.below(12) };
        let code = if self.random.once_in(20) { self.random.below(20) } else { self.random.below(5) };
        let sink = if self.random.once_in(30) { self.random.word() } else { self.random.flag() };
        let interrupt = if self.random.once_in(20) { self.random.word() } else { self.random.below(8) };
        let limit = if self.random.once_in(4) { self.random.word() } else { self.random.below(5) };
        let got = self.ours.lent().open(address, port, code, sink, interrupt, limit);
        let refusal = match sink {
            0 | 1 => plain::open(&mut self.plain, address, port, code, sink == 1, interrupt, limit),
            _ => away(&self.plain),
        };
        self.refusal(refusal);
        pair(got, refusal)
    }

    fn close(&mut self) -> Answers {
        let address = self.address();
        let got = self.ours.lent().close(address);
        let refusal = plain::close(&mut self.plain, address);
        self.refusal(refusal);
        pair(got, refusal)
    }

    fn write(&mut self) -> Answers {
        let address = self.address();
        let port = self.plain.index.get(address as usize).copied().unwrap_or(0) as usize;
        let code = self.plain.ports.get(WORDS * port).copied().unwrap_or(0) >> 12;
        let size = if self.random.once_in(8) { self.random.below(40) as usize } else { plain::slave_size(code).unwrap_or(3) };
        let words: Vec<u16> = (0..size).map(|_| self.random.word()).collect();
        let got = self.ours.lent().write(address, &words);
        let refusal = plain::write(&mut self.plain, address, &words);
        self.see("writes", refusal == 0);
        self.refusal(refusal);
        pair(got, refusal)
    }

    fn ask(&mut self) -> Answers {
        let address = self.address();
        let plain = sides::asked(plain::ask(self.plain.tables(), address));
        self.see("asked without pages", plain.refusal == 0 && self.plain.test_lengths().is_err());
        self.see("never", plain == ours::Number { refusal: 0, value: 0 });
        self.see("good", plain.value == 1);
        self.see("held", plain.value == 2);
        self.see("stale", plain.value == 3);
        self.refusal(plain.refusal);
        pair(self.ours.lent().ask(address), plain)
    }

    /// The library answers a number too: 1 where an area has another length, else what asking answers.
    fn fetch(&mut self) -> Answers {
        let address = self.address();
        let words = plain::fetch(&self.plain, address);
        let asked = sides::asked(plain::ask(self.plain.tables(), address)).refusal;
        let refusal = if self.plain.test_lengths().is_err() { 1 } else { asked };
        let mut plain = ours::Fetched { refusal, size: words.len() as u16, words: [0; 16] };
        plain.words[..words.len()].copy_from_slice(&words);
        self.see("fetched", !words.is_empty());
        pair(self.ours.lent().fetch(address), plain)
    }

    fn checks(&mut self) -> Answers {
        let words: Vec<u16> = (0..self.random.below(19)).map(|_| self.random.word()).collect();
        let mut plain = ours::Checks::default();
        if words.len() <= 16 {
            let bytes = plain::check_bytes(&words);
            plain.count = bytes.len() as u16;
            plain.bytes[..bytes.len()].copy_from_slice(&bytes);
        }
        pair(ours::checks(&words), plain)
    }

    /// A word of the index table or of the port words changed on both sides, as damage would.
    fn poke(&mut self) -> Answers {
        let port = WORDS * self.random.one_of(&[0, 1, 2, 3, 4, 5, 6, 7, 8, 9, 10, 11, 12, 255]);
        let edge = self.random.one_of(&[0, 1, 7, 8, 255, 256, 511, 512]);
        let (index, at, value) = match self.random.below(7) {
            0 => (true, self.random.one_of(&crate::ADDRESSES) as usize, edge),
            1 => (true, self.random.one_of(&crate::ADDRESSES) as usize, self.random.word()),
            2 => (false, port + 2, edge),
            3 => (false, port + self.random.below(WORDS as u16) as usize, self.random.word()),
            4 => (false, port + AGE, self.random.one_of(&[0, 1, 65_490, 65_534, 65_535])),
            _ => {
                let at = port + self.random.below(3) as usize;
                (false, at, self.plain.ports[at] ^ 1 << self.random.below(16))
            }
        };
        if index {
            (self.ours.index[at], self.plain.index[at]) = (value, value);
        } else {
            (self.ours.ports[at], self.plain.ports[at]) = (value, value);
        }
        pair((), ())
    }

    /// Cleared areas, so that a run does not end in damage alone.
    fn mend(&mut self) -> Answers {
        self.ours = sides::Memory::cleared();
        self.plain = plain::Areas::zero();
        pair((), ())
    }

    /// Another controller of ours on both sides, near its deadlines and the ends of its counts.
    fn jump(&mut self) -> Answers {
        let f = self.any_controller();
        self.flat = f;
        self.controller = sides::controller(&f).expect("any_controller makes controllers of ours");
        pair((), ())
    }

    fn reset(&mut self) -> Answers {
        self.flat = ours::Controller::reset();
        self.controller = plain::Controller::fresh();
        pair(self.flat, sides::flat(&self.controller))
    }

    /// A call with a controller that may be none of ours.
    fn stranger(&mut self) -> Answers {
        let any = self.any_controller();
        let f = self.changed(any);
        self.see("strangers", sides::controller(&f).is_none());
        match self.random.below(6) {
            0 | 1 => self.hear(f),
            2 => self.quiet(f),
            3 => self.setting(f),
            4 => self.group(f),
            _ => if self.random.flag() == 1 { self.line(f) } else { self.counts(f) },
        }
    }

    fn call(&mut self, name: &str) -> Answers {
        let f = self.flat;
        match name {
            "hear" => self.hear(f),
            "quiet" => self.quiet(f),
            "write" => self.write(),
            "ask" => self.ask(),
            "fetch" => self.fetch(),
            "open" => self.open(),
            "close" => self.close(),
            "group" => self.group(f),
            "line" => self.line(f),
            "setting" => self.setting(f),
            "counts" => self.counts(f),
            "checks" => self.checks(),
            "reset" => self.reset(),
            "poke" => self.poke(),
            "jump" => self.jump(),
            "mend" => self.mend(),
            _ => self.stranger(),
        }
    }

    /// One call on both sides, now and then with an area of another length; what differs, if anything does.
    pub fn step(&mut self) -> Option<String> {
        let mut draw = self.random.below(crate::CALLS.iter().map(|(_, often)| often).sum());
        let name = crate::CALLS.iter().find(|(_, often)| draw < *often || { draw -= often; false }).expect("a call").0;
        *self.made.entry(name).or_insert(0) += 1;
        let often = if matches!(name, "ask" | "fetch") { 8 } else { 64 };
        let whole = (self.random.once_in(often) && !matches!(name, "poke" | "mend")).then(|| self.ours.clone());
        if whole.is_some() {
            self.cut();
        }
        let (got, expected) = self.call(name);
        let alike = sides::same_areas(&self.ours, &self.plain);
        let told = self.flat == sides::flat(&self.controller);
        if let Some(areas) = whole {
            self.plain = sides::areas(&areas);
            self.ours = areas;
        }
        let differs = got != expected || !alike || !told;
        differs.then(|| format!("{name}: library {got}, reference {expected}, areas alike: {alike}, controllers alike: {told}"))
    }

    /// One area of both sides gets another length.
    fn cut(&mut self) {
        let which = self.random.below(4);
        let longer = self.random.flag() == 1;
        let less = self.random.one_of(&[1, 2, 1000]) as usize;
        let (ours, plain) = (&mut self.ours, &mut self.plain);
        for area in [
            [&mut ours.index, &mut ours.ports, &mut ours.page0, &mut ours.page1],
            [&mut plain.index, &mut plain.ports, &mut plain.page0, &mut plain.page1],
        ] {
            let area = area.into_iter().nth(which as usize).expect("four areas");
            let length = if longer { area.len() + less } else { area.len() - less };
            area.resize(length, 0);
        }
    }
}
