//! The bus controller for Rust: what tolvendrum.h declares, with its layouts and its words on each call. It needs `core` alone: what is kept
//! between calls is the caller's, and the four areas are lent as slices.
//!
//! Each call answers the library's own struct of numbers; `accepted`, `state` and `words` make a `Result` of it.
#![allow(dead_code)]

macro_rules! flat {
    ($($(#[$words:meta])* $name:ident { $($(#[$note:meta])* $field:ident : $type:ty),* $(,)? } $size:literal)*) => { $(
        $(#[$words])*
        #[repr(C)]
        #[derive(Clone, Copy, PartialEq, Debug, Default)]
        pub struct $name { $($(#[$note])* pub $field: $type),* }
        const _: () = assert!(core::mem::size_of::<$name>() == $size);
    )* };
}

// from the crates: structs
flat! {
    /// The exchange on the bus.
    Exchange {
        /// 0 idle, 1 waiting, 2 done
        stage: u16,
        /// the master word that is waited for, else 0
        word: u16,
    } 4
    /// Times, in bit times.
    Times {
        /// since the last sound master frame or reset, counted up to 1950
        since: u16,
        /// the line count, below 2130
        line: u16,
        /// the reply time that the host chose
        chosen: u16,
        /// the reply time that the last sound master frame adopted
        adopted: u16,
    } 8
    /// The two lines, each flag 0 or 1.
    Lines {
        /// line A active: 1 where line A is trusted, 0 where line B is
        laa: u16,
        /// redundant line disturbed: set by a failure, cleared by a status poll to us
        rld: u16,
        /// a line switch is filed
        ls: u16,
        /// single line mode: no rule switches or sets RLD
        slm: u16,
    } 8
    /// Counts of frames.
    Counts {
        /// judged frames, modulo 65,536
        fc: u16,
        /// unsound ones, up to 65,535
        ec: u16,
    } 4
    /// An interrupt group. Its unused bits are zero, and nothing is pending unless it is frozen.
    Group {
        /// bits raised while it is frozen
        pending: u16,
        /// 1 lets a bit through
        mask: u16,
        /// bits to be served
        status: u16,
        /// 0 or 1
        frozen: u16,
    } 8
    /// Our device on the bus.
    Device {
        /// the device address, 0 to 4095
        address: u16,
        /// 1 once the host has set a status word
        set: u16,
        /// the status word, 0 unless set
        status: u16,
    } 6
    /// The controller. No struct in it lies across a multiple of four words, so that a machine that copies the controller moves each whole.
    Controller {
        exchange: Exchange,
        counts: Counts,
        times: Times,
        lines: Lines,
        group0: Group,
        group1: Group,
        device: Device,
        /// quiet bit times of the millisecond that runs, below 1500
        phase: u16,
    } 48
    /// What one line heard in an event. In silence and in noise the rest says nothing, but is tested.
    Hearing {
        /// 0 silence, 1 noise, 2 master frame, 3 slave frame
        kind: u16,
        words: [u16; 16],
        /// how many words, 0 to 16
        size: u16,
        checks: [u8; 4],
        /// how many check bytes, 0 to 4
        ends: u16,
        /// the three quality marks, each 0 or 1
        sqe: u16,
        violation: u16,
        alo: u16,
    } 48
    /// What a bus event and quiet time answer.
    Answered {
        controller: Controller,
        refusal: u16,
        /// the slave frame that we send, or silence
        reply: Hearing,
    } 98
    /// What a setting answers.
    Told {
        controller: Controller,
        refusal: u16,
    } 50
    /// What a call on an interrupt group answers.
    Reading {
        controller: Controller,
        refusal: u16,
        /// what was read; 0 by a write
        value: u16,
    } 52
    /// A number that was asked for.
    Number {
        refusal: u16,
        /// 0 where refused
        value: u16,
    } 4
    /// The words of a port.
    Fetched {
        refusal: u16,
        /// how many words; 0 where refused, or never filled
        size: u16,
        /// zeros after them
        words: [u16; 16],
    } 36
    /// The check bytes of a frame.
    Checks {
        /// how many; 0 for no words or more than 16
        count: u16,
        /// zeros after them
        bytes: [u8; 4],
    } 6
}
// end

// from the crates: numbers
pub const AREA: u16 = 1;
pub const RANGE: u16 = 2;
pub const NOPORT: u16 = 3;
pub const TAKEN: u16 = 4;
pub const SIDE: u16 = 5;
pub const DAMAGED: u16 = 6;

pub const INDEX_LENGTH: usize = 4096;
pub const PORTS_LENGTH: usize = 2048;
pub const PAGE_LENGTH: usize = 4096;

/// A port has so many words of `ports`, one port after the other: its master word, its flags, its transfer interrupt, its fills, its limit
/// and its age in milliseconds, and two that are zero.
pub const PORT_WORDS: usize = 8;

/// A millisecond in quiet bit times, at 1.5 Mbit/s.
pub const MILLISECOND: u32 = 1500;

/// The bits of a port's flags, the second of its words: the valid page, whether it was ever filled, its side, and the status bits.
/// The last four say which blocks of an unsound reply had a wrong check byte, if its counts were right; CRC is set exactly if one is.
pub mod port {
    pub const VP: u16 = 0x0001;
    pub const EVER: u16 = 0x0002;
    pub const SRC: u16 = 0x0004;
    pub const SINK: u16 = 0x0008;
    pub const STO: u16 = 0x0010;
    pub const TERR: u16 = 0x0020;
    pub const CRC: u16 = 0x0040;
    pub const SQE: u16 = 0x0080;
    pub const ALO: u16 = 0x0100;
    pub const FIRST_BLOCK: u16 = 0x0200;
    pub const SECOND_BLOCK: u16 = 0x0400;
    pub const THIRD_BLOCK: u16 = 0x0800;
    pub const FOURTH_BLOCK: u16 = 0x1000;
}

/// The bits of a status reply that are ours, whatever the host set there: LAA and RLD as they are before the poll switches the line and
/// clears RLD; an RLD that the poll itself sets is told. Each other bit is that of the status word.
pub const STATUS_LAA: u16 = 0x0080;
pub const STATUS_RLD: u16 = 0x0040;
// end

// from the crates: bits
/// The bits of interrupt group 0; reading the vector gives 256 + the number of a bit.
pub mod group0 {
    pub const EMF: u16 = 0x8000;
    pub const ESF: u16 = 0x4000;
    pub const DMF: u16 = 0x2000;
    pub const DSF: u16 = 0x1000;
    pub const AMFX: u16 = 0x0800;
    pub const MFC: u16 = 0x0400;
    pub const SFC: u16 = 0x0200;
    pub const RTI: u16 = 0x0100;
    pub const BTI: u16 = 0x0080;
    pub const DTI7: u16 = 0x0040;
    pub const DTI6: u16 = 0x0020;
    pub const DTI5: u16 = 0x0010;
    pub const DTI4: u16 = 0x0008;
    pub const DTI3: u16 = 0x0004;
    pub const DTI2: u16 = 0x0002;
    pub const DTI1: u16 = 0x0001;
}
/// The bits of interrupt group 1; reading the vector gives 256 + the number of a bit.
pub mod group1 {
    pub const TI2: u16 = 0x8000;
    pub const XI3: u16 = 0x4000;
    pub const XI2: u16 = 0x2000;
    pub const XQE: u16 = 0x1000;
    pub const RQE: u16 = 0x0800;
    pub const XQ1C: u16 = 0x0400;
    pub const XQ0C: u16 = 0x0200;
    pub const RQC: u16 = 0x0100;
    pub const FEV: u16 = 0x0080;
    pub const TI1: u16 = 0x0004;
    pub const XI1: u16 = 0x0002;
    pub const XI0: u16 = 0x0001;
}
// end

/// The sides of a port, as opening takes them.
pub const SOURCE: u16 = 0;
pub const SINK: u16 = 1;

/// What a line heard.
pub const SILENCE: u16 = 0;
pub const NOISE: u16 = 1;
pub const MASTER: u16 = 2;
pub const SLAVE: u16 = 3;

#[rustfmt::skip]
extern "C" {
    fn tolvendrum_open(i: *mut u16, il: usize, p: *mut u16, pl: usize, z: *const u16, zl: usize, o: *const u16, ol: usize,
        address: u16, port: u16, code: u16, sink: u16, interrupt: u16, limit: u16) -> u16;
    fn tolvendrum_close(i: *mut u16, il: usize, p: *mut u16, pl: usize, z: *const u16, zl: usize, o: *const u16, ol: usize,
        address: u16) -> u16;
    fn tolvendrum_write(i: *const u16, il: usize, p: *mut u16, pl: usize, z: *mut u16, zl: usize, o: *mut u16, ol: usize,
        address: u16, words: *const u16, length: usize) -> u16;
    fn tolvendrum_ask(i: *const u16, il: usize, p: *const u16, pl: usize, address: u16) -> Number;
    fn tolvendrum_fetch(i: *const u16, il: usize, p: *const u16, pl: usize, z: *const u16, zl: usize, o: *const u16, ol: usize,
        address: u16) -> Fetched;
    fn tolvendrum_hear(i: *const u16, il: usize, p: *mut u16, pl: usize, z: *mut u16, zl: usize, o: *mut u16, ol: usize,
        c: Controller, a: Hearing, b: Hearing) -> Answered;
    fn tolvendrum_quiet(i: *const u16, il: usize, p: *mut u16, pl: usize, z: *const u16, zl: usize, o: *const u16, ol: usize,
        c: Controller, bit_times: u32) -> Answered;
    fn tolvendrum_checks(words: *const u16, length: usize) -> Checks;
    fn tolvendrum_reset() -> Controller;
    fn tolvendrum_set_address(c: Controller, address: u16) -> Told;
    fn tolvendrum_set_status(c: Controller, word: u16) -> Told;
    fn tolvendrum_set_reply_time(c: Controller, time: u16) -> Told;
    fn tolvendrum_set_slm(c: Controller, on: u16) -> Told;
    fn tolvendrum_set_ls(c: Controller, on: u16) -> Told;
    fn tolvendrum_clear_ec(c: Controller) -> Told;
    fn tolvendrum_fc(c: Controller) -> Number;
    fn tolvendrum_ec(c: Controller) -> Number;
    fn tolvendrum_read_status(c: Controller, group: u16) -> Reading;
    fn tolvendrum_read_vector(c: Controller, group: u16) -> Reading;
    fn tolvendrum_write_status(c: Controller, group: u16, value: u16) -> Reading;
    fn tolvendrum_write_vector(c: Controller, group: u16) -> Reading;
    fn tolvendrum_write_pending(c: Controller, group: u16, value: u16) -> Reading;
    fn tolvendrum_write_mask(c: Controller, group: u16, value: u16) -> Reading;
    fn tolvendrum_line(c: Controller, group: u16) -> Number;
}

/// A refusal, by document 01's number.
#[derive(Clone, Copy, PartialEq, Eq, Debug)]
pub enum Refusal {
    Area = AREA as isize,
    Range = RANGE as isize,
    NoPort = NOPORT as isize,
    Taken = TAKEN as isize,
    Side = SIDE as isize,
    Damaged = DAMAGED as isize,
}

/// What a number of a refusal says; 0 is none.
pub fn accepted(number: u16) -> Result<(), Refusal> {
    Err(match number {
        0 => return Ok(()),
        AREA => Refusal::Area,
        RANGE => Refusal::Range,
        NOPORT => Refusal::NoPort,
        TAKEN => Refusal::Taken,
        SIDE => Refusal::Side,
        _ => Refusal::Damaged,
    })
}

/// What asking answers of a port.
#[derive(Clone, Copy, PartialEq, Eq, Debug)]
pub enum State {
    Never,
    Good,
    Held,
    Stale,
}

impl Answered {
    /// The controller afterwards, and the slave frame that we send, if we do.
    pub fn accepted(self) -> Result<(Controller, Option<Hearing>), Refusal> {
        accepted(self.refusal).map(|()| (self.controller, (self.reply.kind == SLAVE).then_some(self.reply)))
    }
}

impl Told {
    pub fn accepted(self) -> Result<Controller, Refusal> {
        accepted(self.refusal).map(|()| self.controller)
    }
}

impl Reading {
    /// The controller afterwards, and what was read.
    pub fn accepted(self) -> Result<(Controller, u16), Refusal> {
        accepted(self.refusal).map(|()| (self.controller, self.value))
    }
}

impl Number {
    pub fn accepted(self) -> Result<u16, Refusal> {
        accepted(self.refusal).map(|()| self.value)
    }

    /// The state that was asked for.
    pub fn state(self) -> Result<State, Refusal> {
        self.accepted().map(|value| [State::Never, State::Good, State::Held, State::Stale][value as usize])
    }
}

impl Fetched {
    /// The words of the port; none where it was never filled.
    pub fn words(&self) -> Result<&[u16], Refusal> {
        accepted(self.refusal).map(|()| &self.words[..self.size as usize])
    }
}

/// The four areas as they are lent, of any length: a call answers 1 where one that it is lent has another length than its own; asking is lent
/// the first two. To begin with all words are zero.
pub struct Areas<'a> {
    pub index: &'a mut [u16],
    pub ports: &'a mut [u16],
    pub page0: &'a mut [u16],
    pub page1: &'a mut [u16],
}

macro_rules! lend {
    (mut $v:expr) => { ($v.as_mut_ptr(), $v.len()) };
    ($v:expr) => { ($v.as_ptr(), $v.len()) };
}

// SAFETY of the calls: each pointer is lent with the length of its own slice, and the four areas are borrowed apart.
impl Areas<'_> {
    /// The limit is in milliseconds; 0 is not supervised.
    pub fn open(&mut self, address: u16, port: u16, code: u16, sink: u16, interrupt: u16, limit: u16) -> u16 {
        let ((i, il), (p, pl), (z, zl), (o, ol)) = (lend!(mut self.index), lend!(mut self.ports), lend!(self.page0), lend!(self.page1));
        unsafe { tolvendrum_open(i, il, p, pl, z, zl, o, ol, address, port, code, sink, interrupt, limit) }
    }

    pub fn close(&mut self, address: u16) -> u16 {
        let ((i, il), (p, pl), (z, zl), (o, ol)) = (lend!(mut self.index), lend!(mut self.ports), lend!(self.page0), lend!(self.page1));
        unsafe { tolvendrum_close(i, il, p, pl, z, zl, o, ol, address) }
    }

    pub fn write(&mut self, address: u16, words: &[u16]) -> u16 {
        let ((i, il), (p, pl), (z, zl), (o, ol)) =
            (lend!(self.index), lend!(mut self.ports), lend!(mut self.page0), lend!(mut self.page1));
        unsafe { tolvendrum_write(i, il, p, pl, z, zl, o, ol, address, words.as_ptr(), words.len()) }
    }

    /// By the index table and the port words alone, as `ask` does.
    pub fn ask(&self, address: u16) -> Number {
        ask(self.index, self.ports, address)
    }

    pub fn fetch(&self, address: u16) -> Fetched {
        let ((i, il), (p, pl), (z, zl), (o, ol)) = (lend!(self.index), lend!(self.ports), lend!(self.page0), lend!(self.page1));
        unsafe { tolvendrum_fetch(i, il, p, pl, z, zl, o, ol, address) }
    }

    pub fn hear(&mut self, c: Controller, a: Hearing, b: Hearing) -> Answered {
        let ((i, il), (p, pl), (z, zl), (o, ol)) =
            (lend!(self.index), lend!(mut self.ports), lend!(mut self.page0), lend!(mut self.page1));
        unsafe { tolvendrum_hear(i, il, p, pl, z, zl, o, ol, c, a, b) }
    }

    pub fn quiet(&mut self, c: Controller, bit_times: u32) -> Answered {
        let ((i, il), (p, pl), (z, zl), (o, ol)) = (lend!(self.index), lend!(mut self.ports), lend!(self.page0), lend!(self.page1));
        unsafe { tolvendrum_quiet(i, il, p, pl, z, zl, o, ol, c, bit_times) }
    }
}

// SAFETY: each pointer is lent with the length of its own slice.
/// Asks for the state of a port where the pages are not at hand.
pub fn ask(index: &[u16], ports: &[u16], address: u16) -> Number {
    let ((i, il), (p, pl)) = (lend!(index), lend!(ports));
    unsafe { tolvendrum_ask(i, il, p, pl, address) }
}

// SAFETY: the pointer is lent with the length of its slice.
pub fn checks(words: &[u16]) -> Checks {
    unsafe { tolvendrum_checks(words.as_ptr(), words.len()) }
}

// SAFETY: these calls take and answer numbers alone.
#[rustfmt::skip]
impl Controller {
    pub fn reset() -> Controller { unsafe { tolvendrum_reset() } }
    pub fn set_address(self, address: u16) -> Told { unsafe { tolvendrum_set_address(self, address) } }
    pub fn set_status(self, word: u16) -> Told { unsafe { tolvendrum_set_status(self, word) } }
    pub fn set_reply_time(self, time: u16) -> Told { unsafe { tolvendrum_set_reply_time(self, time) } }
    pub fn set_slm(self, on: u16) -> Told { unsafe { tolvendrum_set_slm(self, on) } }
    pub fn set_ls(self, on: u16) -> Told { unsafe { tolvendrum_set_ls(self, on) } }
    pub fn clear_ec(self) -> Told { unsafe { tolvendrum_clear_ec(self) } }
    pub fn fc(self) -> Number { unsafe { tolvendrum_fc(self) } }
    pub fn ec(self) -> Number { unsafe { tolvendrum_ec(self) } }
    pub fn read_status(self, group: u16) -> Reading { unsafe { tolvendrum_read_status(self, group) } }
    pub fn read_vector(self, group: u16) -> Reading { unsafe { tolvendrum_read_vector(self, group) } }
    pub fn write_status(self, group: u16, value: u16) -> Reading { unsafe { tolvendrum_write_status(self, group, value) } }
    pub fn write_vector(self, group: u16) -> Reading { unsafe { tolvendrum_write_vector(self, group) } }
    pub fn write_pending(self, group: u16, value: u16) -> Reading { unsafe { tolvendrum_write_pending(self, group, value) } }
    pub fn write_mask(self, group: u16, value: u16) -> Reading { unsafe { tolvendrum_write_mask(self, group, value) } }
    pub fn line(self, group: u16) -> Number { unsafe { tolvendrum_line(self, group) } }
}
