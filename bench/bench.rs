//! How long the library's calls take, beside the plain reference in the same run; and beside its peer, whose check bytes come from a table and
//! whose quiet time goes from deadline to deadline, where frames are checked or time passes. `bench.sh` builds and runs it. With four words, as
//! `checks peer 16 1000` or `exchange library 1 1000`, it makes the calls of one side alone, so many times, and prints nothing:
//! `instructions.sh` has them counted.

#[path = "../firmware/tolvendrum.rs"]
mod tolvendrum;
#[allow(dead_code)]
mod sides;
mod reference_world {
    use super::{black_box, ours, used, Port};
    use reference as plain;
    include!("world.rs");
}
mod peer_world {
    use super::{black_box, ours, used, Port};
    use peer as plain;
    include!("world.rs");
}

use reference as plain;
use std::hint::black_box;
use std::sync::OnceLock;
use std::time::Instant;
use tolvendrum as ours;

/// No call may take more than this times the reference's time, and no check bytes and no quiet time more than this times the peer's.
const BAR: f64 = 1.25;
/// The time of a quiet must not depend on its number: 65,535 bit times may take this times what 2,131 take, which meet the bus timeout and
/// a line timeout, each for the first time.
const QUIET_BAR: f64 = 1.25;
const FIRST_DEADLINES: u32 = 2_131;
/// A bit time at 1.5 Mbit/s, in nanoseconds.
const BIT: f64 = 1e9 / 1.5e6;
const ROUNDS: usize = 15;

/// The address, the F-code and the side (1: sink) of a port, whose number is its address.
type Port = (u16, u16, u16);
/// Sinks of 1 and 16 words, and a source of 16 words.
const PORTS: [Port; 3] = [(1, 0, 1), (2, 4, 1), (SOURCE, 4, 0)];
const SOURCE: u16 = 3;

/// The sides by their place in what is measured.
const SIDES: [&str; 3] = ["library", "reference", "peer"];
/// Where one side's calls are to be made alone: which, and how many.
static ALONE: OnceLock<(usize, usize)> = OnceLock::new();

/// Keeps a call from being left out because nobody looks at its answer.
fn used<T>(answer: T) {
    black_box(answer);
}

/// Bit times of a frame on the bus: a start bit, a delimiter of eight, the words, and a check byte for each four words.
fn bit_times(words: usize) -> f64 {
    (9 + 16 * words + 8 * words.div_ceil(4)) as f64
}

type Work<'a> = Box<dyn FnMut(usize) + 'a>;

/// The work so many times, in a loop that is compiled with it.
fn again<'a>(mut work: impl FnMut() + 'a) -> Work<'a> {
    Box::new(move |calls| {
        for _ in 0..calls {
            work();
        }
    })
}

/// Nanoseconds for each call of every side: the fastest of some rounds, taken in turns so that all meet the same machine.
fn measure<const N: usize>(calls: usize, mut sides: [Work; N]) -> [f64; N] {
    if let Some(&(side, calls)) = ALONE.get() {
        sides[side](calls);
        return [0.0; N];
    }
    let mut least = [f64::INFINITY; N];
    for _ in 0..ROUNDS {
        for (time, work) in least.iter_mut().zip(&mut sides) {
            let start = Instant::now();
            work(calls);
            *time = time.min(start.elapsed().as_nanos() as f64 / calls as f64);
        }
    }
    least
}

/// Prints a row. Answers how many times the reference's time the library took, and how many times the peer's, where it was measured.
fn report<const N: usize>(name: &str, times: [f64; N], bits: f64) -> (f64, Option<f64>) {
    let (ours, plain) = (times[0], times[1]);
    let peer = times.get(2).map(|peer| ours / peer);
    let beside = times.get(2).map_or(String::new(), |peer| format!("{peer:.1} {:>7.3}", ours / peer));
    println!("{name:<40} {ours:>9.1} {plain:>11.1} {:>7.3} {beside:>16} {:>10.0}", ours / plain, bits * BIT / ours);
    (ours / plain, peer)
}

/// The peer's check bytes of a frame behind a call, as the library's are.
#[inline(never)]
fn peer_checks(words: &[u16]) -> ours::Checks {
    let mut checks = ours::Checks::default();
    if words.len() <= 16 {
        checks.count = words.len().div_ceil(4) as u16;
        for (byte, block) in checks.bytes.iter_mut().zip(words.chunks(4)) {
            *byte = peer::check_byte(block);
        }
    }
    checks
}

/// The same with the four bytes sought one by one, so that they are never in memory.
#[inline(never)]
fn peer_checks_sought(words: &[u16]) -> ours::Checks {
    if words.len() > 16 {
        return ours::Checks::default();
    }
    let byte = |k: usize| words.chunks(4).nth(k).map_or(0, peer::check_byte);
    ours::Checks { count: words.len().div_ceil(4) as u16, bytes: [byte(0), byte(1), byte(2), byte(3)] }
}

fn check_bytes(calls: usize, size: usize, peer_checks: fn(&[u16]) -> ours::Checks) -> [f64; 3] {
    let words = &words(size)[..];
    assert_eq!(ours::checks(words), peer_checks(words));
    measure(
        calls,
        [
            again(|| used(ours::checks(black_box(words)))),
            again(|| used(plain::check_bytes(black_box(words)))),
            again(|| used(peer_checks(black_box(words)))),
        ],
    )
}

fn words(size: usize) -> Vec<u16> {
    (1..=size as u16).map(|i| i * 4099).collect()
}

fn frame(kind: u16, words: &[u16]) -> ours::Hearing {
    let checks = plain::check_bytes(words);
    let mut h = ours::Hearing { kind, size: words.len() as u16, ends: checks.len() as u16, ..Default::default() };
    h.words[..words.len()].copy_from_slice(words);
    h.checks[..checks.len()].copy_from_slice(&checks);
    h
}

/// The three sides with the same ports, the source filled.
struct Sides {
    m: sides::Memory,
    c: ours::Controller,
    plain: reference_world::World,
    peer: peer_world::World,
}

impl Sides {
    fn new() -> Sides {
        let words = words(16);
        let mut m = sides::Memory::cleared();
        for (address, code, sink) in PORTS {
            assert_eq!(m.lent().open(address, address, code, sink, 1, 0), 0);
        }
        assert_eq!(m.lent().write(SOURCE, &words), 0);
        let (plain, peer) = (reference_world::World::new(&PORTS, SOURCE, &words), peer_world::World::new(&PORTS, SOURCE, &words));
        Sides { m, c: ours::Controller::reset(), plain, peer }
    }

    /// A master frame and the slave frame that answers it, both heard on both lines and taken by port p.
    fn exchange(&mut self, calls: usize, p: Port, size: usize) -> [f64; 3] {
        let (asked, words) = ([p.1 << 12 | p.0], words(size));
        let (master, slave) = (frame(ours::MASTER, &asked), frame(ours::SLAVE, &words));
        let plain_frames = [reference_world::frame(ours::MASTER, &asked), reference_world::frame(ours::SLAVE, &words)];
        let peer_frames = [peer_world::frame(ours::MASTER, &asked), peer_world::frame(ours::SLAVE, &words)];
        let (m, plain, peer) = (&mut self.m.lent(), &mut self.plain, &mut self.peer);
        let mut c = self.c;
        measure(
            calls,
            [
                again(|| {
                    c = m.hear(c, black_box(master), black_box(master)).controller;
                    c = m.hear(c, black_box(slave), black_box(slave)).controller;
                }),
                again(|| plain_frames.iter().for_each(|heard| plain.hear(heard))),
                again(|| peer_frames.iter().for_each(|heard| peer.hear(heard))),
            ],
        )
    }

    fn reply(&mut self, calls: usize) -> [f64; 3] {
        let asked = [4 << 12 | SOURCE];
        let master = frame(ours::MASTER, &asked);
        let (plain_master, peer_master) = (reference_world::frame(ours::MASTER, &asked), peer_world::frame(ours::MASTER, &asked));
        let (m, c, plain, peer) = (&mut self.m.lent(), self.c, &mut self.plain, &mut self.peer);
        assert_eq!(m.hear(c, master, master).reply.size, 16);
        measure(
            calls,
            [
                again(|| used(m.hear(c, black_box(master), black_box(master)))),
                again(|| plain.hear(&plain_master)),
                again(|| peer.hear(&peer_master)),
            ],
        )
    }

    /// Quiet time after a reset, each time anew; all three across the library's boundary.
    fn quiet(&mut self, calls: usize, n: u32) -> [f64; 3] {
        let (m, plain, peer, c) = (&mut self.m.lent(), &mut self.plain.areas, &mut self.peer.areas, self.c);
        measure(
            calls,
            [
                again(|| used(m.quiet(black_box(c), black_box(n)))),
                again(|| used(reference_world::quiet_across(plain, black_box(c), black_box(n)))),
                again(|| used(peer_world::quiet_across(peer, black_box(c), black_box(n)))),
            ],
        )
    }

    /// With every port an open sink.
    fn full() -> Sides {
        let mut s = Sides::new();
        for port in (1..256).filter(|port| PORTS.iter().all(|p| p.0 != *port)) {
            assert_eq!(s.m.lent().open(port, port, 0, 1, 0, 0), 0);
            assert_eq!(plain::open(&mut s.plain.areas, port, port, 0, true, 0, 0), 0);
            assert_eq!(peer::open(&mut s.peer.areas, port, port, 0, true, 0, 0), 0);
        }
        s
    }

    /// Quiet time on quiet time: each call has to wait for the controller that the one before it hands back.
    fn quiet_on(&mut self, calls: usize, n: u32) -> [f64; 3] {
        let (m, plain, peer) = (&mut self.m.lent(), &mut self.plain.areas, &mut self.peer.areas);
        let (mut c, mut rc, mut pc) = (self.c, self.c, self.c);
        measure(
            calls,
            [
                again(|| c = m.quiet(c, black_box(n)).controller),
                again(|| rc = reference_world::quiet_across(plain, rc, black_box(n)).controller),
                again(|| pc = peer_world::quiet_across(peer, pc, black_box(n)).controller),
            ],
        )
    }

    /// The same with the two others in place.
    fn quiet_in_place(&mut self, calls: usize, n: u32) -> [f64; 3] {
        let (m, plain, peer) = (&mut self.m.lent(), &mut self.plain, &mut self.peer);
        let mut c = self.c;
        measure(
            calls,
            [
                again(|| c = m.quiet(c, black_box(n)).controller),
                again(|| used(plain::quiet(&mut plain.controller, &mut plain.areas, black_box(n)))),
                again(|| used(peer::quiet(&mut peer.controller, &mut peer.areas, black_box(n)))),
            ],
        )
    }

    /// What a controller's way in, its test and its way out take: clearing EC does nothing else.
    fn crossing(&self, calls: usize) -> f64 {
        let c = self.c;
        measure(calls, [again(|| used(black_box(c).clear_ec()))])[0]
    }

    fn read(&mut self, calls: usize) -> [f64; 2] {
        let (m, areas) = (&self.m.lent(), &self.plain.areas);
        measure(
            calls,
            [
                again(|| {
                    black_box(m.ask(black_box(SOURCE)));
                    black_box(m.fetch(black_box(SOURCE)));
                }),
                again(|| {
                    black_box(plain::ask(areas.tables(), black_box(SOURCE)));
                    black_box(plain::fetch(areas, black_box(SOURCE)));
                }),
            ],
        )
    }
}

/// One side's calls alone: `ROW SIDE WORDS CALLS`, the row checks, sought, exchange or reply; or `quiet SIDE BIT-TIMES CALLS`.
fn alone(words: &[String]) {
    let number = |at: usize| words[at].parse::<usize>().expect("a number");
    let side = SIDES.iter().position(|name| *name == words[1]).expect("a side");
    ALONE.set((side, number(3))).expect("set once");
    let (size, mut s) = (number(2), Sides::new());
    match &words[0][..] {
        "checks" => check_bytes(0, size, peer_checks),
        "sought" => check_bytes(0, size, peer_checks_sought),
        "exchange" => s.exchange(0, PORTS[if size == 1 { 0 } else { 1 }], size),
        "reply" => s.reply(0),
        "quiet" => s.quiet(0, size as u32),
        row => panic!("no row {row}"),
    };
}

fn main() {
    let given: Vec<String> = std::env::args().skip(1).collect();
    if given.len() == 4 {
        return alone(&given);
    }
    let mut s = Sides::new();
    println!("{:<40} {:>9} {:>11} {:>7} {:>8} {:>7} {:>10}", "ns for each", "library", "reference", "ratio", "peer", "ratio", "real time");
    let (one, four, sixteen) = (bit_times(1), bit_times(4), bit_times(16));
    let (first, long) = (s.quiet(10_000, FIRST_DEADLINES), s.quiet(1_000, 65_535));
    let checks = [
        report("check bytes, 1 word", check_bytes(200_000, 1, peer_checks), one),
        report("check bytes, 4 words", check_bytes(100_000, 4, peer_checks), four),
        report("check bytes, 16 words", check_bytes(20_000, 16, peer_checks), sixteen),
    ];
    report("check bytes, 1 word, sought one by one", check_bytes(200_000, 1, peer_checks_sought), one);
    report("check bytes, 4 words, sought one by one", check_bytes(100_000, 4, peer_checks_sought), four);
    report("check bytes, 16 words, sought one by one", check_bytes(20_000, 16, peer_checks_sought), sixteen);
    let others = [
        report("master and slave frame, 1 word", s.exchange(20_000, PORTS[0], 1), one + one),
        report("master and slave frame, 16 words", s.exchange(10_000, PORTS[1], 16), one + sixteen),
        report("master frame and reply, 16 words", s.reply(10_000), one + sixteen),
        report("ask and fetch, 16 words", s.read(100_000), one + sixteen),
    ];
    let quiets = [
        report("quiet, 1 bit time", s.quiet(100_000, 1), 1.0),
        report("quiet, 1,499 bit times", s.quiet(10_000, 1_499), 1_499.0),
        report("quiet, 1,500 bit times", s.quiet(10_000, 1_500), 1_500.0),
        report("quiet, 1,500 bit times, 255 ports", Sides::full().quiet(10_000, 1_500), 1_500.0),
        report("quiet, 2,131 bit times", first, FIRST_DEADLINES as f64),
        report("quiet, 65,535 bit times", long, 65_535.0),
        report("quiet of 1 on quiet of 1", s.quiet_on(100_000, 1), 1.0),
    ];
    report("quiet of 1 on quiet of 1, others in place", s.quiet_in_place(100_000, 1), 1.0);
    println!("of each call with a controller, its way in and out takes {:.1} ns (clearing EC)", s.crossing(100_000));
    let worst = checks.iter().chain(&others).chain(&quiets).map(|ratios| ratios.0).fold(0.0, f64::max);
    let beside = checks.iter().filter_map(|ratios| ratios.1).fold(0.0, f64::max);
    let quietly = quiets.iter().filter_map(|ratios| ratios.1).fold(0.0, f64::max);
    let growth = long[0] / first[0];
    println!("worst ratio {worst:.3}, of check bytes to the peer's {beside:.3}, of quiet time to the peer's {quietly:.3} (bar {BAR})");
    println!("quiet of 65,535 takes {growth:.2} times quiet of 2,131 (bar {QUIET_BAR})");
    if worst > BAR || beside > BAR || quietly > BAR || growth > QUIET_BAR {
        println!("over the bar");
        std::process::exit(1);
    }
}
