use super::*;
use crate::interrupts::*;
use crate::refusal::*;

#[test]
fn sixty_three_is_in_time_sixty_four_is_not() {
    let mut w = World::with_ports();
    w.both(master(1));
    w.quiet(63);
    w.both(slave(&[5]));
    assert_eq!((w.fills(1), w.seen()), (1, SFC | dti(3)));
    w.both(master(1));
    w.quiet(64);
    assert_eq!((w.c.exchange, w.seen()), (Exchange::Idle, RTI));
    w.lines(silence(), slave(&[6])); // line B is trusted since the timeout
    assert_eq!((w.fills(1), w.seen()), (1, SFC));
}

#[test]
fn a_timeout_gives_sto_alone() {
    for before in [SINK | STATUS_BITS, SINK | EVER | VP | TERR | CRC, SINK] {
        let mut w = World::with_ports();
        w.areas.ports[1 * WORDS + 1] = before;
        let mut expected = w.areas.clone();
        expected.ports[1 * WORDS + 1] = before & !STATUS_BITS | STO;
        w.both(master(1));
        w.quiet(64);
        assert_eq!(w.areas, expected);
        assert_eq!((w.c.fc, w.c.ec), (1, 0));
    }
}

#[test]
fn a_timeout_touches_no_source_and_no_other_f_code() {
    for word in [0x2002, 0x1001, 0x0003, 0xC001] {
        let mut w = World::with_ports();
        let areas = w.areas.clone();
        w.both(master(word));
        w.quiet(64);
        assert_eq!((w.c.exchange, w.seen()), (Exchange::Idle, RTI));
        assert_eq!(w.areas, areas);
    }
}

#[test]
fn each_reply_time_to_the_bit() {
    for time in [32u16, 64, 96, 128] {
        let mut w = World::new();
        w.c.set_reply_time(time);
        w.both(master(1));
        w.quiet(time as u32 - 1);
        assert_eq!((w.c.exchange, w.seen()), (Exchange::Waiting(1), 0));
        w.quiet(1);
        assert_eq!((w.c.exchange, w.seen()), (Exchange::Idle, RTI));
    }
}

#[test]
fn a_choice_while_waiting_waits_for_the_next_master() {
    let mut w = World::new();
    w.both(master(1));
    w.c.set_reply_time(32);
    w.quiet(63);
    assert_eq!(w.c.exchange, Exchange::Waiting(1));
    w.both(master(1));
    w.quiet(32);
    assert_eq!(w.c.exchange, Exchange::Idle);
}

#[test]
fn no_timeout_when_idle_or_done() {
    let mut w = World::with_ports();
    w.quiet(200);
    w.both(master(1));
    w.both(slave(&[5]));
    w.seen();
    w.quiet(200);
    assert_eq!((w.c.exchange, w.seen()), (Exchange::Done, 0));
}

#[test]
fn the_bus_timeout_comes_once() {
    let mut w = World::new();
    w.quiet(1949);
    assert_eq!(w.seen(), 0);
    w.quiet(1);
    assert_eq!(w.seen(), BTI);
    w.quiet(65_535);
    assert_eq!((w.seen(), w.c.since), (0, 1950));
    w.both(master(0x5000));
    w.quiet(1950);
    assert_eq!(w.seen(), BTI);
}

#[test]
fn unsound_masters_and_slaves_do_not_stop_the_bus_timeout() {
    let mut w = World::new();
    w.quiet(1000);
    w.both(bad_check(master(1)));
    w.lines(silence(), slave(&[1]));
    w.quiet(949);
    w.seen();
    w.quiet(1);
    assert_eq!(w.seen(), BTI);
}

#[test]
fn the_line_count_comes_again_and_again() {
    let mut w = World::new();
    w.quiet(2129);
    assert_eq!((w.c.laa, w.c.rld, w.c.line_count), (true, false, 2129));
    w.quiet(1);
    assert_eq!((w.c.laa, w.c.rld, w.c.line_count), (false, true, 0));
    w.quiet(2129);
    assert_eq!(w.c.laa, false);
    w.quiet(1);
    assert_eq!((w.c.laa, w.c.rld), (true, true)); // also with RLD set
}

#[test]
fn quiet_in_pieces_is_quiet_at_once() {
    let mut whole = World::with_ports();
    whole.both(master(1));
    whole.c.set_ls(true);
    let mut pieces = World { c: whole.c.clone(), areas: whole.areas.clone() };
    whole.quiet(6500);
    for _ in 0..6500 {
        pieces.quiet(1);
    }
    assert_eq!((whole.c, whole.areas), (pieces.c, pieces.areas));
}

#[test]
fn quiet_nothing_changes_nothing() {
    let mut w = World::with_ports();
    w.both(master(1));
    w.c.set_ls(true);
    let before = (w.c.clone(), w.areas.clone());
    w.quiet(0);
    assert_eq!(before, (w.c, w.areas));
}

#[test]
fn ranges_of_quiet() {
    let mut w = World::new();
    w.quiet(65_535);
    let before = w.c.clone();
    for n in [65_536, u32::MAX] {
        assert_eq!(quiet(&mut w.c, &mut w.areas, n), RANGE);
    }
    w.areas.index.pop();
    assert_eq!(quiet(&mut w.c, &mut w.areas, 65_536), AREA);
    assert_eq!(quiet(&mut w.c, &mut w.areas, 0), AREA);
    assert_eq!(before, w.c);
}

#[test]
fn damage_met_after_some_bit_times_changes_nothing() {
    for damage in [|areas: &mut Areas| areas.index[1] = 256, |areas: &mut Areas| areas.ports[1 * WORDS + 2] = 8] {
        let mut w = World::with_ports();
        w.both(master(1));
        w.quiet(3);
        damage(&mut w.areas);
        w.c.set_ls(true);
        let before = (w.c.clone(), w.areas.clone());
        assert_eq!(quiet(&mut w.c, &mut w.areas, 61), DAMAGED);
        assert_eq!(quiet(&mut w.c, &mut w.areas, 65_535), DAMAGED);
        assert_eq!(before, (w.c.clone(), w.areas.clone()));
        w.quiet(60); // not reached, not needed
        assert_eq!(quiet(&mut w.c, &mut w.areas, 1), DAMAGED);
        w.areas.index[1] = 0;
        w.quiet(1);
        assert_eq!(w.c.exchange, Exchange::Idle);
    }
}

#[test]
fn damage_is_no_matter_when_other_codes_wait() {
    let mut w = World::new();
    w.areas.index.fill(0xFFFF);
    w.both(master(0x8001));
    w.quiet(5000);
    assert_eq!(w.c.exchange, Exchange::Idle);
}
