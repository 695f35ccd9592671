use super::*;
use crate::refusal::RANGE;

#[test]
fn fresh() {
    let c = Controller::fresh();
    assert_eq!(c.exchange, Exchange::Idle);
    assert_eq!((c.since, c.line_count, c.fc, c.ec), (0, 0, 0, 0));
    assert_eq!((c.chosen, c.adopted), (64, 64));
    assert_eq!((c.laa, c.rld, c.ls, c.slm), (true, false, false, false));
    assert_eq!((c.device_address, c.status_word), (0, None));
    for group in &c.groups {
        assert_eq!((group.pending, group.mask, group.status, group.frozen), (0, 0, 0, false));
    }
}

#[test]
fn device_address() {
    let mut c = Controller::fresh();
    assert_eq!(c.set_address(4095), 0);
    assert_eq!(c.set_address(4096), RANGE);
    assert_eq!(c.device_address, 4095);
}

#[test]
fn reply_times() {
    let mut c = Controller::fresh();
    for time in [32, 64, 96, 128] {
        assert_eq!(c.set_reply_time(time), 0);
        assert_eq!((c.chosen, c.adopted), (time, 64));
    }
    for time in [0, 31, 33, 63, 127, 129, 160, 65_535] {
        assert_eq!(c.set_reply_time(time), RANGE);
        assert_eq!(c.chosen, 128);
    }
}

#[test]
fn the_rest_is_accepted() {
    let mut c = Controller::fresh();
    c.ec = 9;
    assert_eq!([c.set_status(0xFFFF), c.set_slm(true), c.set_ls(true), c.clear_ec()], [0; 4]);
    assert_eq!((c.status_word, c.slm, c.ls, c.ec), (Some(0xFFFF), true, true, 0));
    assert_eq!((c.set_status(0), c.set_slm(false)), (0, 0));
    assert_eq!((c.status_word, c.slm), (Some(0), false));
}

#[test]
fn reset_makes_a_fresh_controller() {
    let mut w = World::with_ports();
    w.c.set_address(77);
    w.c.set_status(5);
    w.c.set_reply_time(32);
    w.c.set_ls(true);
    w.both(master(1));
    w.quiet(5);
    w.both(bad_check(slave(&[5])));
    w.c.groups[0].read_status();
    assert_eq!(w.c.reset(), 0);
    assert_eq!(w.c, Controller::fresh());
}
