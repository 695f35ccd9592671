use super::*;
use crate::interrupts::SFC;

fn lines_of(w: &World) -> (bool, bool) {
    (w.c.laa, w.c.rld)
}

#[test]
fn line_a_is_trusted_first_then_line_b() {
    let mut w = World::with_ports();
    w.lines(master(1), master(0x0FFF));
    assert_eq!(w.c.exchange, Exchange::Waiting(1));
    w.c.laa = false;
    w.lines(master(1), master(0x0FFF));
    assert_eq!(w.c.exchange, Exchange::Waiting(0x0FFF));
}

/// Rule 1 switches, and yet the other line's frame of this event is not judged.
#[test]
fn the_trusted_line_is_the_one_at_the_start() {
    let mut w = World::with_ports();
    w.both(master(1));
    w.lines(bad_check(slave(&[5])), slave(&[6]));
    assert_eq!((lines_of(&w), w.fills(1), w.c.fc), ((false, true), 0, 2));
}

#[test]
fn rule_1_unsound_master() {
    let mut w = World::new();
    w.both(bad_check(master(1)));
    assert_eq!(lines_of(&w), (false, true));
    w.both(bad_check(master(1))); // RLD set: no switch
    assert_eq!(lines_of(&w), (false, true));
}

#[test]
fn rule_1_unsound_slave_and_timeout_by_code() {
    for code in [0u16, 1, 2, 3, 4, 8, 9, 12, 13, 14, 15] {
        let acts = ![9, 13, 14].contains(&code);
        let mut w = World::new();
        w.c.set_address(0x111);
        w.both(master(code << 12 | 5));
        w.both(bad_check(slave(&[7])));
        assert_eq!((lines_of(&w), w.c.ec), ((!acts, acts), 1), "slave {code}");
        let mut w = World::new();
        w.c.set_address(0x111);
        w.both(master(code << 12 | 5));
        w.quiet(64);
        assert_eq!(lines_of(&w), (!acts, acts), "timeout {code}");
    }
}

#[test]
fn rule_1_an_unsound_master_counts_while_an_event_poll_waits() {
    for code in [9u16, 13, 14] {
        let mut w = World::new();
        w.both(master(code << 12));
        w.both(bad_check(master(code << 12)));
        assert_eq!(lines_of(&w), (false, true));
    }
}

#[test]
fn rule_1_not_for_unasked_slaves() {
    let mut w = World::new();
    w.both(bad_check(alo(slave(&[7]))));
    assert_eq!((lines_of(&w), w.seen()), ((true, false), SFC));
}

#[test]
fn rule_2_leaves_rld_set_and_switches_on() {
    let mut w = World::new();
    w.quiet(2130 * 3);
    assert_eq!(lines_of(&w), (false, true));
}

#[test]
fn rule_3_switches_only_with_rld_clear_and_clears_it() {
    let mut w = World::new();
    w.both(master(0xF000));
    assert_eq!(lines_of(&w), (false, false)); // without a status word as well
    w.c.set_status(1);
    w.both(master(0xF000));
    assert_eq!(lines_of(&w), (true, false));
    w.c.rld = true;
    w.both(master(0xF000));
    assert_eq!(lines_of(&w), (true, false));
    w.both(master(0xF001)); // not ours
    w.both(master(0xE000));
    assert_eq!(lines_of(&w), (true, false));
}

/// W-201: bit 7 is LAA and bit 6 RLD, as they are before rule 3 switches and clears.
#[test]
fn a_status_reply_tells_laa_and_rld_from_before_rule_3() {
    for word in [0x0000u16, 0x00C0, 0xFF3F, 0xFFFF, 0x1234] {
        for (laa, rld) in [(true, false), (true, true), (false, false), (false, true)] {
            let mut w = World::new();
            w.c.set_status(word);
            (w.c.laa, w.c.rld) = (laa, rld);
            let (words, _) = w.both(master(0xF000)).unwrap();
            assert_eq!((words[0] & 0xFF3F, words[0] & 0x80 != 0, words[0] & 0x40 != 0), (word & 0xFF3F, laa, rld));
            assert_eq!(lines_of(&w), (if rld { laa } else { !laa }, false));
        }
    }
}

/// Rule 4 comes before rule 3, so the reply tells of what it sets in the same event.
#[test]
fn a_status_reply_tells_an_rld_that_its_poll_sets() {
    let mut w = World::new();
    w.c.set_status(0);
    assert_eq!(w.lines(master(0xF000), silence()).unwrap().0, [0x00C0]);
    assert_eq!(lines_of(&w), (true, false));
    w.c.set_slm(true);
    assert_eq!(w.lines(master(0xF000), silence()).unwrap().0, [0x0080]);
}

#[test]
fn rule_3_not_for_an_unsound_poll() {
    let mut w = World::new();
    w.c.rld = true;
    w.both(bad_check(master(0xF000)));
    assert_eq!(lines_of(&w), (true, true));
}

#[test]
fn rule_4_by_what_the_observed_line_has() {
    let cases = [
        (silence(), true),
        (noise(), true),
        (sqe(slave(&[1])), true),
        (violation(master(1)), true),
        (alo(master(1)), false),
        (bad_check(master(1)), false),
        (slave(&[1, 2, 3]), false),
        (master(9), false),
    ];
    for (observed, sets) in cases {
        for heard in [master(1), slave(&[7])] {
            let mut w = World::new();
            w.lines(heard, observed);
            assert_eq!(lines_of(&w), (true, sets));
            let mut w = World::new();
            w.c.laa = false;
            w.lines(observed, heard);
            assert_eq!(lines_of(&w), (false, sets));
        }
    }
}

#[test]
fn rule_4_where_rule_1_did_not_act() {
    let mut w = World::new();
    w.both(master(0x9000));
    w.lines(bad_check(slave(&[7])), silence());
    assert_eq!(lines_of(&w), (true, true));
}

#[test]
fn rule_4_comes_before_rule_3() {
    let mut w = World::new();
    w.lines(master(0xF000), silence());
    assert_eq!(lines_of(&w), (true, false));
}

#[test]
fn rule_4_not_without_a_frame_on_the_trusted_line() {
    let mut w = World::new();
    w.lines(noise(), silence());
    w.lines(silence(), sqe(master(1)));
    assert_eq!(lines_of(&w), (true, false));
}

#[test]
fn rule_5_acts_at_the_end_of_a_quiet_bit_time() {
    let mut w = World::new();
    w.c.set_ls(true);
    w.both(master(1));
    w.both(slave(&[1]));
    assert_eq!((lines_of(&w), w.c.ls), ((true, false), true));
    w.quiet(1);
    assert_eq!((lines_of(&w), w.c.ls), ((false, false), false));
    w.quiet(1);
    assert_eq!(lines_of(&w), (false, false));
}

#[test]
fn rule_5_waits_for_rld_and_slm() {
    let mut w = World::new();
    w.c.set_ls(true);
    w.c.rld = true;
    w.quiet(100);
    assert_eq!((w.c.laa, w.c.ls), (true, true));
    w.c.set_slm(true);
    w.c.rld = false;
    w.quiet(100);
    assert_eq!((w.c.laa, w.c.ls), (true, true));
    w.c.set_slm(false);
    w.quiet(1);
    assert_eq!((w.c.laa, w.c.ls), (false, false));
}

/// Rules 1 and 2 set RLD in their bit time, so rule 5 does not act in it.
#[test]
fn rule_5_comes_after_rules_1_and_2() {
    let mut w = World::new();
    w.both(master(1));
    w.quiet(63);
    w.c.set_ls(true);
    w.quiet(1);
    assert_eq!((lines_of(&w), w.c.ls), ((false, true), true));
    let mut w = World::new();
    w.quiet(2129);
    w.c.set_ls(true);
    w.quiet(1);
    assert_eq!((lines_of(&w), w.c.ls), ((false, true), true));
}

#[test]
fn with_slm_nothing_switches_or_sets_rld() {
    let mut w = World::with_ports();
    w.c.set_slm(true);
    w.both(bad_check(master(1)));
    w.both(master(1));
    w.both(bad_check(slave(&[7])));
    w.lines(master(1), silence());
    w.quiet(5000);
    w.both(master(0xF000));
    w.both(slave(&[7]));
    assert_eq!(lines_of(&w), (true, false));
    assert_eq!((w.c.line_count, w.c.ec), (0, 2));
}

#[test]
fn with_slm_the_line_count_restarts_and_rule_3_clears() {
    let mut w = World::new();
    w.c.rld = true;
    w.c.set_slm(true);
    w.quiet(2135);
    assert_eq!((lines_of(&w), w.c.line_count), ((true, true), 5));
    w.lines(master(0xF000), silence());
    assert_eq!(lines_of(&w), (true, false));
}
