//! How old a value is (W-205).

use super::*;

/// A sink of address 1 with this limit, filled at phase 0.
fn filled(limit: u16) -> (Controller, Areas) {
    let (mut c, mut areas) = (Controller::fresh(), Areas::zero());
    assert_eq!(open(&mut areas, 1, 1, 0, true, 0, limit), 0);
    for frame in [master(1), slave(&[9])] {
        assert_eq!(hear(&mut c, &mut areas, frame, frame).0, 0);
    }
    (c, areas)
}

fn age(areas: &Areas) -> u16 {
    areas.ports[WORDS + AGE]
}

#[test]
fn a_millisecond_is_1500_bit_times_and_the_limit_is_reached_at_it() {
    let (mut c, mut areas) = filled(2);
    for (n, old, state) in [(1499, 0, Answer::Good), (1, 1, Answer::Good), (1499, 1, Answer::Good), (1, 2, Answer::Stale)] {
        assert_eq!(quiet(&mut c, &mut areas, n), 0);
        assert_eq!((age(&areas), ask(areas.tables(), 1)), (old, state));
    }
    assert_eq!(fetch(&areas, 1), [9]);
}

#[test]
fn milliseconds_count_from_reset_and_a_frame_leaves_the_phase() {
    let (mut c, mut areas) = filled(2);
    quiet(&mut c, &mut areas, 1499);
    hear(&mut c, &mut areas, master(1), master(1));
    hear(&mut c, &mut areas, slave(&[8]), slave(&[8]));
    assert_eq!((age(&areas), c.phase), (0, 1499));
    quiet(&mut c, &mut areas, 1);
    assert_eq!((age(&areas), c.phase), (1, 0));
    quiet(&mut c, &mut areas, 1400);
    c.reset();
    quiet(&mut c, &mut areas, 1499);
    assert_eq!(age(&areas), 1);
}

#[test]
fn never_and_held_come_before_stale() {
    let (mut c, mut areas) = filled(1);
    quiet(&mut c, &mut areas, 1500);
    hear(&mut c, &mut areas, master(1), master(1));
    assert_eq!(ask(areas.tables(), 1), Answer::Stale);
    quiet(&mut c, &mut areas, 64);
    assert_eq!(ask(areas.tables(), 1), Answer::Held);
    assert_eq!(open(&mut areas, 2, 2, 0, true, 0, 1), 0);
    quiet(&mut c, &mut areas, 65_535);
    assert_eq!((ask(areas.tables(), 2), areas.ports[2 * WORDS + AGE]), (Answer::Never, 43));
}

#[test]
fn an_age_stops_and_a_limit_of_0_is_no_limit() {
    let (mut c, mut areas) = filled(0);
    areas.ports[WORDS + AGE] = 65_534;
    quiet(&mut c, &mut areas, 65_535);
    assert_eq!((age(&areas), ask(areas.tables(), 1)), (65_535, Answer::Good));
}

#[test]
fn ageing_goes_by_port_words_alone() {
    let (mut c, mut areas) = (Controller::fresh(), Areas::zero());
    for p in [0, 1, 2, 3, 4, 5, 255] {
        areas.ports[p * WORDS + 1] = SINK;
    }
    areas.ports[2 * WORDS + 1] = SRC;
    areas.ports[3 * WORDS + 2] = 8;
    areas.ports[4 * WORDS + 6] = 1;
    areas.ports[5 * WORDS] = 5 << 12;
    quiet(&mut c, &mut areas, 3000);
    let ages = [0, 1, 2, 3, 4, 5, 255].map(|p: usize| areas.ports[p * WORDS + AGE]);
    assert_eq!(ages, [0, 2, 0, 0, 0, 0, 2]);
}

#[test]
fn opening_and_closing_write_all_eight_words() {
    let mut areas = Areas::zero();
    areas.ports[WORDS..2 * WORDS].copy_from_slice(&[9, 0, 9, 9, 9, 9, 9, 9]);
    assert_eq!(open(&mut areas, 1, 1, 0, true, 0, 2), 0);
    assert_eq!(areas.ports[WORDS..2 * WORDS], [1, SINK, 0, 0, 2, 0, 0, 0]);
    quiet(&mut Controller::fresh(), &mut areas, 1500);
    assert_eq!(age(&areas), 1);
    assert_eq!(close(&mut areas, 1), 0);
    assert_eq!(areas, Areas::zero());
}

#[test]
fn a_fault_leaves_the_age_and_a_taken_frame_sets_it_to_0() {
    let (mut c, mut areas) = filled(1);
    quiet(&mut c, &mut areas, 1500);
    for (frame, old, state) in [(bad_check(slave(&[8])), 1, Answer::Held), (slave(&[8]), 0, Answer::Good)] {
        hear(&mut c, &mut areas, master(1), master(1));
        hear(&mut c, &mut areas, frame, frame);
        assert_eq!((age(&areas), ask(areas.tables(), 1)), (old, state));
    }
}
