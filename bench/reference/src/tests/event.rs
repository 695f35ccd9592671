use super::*;
use crate::interrupts::*;
use crate::refusal::*;

#[test]
fn a_sound_exchange_fills_the_sink() {
    let mut w = World::with_ports();
    assert_eq!(w.both(master(1)), None);
    assert_eq!((w.c.exchange, w.seen()), (Exchange::Waiting(1), 0));
    assert_eq!(w.both(slave(&[0xBEEF])), None);
    assert_eq!((w.c.exchange, w.seen()), (Exchange::Done, SFC | dti(3)));
    assert_eq!((w.word1(1), w.fills(1)), (SINK | EVER | VP, 1));
    assert_eq!(fetch(&w.areas, 1), [0xBEEF]);
    assert_eq!((w.c.fc, w.c.ec), (2, 0));
    assert_eq!((w.c.laa, w.c.rld), (true, false));
}

#[test]
fn silence_and_noise_on_the_trusted_line_are_ignored() {
    let mut w = World::with_ports();
    w.both(master(1));
    let before = (w.c.clone(), w.areas.clone());
    for ignored in [silence(), noise(), sqe(noise()), violation(silence())] {
        for observed in [silence(), noise(), slave(&[5]), master(9), bad_check(master(1))] {
            assert_eq!(w.lines(ignored, observed), None);
            assert_eq!(before, (w.c.clone(), w.areas.clone()));
        }
    }
}

#[test]
fn an_unsound_master_ends_the_wait() {
    let unsound = [
        bad_check(master(1)),
        sqe(master(1)),
        violation(master(1)),
        alo(master(1)),
        Hearing::of(Kind::Master, &[1, 1], &check_bytes(&[1, 1])),
        Hearing::of(Kind::Master, &[], &[]),
        Hearing::of(Kind::Master, &[1], &[]),
        Hearing::of(Kind::Master, &[1], &[0x34, 0x34]),
    ];
    for frame in unsound {
        let mut w = World::with_ports();
        w.both(master(1));
        w.quiet(10);
        let areas = w.areas.clone();
        w.both(frame);
        assert_eq!((w.c.exchange, w.seen()), (Exchange::Idle, EMF));
        assert_eq!((w.c.fc, w.c.ec, w.c.since, w.c.line_count), (2, 1, 10, 10));
        w.both(slave(&[5])); // a stranger's reply is not stored
        assert_eq!((w.c.exchange, w.seen()), (Exchange::Idle, SFC));
        assert_eq!((w.c.fc, w.c.ec), (2, 1));
        assert_eq!(w.areas, areas);
    }
}

#[test]
fn a_sound_master_starts_anew() {
    let mut w = World::with_ports();
    w.c.set_reply_time(128);
    w.quiet(100);
    assert_eq!((w.c.since, w.c.line_count, w.c.adopted), (100, 100, 64));
    w.both(master(0x0FFF));
    assert_eq!((w.c.since, w.c.line_count, w.c.adopted), (0, 0, 128));
}

#[test]
fn duplicate_master_frames() {
    let mut w = World::with_ports();
    w.both(master(1));
    w.quiet(20);
    w.both(master(1));
    assert_eq!((w.c.exchange, w.seen(), w.c.since), (Exchange::Waiting(1), DMF, 0));
    w.both(master(0x1001)); // another word, same address
    assert_eq!((w.c.exchange, w.seen()), (Exchange::Waiting(0x1001), 0));
    assert_eq!((w.c.fc, w.c.ec), (3, 0));
}

#[test]
fn no_duplicate_when_done_or_idle() {
    let mut w = World::with_ports();
    w.both(master(1));
    w.both(slave(&[5]));
    w.seen();
    w.both(master(1));
    assert_eq!(w.seen(), 0);
    w.quiet(64);
    w.seen();
    w.both(master(1));
    assert_eq!(w.seen(), 0);
}

#[test]
fn f_codes_without_reply_make_idle() {
    for code in [5u16, 6, 7, 10, 11] {
        let mut w = World::with_ports();
        w.both(master(1));
        w.quiet(3);
        assert_eq!(w.both(master(code << 12 | 1)), None);
        assert_eq!((w.c.exchange, w.c.since, w.c.fc, w.seen()), (Exchange::Idle, 0, 2, 0));
    }
}

#[test]
fn a_filled_source_replies() {
    let mut w = World::with_ports();
    write(&mut w.areas, 2, &[1, 2, 3, 4]);
    let areas = w.areas.clone();
    assert_eq!(w.both(master(0x2002)), Some((vec![1, 2, 3, 4], vec![check_byte(&[1, 2, 3, 4])])));
    assert_eq!((w.c.exchange, w.seen(), w.c.fc), (Exchange::Done, 0, 1));
    assert_eq!(w.areas, areas);
    write(&mut w.areas, 2, &[5, 6, 7, 8]);
    assert_eq!(w.both(master(0x2002)).unwrap().0, [5, 6, 7, 8]);
}

#[test]
fn a_source_of_sixteen_words_has_four_check_bytes() {
    let mut w = World::new();
    open(&mut w.areas, 9, 9, 4, false, 0, 0);
    let words: Vec<u16> = (1..17).collect();
    write(&mut w.areas, 9, &words);
    let checks: Vec<u8> = words.chunks(4).map(check_byte).collect();
    assert_eq!(w.both(master(0x4009)), Some((words, checks)));
}

#[test]
fn an_unfilled_source_waits_in_silence() {
    let mut w = World::with_ports();
    assert_eq!(w.both(master(0x2002)), None);
    assert_eq!(w.c.exchange, Exchange::Waiting(0x2002));
    let areas = w.areas.clone();
    w.both(slave(&[1, 2, 3, 4])); // another's reply finds no sink
    assert_eq!((w.c.exchange, w.seen(), w.c.ec), (Exchange::Done, SFC, 0));
    assert_eq!(w.areas, areas);
}

#[test]
fn only_exactly_this_master_word_replies() {
    let mut w = World::with_ports();
    write(&mut w.areas, 2, &[1, 2, 3, 4]);
    for code in [0u16, 1, 3, 4, 8, 12, 15] {
        let word = code << 12 | 2;
        assert_eq!(w.both(master(word)), None);
        assert_eq!(w.c.exchange, Exchange::Waiting(word));
    }
}

#[test]
fn status_polls() {
    let mut w = World::new();
    w.c.set_address(0x123);
    assert_eq!(w.both(master(0xF123)), None); // unset: silent
    assert_eq!(w.c.exchange, Exchange::Waiting(0xF123));
    w.c.set_status(0xCAFE);
    // Line B is trusted since the first poll, so LAA is 0.
    assert_eq!(w.both(master(0xF123)), Some((vec![0xCA3E], vec![check_byte(&[0xCA3E])])));
    assert_eq!((w.c.exchange, w.seen(), w.c.status_word), (Exchange::Done, DMF, Some(0xCAFE)));
    assert_eq!(w.both(master(0xF124)), None);
    assert_eq!(w.c.exchange, Exchange::Waiting(0xF124));
    assert_eq!(w.both(master(0xE123)), None);
}

#[test]
fn an_unsound_slave_changes_status_bits_alone() {
    // What is heard, and the status bits of the port afterwards.
    let cases = [
        (bad_check(slave(&[5])), TERR | CRC | FIRST_BLOCK),
        (sqe(slave(&[5])), TERR | SQE),
        (alo(slave(&[5])), TERR | ALO),
        (violation(slave(&[5])), TERR),
        (sqe(alo(bad_check(slave(&[5])))), TERR | CRC | SQE | ALO | FIRST_BLOCK),
        (slave(&[5, 6]), TERR),
        (bad_check(slave(&[0, 5])), TERR),
        (Hearing::of(Kind::Slave, &[5], &[0, 0]), TERR),
        (Hearing::of(Kind::Slave, &[], &[]), TERR),
    ];
    for (heard, bits) in cases {
        for before in [SINK | STATUS_BITS, SINK | EVER | VP | STO, SINK] {
            let mut w = World::with_ports();
            w.areas.ports[1 * WORDS + 1] = before;
            let mut expected = w.areas.clone();
            expected.ports[1 * WORDS + 1] = before & !STATUS_BITS | bits;
            w.both(master(1));
            w.both(heard);
            assert_eq!((w.c.exchange, w.seen()), (Exchange::Done, SFC | ESF));
            assert_eq!((w.c.fc, w.c.ec), (2, 1));
            assert_eq!(w.areas, expected);
        }
    }
}

#[test]
fn the_wrong_blocks_are_marked() {
    let words = [3; 16];
    for marks in 0..16u16 {
        let mut heard = sqe(slave(&words));
        for k in 0..4 {
            heard.checks[k] ^= (marks >> k & 1) as u8;
        }
        let mut w = World::with_ports();
        open(&mut w.areas, 9, 9, 4, true, 0, 0);
        w.both(master(0x4009));
        w.both(heard);
        let crc = if marks == 0 { 0 } else { CRC };
        assert_eq!(w.word1(9), SINK | TERR | SQE | crc | marks << 9);
        w.both(master(0x4009));
        quiet(&mut w.c, &mut w.areas, 64);
        assert_eq!(w.word1(9), SINK | STO);
        w.both(master(0x4009));
        w.both(heard);
        w.both(master(0x4009));
        w.both(slave(&words));
        assert_eq!(w.word1(9), SINK | EVER | VP);
    }
}

#[test]
fn a_sound_slave_clears_the_status_bits() {
    let mut w = World::with_ports();
    w.both(master(1));
    w.both(sqe(slave(&[5])));
    w.both(master(1));
    w.both(slave(&[6]));
    assert_eq!((w.word1(1), w.fills(1)), (SINK | EVER | VP, 1));
    assert_eq!(ask(w.areas.tables(), 1), Answer::Good);
}

#[test]
fn the_slave_is_sized_by_the_waiting_f_code() {
    let mut w = World::new();
    open(&mut w.areas, 3, 3, 1, true, 0, 0);
    w.both(master(0x1003));
    w.both(Hearing::of(Kind::Slave, &[1], &[0x34])); // its own length would do
    assert_eq!((w.word1(3), w.fills(3)), (SINK | TERR, 0));
    w.both(master(0x1003));
    w.both(slave(&[0, 1]));
    assert_eq!(fetch(&w.areas, 3), [0, 1]);
}

#[test]
fn a_sink_of_another_f_code_is_not_meant() {
    let mut w = World::with_ports();
    let areas = w.areas.clone();
    w.both(master(0x1001));
    w.both(slave(&[5, 6]));
    assert_eq!((w.seen(), w.c.ec), (SFC, 0));
    w.both(master(0x1001));
    w.both(slave(&[5]));
    assert_eq!((w.seen(), w.c.ec), (SFC | ESF, 1));
    assert_eq!(w.areas, areas);
}

/// The port counts as it is when the slave frame comes.
#[test]
fn the_address_now_has_a_sink() {
    let mut w = World::with_ports();
    close(&mut w.areas, 1);
    w.both(master(1));
    open(&mut w.areas, 1, 4, 0, true, 0, 0);
    w.both(slave(&[5]));
    assert_eq!((fetch(&w.areas, 1), w.seen()), (vec![5], SFC));
    w.both(master(1));
    close(&mut w.areas, 1);
    let areas = w.areas.clone();
    w.both(slave(&[6]));
    assert_eq!((w.areas, w.c.fc), (areas, 4));
}

#[test]
fn unasked_slaves_are_not_judged() {
    let mut w = World::with_ports();
    w.both(bad_check(slave(&[5])));
    assert_eq!((w.c.exchange, w.seen(), w.c.fc, w.c.ec), (Exchange::Idle, SFC, 0, 0));
    w.both(master(1));
    w.both(slave(&[5]));
    w.seen();
    let areas = w.areas.clone();
    w.both(sqe(slave(&[6])));
    assert_eq!((w.c.exchange, w.seen(), w.c.fc, w.c.ec), (Exchange::Done, SFC | DSF, 2, 0));
    assert_eq!((w.areas.clone(), w.c.laa), (areas, true));
}

#[test]
fn duplicate_slaves_only_within_the_reply_time() {
    let mut w = World::with_ports();
    w.both(master(1));
    w.both(slave(&[5]));
    w.quiet(63);
    w.seen();
    w.both(slave(&[6]));
    assert_eq!(w.seen(), SFC | DSF);
    w.c.set_reply_time(128); // chosen, not adopted
    w.quiet(1);
    w.both(slave(&[6]));
    assert_eq!(w.seen(), SFC);
}

#[test]
fn a_slave_after_the_own_reply_is_a_duplicate() {
    let mut w = World::with_ports();
    write(&mut w.areas, 2, &[1, 2, 3, 4]);
    w.both(master(0x2002));
    w.both(slave(&[1, 2, 3, 4]));
    assert_eq!((w.seen(), w.c.fc), (SFC | DSF, 1));
}

#[test]
fn fc_returns_to_zero_with_fev_and_ec_stops() {
    let mut w = World::new();
    w.c.fc = 65_534;
    w.both(master(1));
    assert_eq!((w.c.fc, w.c.groups[1].status), (65_535, 0));
    w.c.ec = 65_534;
    w.both(bad_check(master(1)));
    assert_eq!((w.c.fc, w.c.ec, w.c.groups[1].status), (0, 65_535, FEV));
    w.both(bad_check(master(1)));
    assert_eq!((w.c.fc, w.c.ec), (1, 65_535));
}

#[test]
fn messages_of_sixteen_words_are_judged() {
    let mut w = World::new();
    w.both(master(0xC005));
    w.both(slave(&[7; 16]));
    assert_eq!((w.seen(), w.c.ec), (SFC, 0));
    w.both(master(0xC005));
    w.both(slave(&[7; 8]));
    assert_eq!((w.seen(), w.c.ec), (SFC | ESF, 1));
}

#[test]
fn areas_then_range_then_damage() {
    let mut w = World::with_ports();
    w.areas.index[1] = 300;
    let long = Hearing { size: 17, ..master(1) };
    w.refused(long, long, RANGE);
    w.refused(master(1), master(1), DAMAGED);
    w.areas.page1.push(0);
    w.refused(long, long, AREA);
    w.refused(silence(), silence(), AREA);
}

#[test]
fn both_hearings_are_tested_for_range() {
    let mut w = World::with_ports();
    for kind in [Kind::Silence, Kind::Noise, Kind::Master, Kind::Slave] {
        let long = Hearing { kind, size: 17, ..silence() };
        let ends = Hearing { kind, ends: 5, ..silence() };
        let edge = Hearing { kind, size: 16, ends: 4, ..silence() };
        for bad in [long, ends, Hearing { kind, size: usize::MAX, ..silence() }] {
            w.refused(bad, silence(), RANGE);
            w.refused(silence(), bad, RANGE);
            w.refused(master(1), bad, RANGE);
        }
        assert_eq!(hear(&mut w.c, &mut w.areas, silence(), edge).0, 0);
    }
}

#[test]
fn damage_is_met_only_where_the_port_is_needed() {
    let mut w = World::with_ports();
    w.areas.index[3] = 256;
    w.areas.index[4] = 1; // port 1 carries address 1
    w.areas.ports[2 * WORDS + 2] = 8; // interrupt of port 2
    for word in [0x0003, 0x4003, 0x0004, 0x2002, 0x0002] {
        w.refused(master(word), silence(), DAMAGED);
    }
    for word in [0x5003, 0x8003, 0xC004, 0xF002] {
        w.both(master(word));
    }
    w.both(bad_check(master(3))); // unsound: nothing needed
    w.lines(silence(), slave(&[1])); // idle: nothing needed
    assert_eq!(w.c.fc, 5);
}

#[test]
fn damage_when_a_slave_is_judged() {
    let mut w = World::with_ports();
    w.both(master(1));
    w.areas.ports[1 * WORDS + 1] = 0;
    w.refused(slave(&[5]), slave(&[5]), DAMAGED);
    w.refused(bad_check(slave(&[5])), silence(), DAMAGED);
    w.areas.index[1] = 0;
    w.both(slave(&[5]));
    assert_eq!(w.c.exchange, Exchange::Done);
}

#[test]
fn entry_zero_is_no_refusal_to_the_bus() {
    let mut w = World::new();
    w.areas.ports[0 * WORDS..0 * WORDS + 4].copy_from_slice(&[0x0007, SRC | EVER, 0, 0]);
    assert_eq!(w.both(master(7)), None);
    w.both(slave(&[5]));
    assert_eq!((w.c.exchange, w.seen()), (Exchange::Done, SFC));
}
