use super::*;
use crate::refusal::*;

type Change = fn(&mut Areas);

/// The ways an area can have another length: the two that asking is lent,
const TABLES: [Change; 3] = [|areas| areas.index.truncate(4095), |areas| areas.ports.truncate(2047), |areas| areas.ports.push(0)];

/// and the pages.
const PAGES: [Change; 3] = [|areas| areas.page0.clear(), |areas| areas.page0.truncate(4095), |areas| areas.page1.push(0)];

/// All host calls on address a refuse so; opening has another number. Nothing changes.
fn all_refuse(areas: &Areas, a: u16, refusal: u16, opening: u16) {
    let mut later = areas.clone();
    assert_eq!(open(&mut later, a, 9, 0, true, 0, 0), opening);
    assert_eq!(close(&mut later, a), refusal);
    assert_eq!(write(&mut later, a, &[0]), refusal);
    assert_eq!(ask(later.tables(), a), Answer::Refused(refusal));
    assert_eq!(fetch(&later, a), []);
    assert_eq!(later, *areas);
}

#[test]
fn opening_sets_entry_and_words() {
    let mut areas = Areas::zero();
    areas.ports[5 * WORDS..5 * WORDS + 4].copy_from_slice(&[0xFFFF, 0, 0xFFFF, 0xFFFF]);
    let mut expected = areas.clone();
    assert_eq!(open(&mut areas, 0x123, 5, 3, true, 7, 0), 0);
    expected.index[0x123] = 5;
    expected.ports[5 * WORDS..5 * WORDS + 4].copy_from_slice(&[0x3123, SINK, 7, 0]);
    assert_eq!(areas, expected);
}

#[test]
fn opening_a_source() {
    let mut areas = Areas::zero();
    assert_eq!(open(&mut areas, 0, 1, 4, false, 0, 0), 0);
    assert_eq!(areas.ports[1 * WORDS..1 * WORDS + 4], [0x4000, SRC, 0, 0]);
    assert_eq!(ask(areas.tables(), 0), Answer::Never);
    assert_eq!(fetch(&areas, 0), []);
}

#[test]
fn ranges_of_opening() {
    let mut areas = Areas::zero();
    assert_eq!(open(&mut areas, 4095, 1, 0, true, 0, 0), 0);
    assert_eq!(open(&mut areas, 4096, 2, 0, true, 0, 0), RANGE);
    assert_eq!(open(&mut areas, 1, 255, 0, true, 0, 0), 0);
    assert_eq!(open(&mut areas, 2, 0, 0, true, 0, 0), RANGE);
    assert_eq!(open(&mut areas, 2, 256, 0, true, 0, 0), RANGE);
    assert_eq!(open(&mut areas, 2, 2, 5, true, 0, 0), RANGE);
    assert_eq!(open(&mut areas, 2, 2, 4, true, 8, 0), RANGE);
    assert_eq!(open(&mut areas, 2, 2, 4, true, 7, 0), 0);
}

#[test]
fn area_comes_first() {
    for change in TABLES {
        let mut areas = Areas::zero();
        change(&mut areas);
        all_refuse(&areas, 5000, AREA, AREA);
        all_refuse(&areas, 0, AREA, AREA);
    }
}

#[test]
fn asking_needs_no_pages() {
    for change in PAGES {
        let mut w = World::with_ports();
        assert_eq!(write(&mut w.areas, 2, &[7; 4]), 0);
        w.areas.index[9] = 256;
        w.areas.index[10] = 1; // the words of port 1 are those of address 1
        change(&mut w.areas);
        let asked = [
            (1, Answer::Never),
            (2, Answer::Good),
            (3, Answer::Refused(NOPORT)),
            (9, Answer::Refused(DAMAGED)),
            (10, Answer::Refused(DAMAGED)),
            (5000, Answer::Refused(RANGE)),
        ];
        let before = w.areas.clone();
        for (a, answer) in asked {
            assert_eq!(ask(w.areas.tables(), a), answer);
            assert_eq!(fetch(&w.areas, a), []);
            assert_eq!(open(&mut w.areas, a, 9, 0, true, 0, 0), AREA);
            assert_eq!(close(&mut w.areas, a), AREA);
            assert_eq!(write(&mut w.areas, a, &[0; 4]), AREA);
        }
        assert_eq!(hear(&mut w.c, &mut w.areas, silence(), silence()), (AREA, None));
        assert_eq!(quiet(&mut w.c, &mut w.areas, 0), AREA);
        assert_eq!(w.areas, before);
    }
}

#[test]
fn range_comes_second() {
    let mut areas = Areas::zero();
    areas.index.fill(0xFFFF);
    all_refuse(&areas, 4096, RANGE, RANGE);
    all_refuse(&areas, 65_535, RANGE, RANGE);
    assert_eq!(open(&mut areas, 0, 0, 0, true, 0, 0), RANGE);
}

#[test]
fn an_entry_above_255_is_damage() {
    let mut areas = Areas::zero();
    areas.ports[9 * WORDS + 1] = 1; // opening port 9 would be TAKEN, but 6 comes before
    for entry in [256, 0xFFFF] {
        areas.index[7] = entry;
        all_refuse(&areas, 7, DAMAGED, DAMAGED);
    }
}

#[test]
fn entry_zero_is_noport() {
    let mut areas = Areas::zero();
    areas.ports[0 * WORDS..0 * WORDS + 4].copy_from_slice(&[0x0007, SINK, 0, 0]); // port 0 is never used
    areas.ports[9 * WORDS + 1] = 0x8000;
    all_refuse(&areas, 7, NOPORT, TAKEN);
}

#[test]
fn taken_by_the_address_or_by_the_port() {
    let mut w = World::with_ports();
    assert_eq!(open(&mut w.areas, 1, 9, 0, true, 0, 0), TAKEN);
    assert_eq!(open(&mut w.areas, 9, 1, 0, true, 0, 0), TAKEN);
    w.areas.ports[9 * WORDS + 3] = 77; // only word 1 counts
    w.areas.ports[9 * WORDS + 2] = 77;
    assert_eq!(open(&mut w.areas, 9, 9, 0, true, 0, 0), 0);
    assert_eq!(w.fills(9), 0);
}

#[test]
fn opening_does_not_test_the_words_of_the_old_port() {
    let mut w = World::with_ports();
    w.areas.ports[1 * WORDS] = 0xFFFF;
    all_refuse(&w.areas, 1, DAMAGED, TAKEN);
}

/// Words 0 to 2 of a port at address 1, and whether they are well formed.
#[test]
fn well_formed_port_words() {
    let cases = [
        ([0x0001, SINK, 0], true),
        ([0x4001, SRC, 7], true),
        ([0x4001, SINK | VP | EVER | STATUS_BITS, 7], true),
        ([0x5001, SINK, 0], false),
        ([0xF001, SINK, 0], false),
        ([0x0002, SINK, 0], false),
        ([0x0001, SINK | SRC, 0], false),
        ([0x0001, 0, 0], false),
        ([0x0001, EVER, 0], false),
        ([0x0001, SINK | 0x0200, 0], true),
        ([0x0001, SINK | 0x1000, 0], true),
        ([0x0001, SINK | 0x2000, 0], false),
        ([0x0001, SINK | 0x4000, 0], false),
        ([0x0001, SINK | 0x8000, 0], false),
        ([0x0001, SINK, 8], false),
        ([0x0001, SINK, 0xFFFF], false),
    ];
    for (words, right) in cases {
        let mut areas = Areas::zero();
        areas.index[1] = 6;
        areas.ports[6 * WORDS..6 * WORDS + 3].copy_from_slice(&words);
        assert_eq!(ask(areas.tables(), 1) != Answer::Refused(DAMAGED), right, "{words:x?}");
        if !right {
            all_refuse(&areas, 1, DAMAGED, TAKEN);
        }
    }
}

#[test]
fn port_255_is_used_to_its_last_word() {
    let mut areas = Areas::zero();
    assert_eq!(open(&mut areas, 4095, 255, 4, false, 0, 0), 0);
    let words: Vec<u16> = (100..116).collect();
    assert_eq!(write(&mut areas, 4095, &words), 0);
    assert_eq!(areas.page1[4080..], words);
    assert_eq!(fetch(&areas, 4095), words);
}

#[test]
fn closing_zeroes_entry_and_words_pages_stay() {
    let mut w = World::with_ports();
    assert_eq!(write(&mut w.areas, 2, &[1, 2, 3, 4]), 0);
    let mut expected = w.areas.clone();
    assert_eq!(close(&mut w.areas, 2), 0);
    expected.index[2] = 0;
    expected.ports[2 * WORDS..3 * WORDS].fill(0);
    assert_eq!(w.areas, expected);
    assert_eq!(w.areas.page1[32..36], [1, 2, 3, 4]);
    assert_eq!(close(&mut w.areas, 2), NOPORT);
    assert_eq!(open(&mut w.areas, 2, 2, 2, false, 0, 0), 0);
    assert_eq!(ask(w.areas.tables(), 2), Answer::Never);
}

#[test]
fn writes_take_turns_on_the_pages() {
    let mut w = World::with_ports();
    w.areas.page0[32..48].fill(0xEEEE);
    w.areas.page1[32..48].fill(0xEEEE);
    assert_eq!(write(&mut w.areas, 2, &[1, 2, 3, 4]), 0);
    assert_eq!((w.word1(2), w.fills(2)), (SRC | EVER | VP, 1));
    assert_eq!(w.areas.page1[32..37], [1, 2, 3, 4, 0xEEEE]);
    assert_eq!(w.areas.page0[32..48], [0xEEEE; 16]);
    assert_eq!(write(&mut w.areas, 2, &[5, 6, 7, 8]), 0);
    assert_eq!((w.word1(2), w.fills(2)), (SRC | EVER, 2));
    assert_eq!(w.areas.page0[32..37], [5, 6, 7, 8, 0xEEEE]);
    assert_eq!(w.areas.page1[32..36], [1, 2, 3, 4]);
    assert_eq!(fetch(&w.areas, 2), [5, 6, 7, 8]);
}

#[test]
fn a_write_clears_the_status_bits_and_keeps_the_interrupt() {
    let mut w = World::with_ports();
    w.areas.ports[2 * WORDS + 1] |= STATUS_BITS;
    assert_eq!(write(&mut w.areas, 2, &[0; 4]), 0);
    assert_eq!(w.areas.ports[2 * WORDS..2 * WORDS + 4], [0x2002, SRC | EVER | VP, 5, 1]);
    assert_eq!(w.seen(), 0);
}

#[test]
fn side_comes_before_size() {
    let mut w = World::with_ports();
    assert_eq!(write(&mut w.areas, 1, &[0]), SIDE);
    assert_eq!(write(&mut w.areas, 1, &[0; 40]), SIDE);
    for size in [0, 1, 3, 5, 16, 17, 5000] {
        assert_eq!(write(&mut w.areas, 2, &vec![0; size]), RANGE);
    }
    assert_eq!(w.areas, World::with_ports().areas);
}

#[test]
fn sixty_five_thousand_fills() {
    let mut w = World::with_ports();
    w.areas.ports[2 * WORDS + 3] = 65_535;
    assert_eq!(write(&mut w.areas, 2, &[9; 4]), 0);
    assert_eq!(w.fills(2), 0);
    assert_eq!(ask(w.areas.tables(), 2), Answer::Good);
    assert_eq!(fetch(&w.areas, 2), [9; 4]);
}

#[test]
fn asking() {
    let mut w = World::with_ports();
    for (bits, answer) in [
        (0, Answer::Never),
        (STO, Answer::Never),
        (STATUS_BITS, Answer::Never),
        (EVER, Answer::Good),
        (EVER | CRC | SQE | ALO | BLOCKS, Answer::Good),
        (EVER | STO, Answer::Held),
        (EVER | VP | TERR, Answer::Held),
        (EVER | STO | TERR, Answer::Held),
    ] {
        w.areas.ports[1 * WORDS + 1] = SINK | bits;
        assert_eq!(ask(w.areas.tables(), 1), answer);
        assert_eq!(fetch(&w.areas, 1).is_empty(), answer == Answer::Never);
    }
}

#[test]
fn fetching_is_chosen_by_vp_and_sized_by_f_code() {
    let mut areas = Areas::zero();
    for word in 0..4096 {
        areas.page0[word] = word as u16;
        areas.page1[word] = 10_000 + word as u16;
    }
    for (code, size) in [(0, 1), (1, 2), (2, 4), (3, 8), (4, 16)] {
        let p = 10 + code;
        assert_eq!(open(&mut areas, code, p, code, true, 0, 0), 0);
        let first = 16 * p;
        areas.ports[WORDS * p as usize + 1] = SINK | EVER;
        assert_eq!(fetch(&areas, code), (first..first + size).collect::<Vec<_>>());
        areas.ports[WORDS * p as usize + 1] = SINK | EVER | VP | STO;
        assert_eq!(fetch(&areas, code), (10_000 + first..10_000 + first + size).collect::<Vec<_>>());
    }
}
