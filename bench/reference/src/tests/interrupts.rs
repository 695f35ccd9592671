use super::*;
use crate::interrupts::*;

fn open_group() -> Group {
    let mut group = Group::new(USED_0);
    group.write_mask(0xFFFF);
    group
}

#[test]
fn vectors_of_the_document() {
    let mut group = open_group();
    group.raise(1 << 13);
    assert_eq!(group.read_vector(), 269);
    let mut group = open_group();
    group.raise(1 << 13 | 1 << 2);
    assert_eq!((group.read_vector(), group.read_vector(), group.read_vector()), (269, 258, 0));
    assert_eq!(open_group().read_vector(), 0);
}

#[test]
fn every_vector() {
    for bit in 0..16 {
        let mut group = open_group();
        group.raise(1 << bit | 1);
        assert_eq!(group.read_vector(), 256 + bit);
        assert_eq!(group.status, if bit == 0 { 0 } else { 1 });
        assert!(group.frozen);
    }
}

#[test]
fn reading_the_vector_of_nothing_freezes() {
    let mut group = open_group();
    assert_eq!(group.read_vector(), 0);
    assert!(group.frozen);
}

#[test]
fn reading_status_freezes_and_keeps_the_bits() {
    let mut group = open_group();
    group.raise(0x0101);
    assert!(group.line());
    assert_eq!(group.read_status(), 0x0101);
    assert!(group.frozen && !group.line());
    assert_eq!(group.read_status(), 0x0101);
}

#[test]
fn a_masked_bit_is_forgotten() {
    let mut group = Group::new(USED_0);
    group.write_mask(1);
    group.raise(3);
    assert_eq!((group.status, group.pending), (1, 0));
    group.write_mask(0xFFFF);
    assert_eq!(group.status, 1);
}

#[test]
fn frozen_bits_accumulate_until_released() {
    let mut group = open_group();
    group.read_status();
    group.raise(1);
    group.raise(4);
    group.raise(4);
    assert_eq!((group.status, group.pending), (0, 5));
    group.write_mask(4); // the mask counts at release
    assert_eq!((group.status, group.pending), (0, 5));
    group.write_vector(0xABCD);
    assert_eq!((group.status, group.pending, group.frozen), (4, 0, false));
    assert!(group.line());
}

#[test]
fn writing_status_clears_where_zero_is_written() {
    for frozen in [false, true] {
        let mut group = open_group();
        group.raise(0x0F00);
        group.frozen = frozen;
        group.write_status(0x35FF);
        assert_eq!((group.status, group.frozen, group.pending), (0x0500, frozen, 0));
    }
}

#[test]
fn writing_pending_replaces() {
    let mut group = open_group();
    group.write_pending(6);
    assert_eq!((group.status, group.pending), (6, 0));
    group.read_status();
    group.write_pending(0x00F0);
    group.write_pending(0x0008);
    assert_eq!((group.status, group.pending), (6, 8));
}

#[test]
fn writing_pending_passes_the_mask() {
    let mut group = Group::new(USED_0);
    group.write_pending(0xFFFF);
    assert_eq!((group.status, group.pending), (0, 0));
}

#[test]
fn unused_bits_are_dropped() {
    let mut group = Group::new(USED_1);
    group.write_mask(0xFFFF);
    assert_eq!(group.mask, 0xFF87);
    group.read_status();
    group.write_pending(0xFFFF);
    assert_eq!(group.pending, 0xFF87);
    group.write_pending(0);
    group.raise(0x0078);
    assert_eq!(group.pending, 0);
}

#[test]
fn groups_are_independent() {
    let mut w = World::with_ports();
    w.c.groups[1].read_status();
    w.both(master(1));
    w.both(slave(&[5]));
    assert_eq!(w.c.groups[0].status, SFC | dti(3));
    assert!(!w.c.groups[0].frozen && w.c.groups[1].frozen);
}

#[test]
fn the_names_sit_on_their_bits() {
    assert_eq!([EMF, ESF, DMF, DSF, SFC, RTI, BTI], [0x8000, 0x4000, 0x2000, 0x1000, 0x200, 0x100, 0x80]);
    assert_eq!((0..8).map(dti).collect::<Vec<_>>(), [0, 1, 2, 4, 8, 16, 32, 64]);
    assert_eq!(FEV, 0x80);
}
