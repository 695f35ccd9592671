use super::*;

#[test]
fn numbers_of_the_document() {
    assert_eq!(check_byte(&[0x0000]), 0xFF);
    assert_eq!(check_byte(&[0x0001]), 0x34);
    assert_eq!(check_byte(&[0x0002]), 0xA1);
    assert_eq!(check_byte(&[0x0003]), 0x6A);
    assert_eq!(check_byte(&[0x0000, 0x0001]), 0x34);
}

#[test]
fn leading_zero_words_do_not_change_the_check() {
    for word in [1, 0x8000, 0xBEEF] {
        assert_eq!(check_byte(&[word]), check_byte(&[0, 0, 0, word]));
    }
}

/// Before the inversion the check is linear, so inverted checks add up.
#[test]
fn the_check_is_linear() {
    for (x, y) in [(0x1234, 0x00FF), (0xFFFF, 0x8001), (3, 5)] {
        assert_eq!(!check_byte(&[x ^ y]), !check_byte(&[x]) ^ !check_byte(&[y]));
    }
}

/// The same remainder by another road: powers of x one after the other.
#[test]
fn the_remainder_by_powers_of_x() {
    let block = [0xA5C3u16, 0x0F10, 0xFFFF, 0x0001];
    let (mut power, mut rest, mut ones) = (1u32, 0u32, 0u32);
    for _ in 0..7 {
        power = times_x(power);
    }
    for word in block.iter().rev() {
        for place in 0..16 {
            if word >> place & 1 == 1 {
                rest ^= power;
                ones += 1;
            }
            power = times_x(power);
        }
    }
    let parity = (ones + rest.count_ones()) & 1;
    assert_eq!(check_byte(&block) as u32, !(rest << 1 | parity) & 0xFF);
}

fn times_x(power: u32) -> u32 {
    if power & 0x40 != 0 { (power << 1 & 0x7F) ^ 0x65 } else { power << 1 }
}

/// One, two or three wrong bits in a one-word frame never make another sound frame.
#[test]
fn distance_of_four() {
    for place in 0..24 {
        for second in 0..=place {
            for third in 0..=second {
                let error: u32 = 1 << place ^ 1 << second ^ 1 << third;
                if error != 0 {
                    let (word, check) = ((error >> 8) as u16, 0xFF ^ error as u8);
                    assert_ne!(check_byte(&[word]), check);
                }
            }
        }
    }
}

#[test]
fn sizes_by_f_code() {
    let sizes: Vec<usize> = (0..16).map(|code| slave_size(code).unwrap_or(0)).collect();
    assert_eq!(sizes, [1, 2, 4, 8, 16, 0, 0, 0, 1, 1, 0, 0, 16, 1, 1, 1]);
}

#[test]
fn a_check_byte_ends_each_four_words() {
    for (size, ends) in [(1, 1), (2, 1), (4, 1), (8, 2), (16, 4)] {
        assert_eq!(check_bytes(&vec![7; size]).len(), ends);
    }
    let words: Vec<u16> = (0..8).collect();
    assert_eq!(check_bytes(&words), [check_byte(&[0, 1, 2, 3]), check_byte(&[4, 5, 6, 7])]);
}

#[test]
fn sound_frames() {
    assert!(master(0x0001).sound(Some(1)));
    assert!(slave(&[1, 2]).sound(Some(2)));
    assert!(slave(&[9; 16]).sound(Some(16)));
}

#[test]
fn each_mark_makes_a_frame_unsound() {
    for marked in [sqe(master(1)), violation(master(1)), alo(master(1))] {
        assert!(!marked.sound(Some(1)));
        assert!(marked.counts_right(Some(1)) && marked.wrong_blocks(Some(1)) == 0);
    }
}

#[test]
fn wrong_counts_make_a_frame_unsound() {
    assert!(!slave(&[0, 2]).sound(Some(1)));
    assert!(!slave(&[2]).sound(Some(2)));
    assert!(!Hearing::of(Kind::Slave, &[2], &[0xA1, 0xFF]).sound(Some(1)));
    assert!(!Hearing::of(Kind::Slave, &[2], &[]).sound(Some(1)));
    assert!(!Hearing::of(Kind::Slave, &[], &[]).sound(Some(1)));
    assert!(!Hearing::of(Kind::Slave, &[], &[]).sound(None));
}

/// Every one of the four check bytes counts.
#[test]
fn each_check_byte_is_tested() {
    for which in 0..4 {
        let mut heard = slave(&[1, 2, 3, 4, 5, 6, 7, 8, 9, 10, 11, 12, 13, 14, 15, 16]);
        heard.checks[which] ^= 0x10;
        assert!(heard.counts_right(Some(16)) && !heard.sound(Some(16)));
    }
}

#[test]
fn each_wrong_block_has_its_bit() {
    let words: [u16; 16] = std::array::from_fn(|i| 7 * i as u16);
    let right = check_bytes(&words);
    for marks in 0..16u16 {
        let checks: Vec<u8> = (0..4).map(|k| right[k] ^ (marks >> k & 1) as u8).collect();
        let heard = slave_with(&words, &checks);
        assert_eq!(heard.wrong_blocks(Some(16)), marks);
        assert_eq!(heard.sound(Some(16)), marks == 0);
        assert_eq!(slave_with(&words[..8], &checks[..2]).wrong_blocks(Some(8)), marks & 3);
        // Wrong counts: no block is marked.
        assert_eq!(heard.wrong_blocks(Some(8)), 0);
        assert_eq!(heard.wrong_blocks(None), 0);
        assert_eq!(slave_with(&words, &checks[..3]).wrong_blocks(Some(16)), 0);
    }
}

fn slave_with(words: &[u16], checks: &[u8]) -> Hearing {
    Hearing::of(Kind::Slave, words, checks)
}
