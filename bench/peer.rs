//! The check byte as a firmware engineer would write it for speed: a byte at a time from a table of 256 steps, the words joined by xor, and
//! one count of ones for a block. The table is worked out when this is compiled, so that it is listed nowhere. The reference built with this
//! in place of its long division is the peer of the bench.

/// G(x) = x^7 + x^6 + x^5 + x^2 + 1.
const G: u16 = 0b1110_0101;

static STEP: [u8; 256] = {
    let mut table = [0; 256];
    let mut i = 0;
    while i < 256 {
        table[i] = step(i as u16);
        i += 1;
    }
    table
};

/// What the eight bits of i, times x^7, leave modulo G(x).
const fn step(i: u16) -> u8 {
    let mut rest = i << 7;
    let mut power = 15;
    while power > 7 {
        power -= 1;
        if rest >> power & 1 == 1 {
            rest ^= G << (power - 7);
        }
    }
    rest as u8
}

/// The check byte of a block of one to four words.
#[inline]
pub fn check_byte(block: &[u16]) -> u8 {
    let (mut r, mut all) = (0, 0);
    for &word in block {
        r = STEP[(r << 1 ^ (word >> 8) as u8) as usize];
        r = STEP[(r << 1 ^ word as u8) as usize];
        all ^= word;
    }
    let odd = (all ^ r as u16).count_ones() as u8 & 1;
    !(r << 1 | odd)
}
