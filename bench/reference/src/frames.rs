//! Check sequence and frame sizes, hearings, and which frames are sound.

use crate::refusal::{refuse_unless, RANGE};

/// G(x) = x^7 + x^6 + x^5 + x^2 + 1, from the highest power down.
#[cfg(not(table))]
const G: [u8; 8] = [1, 1, 1, 0, 0, 1, 0, 1];

#[cfg(table)]
#[path = "../../peer.rs"]
mod peer;
#[cfg(table)]
pub use peer::check_byte;

/// The check byte of a block of one to four words.
#[cfg(not(table))]
pub fn check_byte(block: &[u16]) -> u8 {
    // The bits of the block, most significant bit first.
    let mut data: Vec<u8> = Vec::new();
    for word in block {
        for place in (0..16).rev() {
            data.push((word >> place & 1) as u8);
        }
    }
    // Times x^7, then long division by G: what is left stands in the last 7 bits.
    let mut dividend = data.clone();
    dividend.extend([0; 7]);
    for start in 0..data.len() {
        if dividend[start] == 1 {
            for step in 0..8 {
                dividend[start + step] ^= G[step];
            }
        }
    }
    let remainder = &dividend[data.len()..];
    // One bit makes the ones in data, remainder and itself even; all are inverted.
    let ones = data.iter().chain(remainder).filter(|bit| **bit == 1).count();
    let seven = remainder.iter().fold(0u8, |byte, bit| byte << 1 | bit);
    !(seven << 1 | (ones % 2) as u8)
}

/// The check bytes of a whole frame: one ends each four words.
pub fn check_bytes(words: &[u16]) -> Vec<u8> {
    words.chunks(4).map(check_byte).collect()
}

/// Words of the slave frame by F-code; none where no reply is expected.
pub fn slave_size(f_code: u16) -> Option<usize> {
    match f_code {
        0 | 8 | 9 | 13 | 14 | 15 => Some(1),
        1 => Some(2),
        2 => Some(4),
        3 => Some(8),
        4 | 12 => Some(16),
        _ => None,
    }
}

#[derive(Clone, Copy, PartialEq, Debug)]
pub enum Kind { Silence, Noise, Master, Slave }

/// What one line heard: `size` words, `ends` check bytes, three quality marks.
#[derive(Clone, Copy, PartialEq, Debug)]
pub struct Hearing {
    pub kind: Kind,
    pub words: [u16; 16],
    pub size: usize,
    pub checks: [u8; 4],
    pub ends: usize,
    pub sqe: bool, pub violation: bool, pub alo: bool,
}

impl Hearing {
    /// A hearing without quality marks. Words and check bytes beyond what a hearing
    /// can have are dropped, their count remains.
    pub fn of(kind: Kind, words: &[u16], checks: &[u8]) -> Hearing {
        let (size, ends) = (words.len(), checks.len());
        let words = std::array::from_fn(|i| words.get(i).copied().unwrap_or(0));
        let checks = std::array::from_fn(|i| checks.get(i).copied().unwrap_or(0));
        Hearing { kind, words, size, checks, ends, sqe: false, violation: false, alo: false }
    }

    pub fn test_range(&self) -> Result<(), u16> {
        refuse_unless(self.size <= 16 && self.ends <= 4, RANGE)
    }

    /// The number of words and the number of check bytes are right.
    pub fn counts_right(&self, size: Option<usize>) -> bool {
        size == Some(self.size) && self.ends == self.size.div_ceil(4)
    }

    /// When counts are right, which blocks are wrong, lowest bit for the first; otherwise 0.
    pub fn wrong_blocks(&self, size: Option<usize>) -> u16 {
        if !self.counts_right(size) {
            return 0;
        }
        let computed = self.words[..self.size].chunks(4).map(check_byte);
        let wrong = computed.zip(self.checks).map(|(computed, heard)| computed != heard);
        wrong.enumerate().map(|(k, wrong)| (wrong as u16) << k).sum()
    }

    /// Sound as a frame of that size; none is the size of a frame nobody expects.
    pub fn sound(&self, size: Option<usize>) -> bool {
        let marks = self.sqe || self.violation || self.alo;
        !marks && self.counts_right(size) && self.wrong_blocks(size) == 0
    }
}
