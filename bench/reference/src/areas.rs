//! Memory lent to the calls: four areas of 16-bit words.

use crate::frames::slave_size;
use crate::refusal::{refuse_unless, AREA, DAMAGED};

// Bits of port word 1; the others are zero.
pub const VP: u16 = 1 << 0;
pub const EVER: u16 = 1 << 1;
pub const SRC: u16 = 1 << 2;
pub const SINK: u16 = 1 << 3;
pub const STO: u16 = 1 << 4;
pub const TERR: u16 = 1 << 5;
pub const CRC: u16 = 1 << 6;
pub const SQE: u16 = 1 << 7;
pub const ALO: u16 = 1 << 8;
/// The marks of the blocks, bits 9 to 12: this is the first block's, and all four.
pub const FIRST_BLOCK: u16 = 1 << 9;
pub const BLOCKS: u16 = 15 * FIRST_BLOCK;
pub const STATUS_BITS: u16 = STO | TERR | CRC | SQE | ALO | BLOCKS;
pub const ZERO_BITS: u16 = !(VP | EVER | SRC | SINK | STATUS_BITS);

/// Words of a port: master word, word 1, interrupt, fills, limit, age, and two that are zero.
pub const WORDS: usize = 8;
pub const FILLS: usize = 3;
pub const LIMIT: usize = 4;
pub const AGE: usize = 5;

#[derive(Clone, PartialEq, Debug)]
pub struct Areas {
    pub index: Vec<u16>,
    pub ports: Vec<u16>,
    pub page0: Vec<u16>,
    pub page1: Vec<u16>,
}

/// The two areas that asking is lent.
#[derive(Clone, Copy)]
pub struct Tables<'a> { pub index: &'a [u16], pub ports: &'a [u16] }

/// A port that was found well formed: its number and its words 0 to 2.
#[derive(Clone, Copy, PartialEq, Debug)]
pub struct Port { pub number: usize, pub master_word: u16, pub word1: u16, pub interrupt: u16 }

impl Port {
    pub fn has(self, bits: u16) -> bool {
        self.word1 & bits != 0
    }

    pub fn size(self) -> usize {
        slave_size(self.master_word >> 12).expect("well formed: F-code at most 4")
    }
}

impl Tables<'_> {
    pub fn test_lengths(self) -> Result<(), u16> {
        refuse_unless([self.index.len(), self.ports.len()] == [4096, 256 * WORDS], AREA)
    }

    /// The index entry of address a.
    pub fn entry(self, a: u16) -> Result<u16, u16> {
        let entry = self.index[a as usize];
        refuse_unless(entry <= 255, DAMAGED)?;
        Ok(entry)
    }

    /// The port of address a, none for entry 0.
    pub fn port_of(self, a: u16) -> Result<Option<Port>, u16> {
        let number = self.entry(a)? as usize;
        if number == 0 {
            return Ok(None);
        }
        let port = self.port(number).filter(|port| port.master_word & 0x0FFF == a);
        refuse_unless(port.is_some(), DAMAGED)?;
        Ok(port)
    }

    /// The port of this number, where its words are well formed for any address.
    pub fn port(self, number: usize) -> Option<Port> {
        let words = &self.ports[WORDS * number..WORDS * number + WORDS];
        let port = Port { number, master_word: words[0], word1: words[1], interrupt: words[2] };
        let well_formed = port.master_word >> 12 <= 4
            && port.has(SRC) != port.has(SINK)
            && !port.has(ZERO_BITS)
            && port.interrupt <= 7
            && words[6] == 0
            && words[7] == 0;
        well_formed.then_some(port)
    }
}

impl Areas {
    /// Four areas of the right lengths, all words zero.
    pub fn zero() -> Areas {
        Areas { index: vec![0; 4096], ports: vec![0; 256 * WORDS], page0: vec![0; 4096], page1: vec![0; 4096] }
    }

    pub fn tables(&self) -> Tables<'_> {
        Tables { index: &self.index, ports: &self.ports }
    }

    pub fn test_lengths(&self) -> Result<(), u16> {
        self.tables().test_lengths()?;
        refuse_unless([self.page0.len(), self.page1.len()] == [4096, 4096], AREA)
    }

    /// A millisecond more: the age of each open sink grows by one and stops at 65,535. By port words alone.
    pub fn age(&mut self) {
        for number in 1..256 {
            if self.tables().port(number).is_some_and(|port| port.has(SINK)) {
                let age = &mut self.ports[WORDS * number + AGE];
                *age = age.saturating_add(1);
            }
        }
    }

    /// The port's own part of the valid page, sized by F-code.
    pub fn valid_words(&self, port: Port) -> Vec<u16> {
        let page = if port.has(VP) { &self.page1 } else { &self.page0 };
        page[16 * port.number..16 * port.number + port.size()].to_vec()
    }

    /// One fill: copy to the page that is not valid, turn VP, set EVER, clear the
    /// status bits, add one fill; age 0.
    pub fn fill(&mut self, port: Port, words: &[u16]) {
        let page = if port.has(VP) { &mut self.page0 } else { &mut self.page1 };
        page[16 * port.number..16 * port.number + words.len()].copy_from_slice(words);
        let first = WORDS * port.number;
        self.ports[first + 1] = ((port.word1 ^ VP) | EVER) & !STATUS_BITS;
        self.ports[first + FILLS] = self.ports[first + FILLS].wrapping_add(1);
        self.ports[first + AGE] = 0;
    }

    /// Only the status bits change, to those given.
    pub fn set_status_bits(&mut self, port: Port, bits: u16) {
        self.ports[WORDS * port.number + 1] = (port.word1 & !STATUS_BITS) | bits;
    }
}
