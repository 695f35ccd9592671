//! The controller: the exchange, its times and counts, and the host's settings.

use crate::interrupts::{Group, FEV, USED_0, USED_1};
use crate::refusal::{number, refuse_unless, RANGE};

/// Idle, waiting with the master word, or done.
#[derive(Clone, Copy, PartialEq, Debug)]
pub enum Exchange { Idle, Waiting(u16), Done }

#[derive(Clone, PartialEq, Debug)]
pub struct Controller {
    pub exchange: Exchange,
    /// Bit times since the last sound master frame or reset; stops at 1950.
    pub since: u16,
    pub line_count: u16,
    /// The reply time the host chose, and the one the last sound master adopted.
    pub chosen: u16, pub adopted: u16,
    pub laa: bool, pub rld: bool, pub ls: bool, pub slm: bool,
    pub fc: u16, pub ec: u16,
    pub groups: [Group; 2],
    pub device_address: u16,
    /// None until the host sets it.
    pub status_word: Option<u16>,
    /// Quiet bit times since reset, counted anew with each millisecond.
    pub phase: u16,
}

impl Controller {
    pub fn fresh() -> Controller {
        Controller {
            exchange: Exchange::Idle,
            since: 0, line_count: 0, chosen: 64, adopted: 64,
            laa: true, rld: false, ls: false, slm: false,
            fc: 0, ec: 0,
            groups: [Group::new(USED_0), Group::new(USED_1)],
            device_address: 0, status_word: None, phase: 0,
        }
    }

    pub fn set_address(&mut self, address: u16) -> u16 {
        number(refuse_unless(address <= 4095, RANGE).map(|()| self.device_address = address))
    }

    pub fn set_status(&mut self, word: u16) -> u16 {
        self.status_word = Some(word);
        0
    }

    /// The status word that a poll is answered with now (W-201): the host's, with our LAA
    /// over its bit 7 and our RLD over its bit 6. None until the host sets one.
    pub(crate) fn status_reply(&self) -> Option<u16> {
        self.status_word.map(|word| word & !0x00C0 | (self.laa as u16) << 7 | (self.rld as u16) << 6)
    }

    /// The choice is adopted at the next sound master frame.
    pub fn set_reply_time(&mut self, time: u16) -> u16 {
        number(refuse_unless([32, 64, 96, 128].contains(&time), RANGE).map(|()| self.chosen = time))
    }

    pub fn set_slm(&mut self, slm: bool) -> u16 {
        self.slm = slm;
        0
    }

    pub fn set_ls(&mut self, ls: bool) -> u16 {
        self.ls = ls;
        0
    }

    pub fn clear_ec(&mut self) -> u16 {
        self.ec = 0;
        0
    }

    /// A fresh controller, no area touched.
    pub fn reset(&mut self) -> u16 {
        *self = Controller::fresh();
        0
    }

    /// FC counts judged frames and raises FEV on returning to 0; EC counts unsound ones.
    pub(crate) fn count_judged(&mut self, sound: bool) {
        self.fc = self.fc.wrapping_add(1);
        if self.fc == 0 {
            self.groups[1].raise(FEV);
        }
        if !sound {
            self.ec = self.ec.saturating_add(1);
        }
    }
}
