//! Two interrupt groups (001, section 2.9.15).

// Group 0 from bit 15: EMF ESF DMF DSF AMFX MFC SFC RTI BTI DTI7 .. DTI1.
pub const USED_0: u16 = 0xFFFF;
pub const EMF: u16 = 1 << 15;
pub const ESF: u16 = 1 << 14;
pub const DMF: u16 = 1 << 13;
pub const DSF: u16 = 1 << 12;
pub const SFC: u16 = 1 << 9;
pub const RTI: u16 = 1 << 8;
pub const BTI: u16 = 1 << 7;
// Group 1 from bit 15: TI2 XI3 XI2 XQE RQE XQ1C XQ0C RQC FEV, 6 to 3 unused, TI1 XI1 XI0.
pub const USED_1: u16 = 0xFF87;
pub const FEV: u16 = 1 << 7;

/// The bit of data transfer interrupt 1 to 7; 0 is none.
pub fn dti(interrupt: u16) -> u16 {
    if interrupt == 0 { 0 } else { 1 << (interrupt - 1) }
}

#[derive(Clone, PartialEq, Debug)]
pub struct Group {
    /// The used bits of this group, never changed.
    pub used: u16,
    pub pending: u16, pub mask: u16, pub status: u16,
    pub frozen: bool,
}

impl Group {
    /// At reset all is zero and not frozen.
    pub fn new(used: u16) -> Group {
        Group { used, pending: 0, mask: 0, status: 0, frozen: false }
    }

    /// Not frozen: pending bits that the mask lets through join status, all pending
    /// is cleared. Frozen: they accumulate.
    fn let_through(&mut self) {
        if !self.frozen {
            self.status |= self.pending & self.mask;
            self.pending = 0;
        }
    }

    /// A raised bit joins pending.
    pub fn raise(&mut self, bits: u16) {
        self.pending |= bits & self.used;
        self.let_through();
    }

    pub fn read_status(&mut self) -> u16 {
        self.frozen = true;
        self.status
    }

    /// 256 + bit number of the highest set status bit, which is cleared; or 0.
    pub fn read_vector(&mut self) -> u16 {
        self.frozen = true;
        let Some(bit) = (0..16).rev().find(|bit| self.status >> bit & 1 == 1) else { return 0 };
        self.status &= !(1 << bit);
        256 + bit
    }

    /// Writing status clears where 0 is written.
    pub fn write_status(&mut self, value: u16) {
        self.status &= value;
    }

    /// Writing the vector releases and lets pending through; the value is ignored.
    pub fn write_vector(&mut self, _value: u16) {
        self.frozen = false;
        self.let_through();
    }

    pub fn write_pending(&mut self, value: u16) {
        self.pending = value & self.used;
        self.let_through();
    }

    pub fn write_mask(&mut self, value: u16) {
        self.mask = value & self.used;
        self.let_through();
    }

    /// The outgoing line.
    pub fn line(&self) -> bool {
        self.status != 0 && !self.frozen
    }
}
