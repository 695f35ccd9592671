//! Two lines: the five rules. With SLM no rule switches or sets RLD.

use crate::controller::Controller;
use crate::frames::{Hearing, Kind};

impl Controller {
    fn switch(&mut self) {
        if !self.slm {
            self.laa = !self.laa;
        }
    }

    fn set_rld(&mut self) {
        if !self.slm {
            self.rld = true;
        }
    }

    /// A judged unsound frame or a reply timeout, while `f_code` was waited for; none
    /// stands for an unsound master, which always counts.
    pub(crate) fn rule_1(&mut self, f_code: Option<u16>) {
        if !self.rld && !matches!(f_code, Some(9 | 13 | 14)) {
            self.switch();
            self.set_rld();
        }
    }

    /// Line timeout.
    pub(crate) fn rule_2(&mut self) {
        self.switch();
        self.set_rld();
    }

    /// A sound status poll to our address.
    pub(crate) fn rule_3(&mut self) {
        if !self.rld {
            self.switch();
        }
        self.rld = false;
    }

    /// The trusted line heard a frame, this is what the observed line has. If rule 1
    /// acted before, RLD is set already and nothing changes here.
    pub(crate) fn rule_4(&mut self, observed: &Hearing) {
        let no_frame = matches!(observed.kind, Kind::Silence | Kind::Noise);
        if no_frame || observed.sqe || observed.violation {
            self.set_rld();
        }
    }

    /// The end of a quiet bit time.
    pub(crate) fn rule_5(&mut self) {
        if self.ls && !self.rld && !self.slm {
            self.switch();
            self.ls = false;
        }
    }
}
