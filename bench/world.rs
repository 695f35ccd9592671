// A reference with the bench's ports, as the library has them. bench.rs includes this twice, with `plain` the reference and with `plain` its peer.

include!("numbers.rs");

/// Quiet time over the same boundary as the library's: the controller goes in by value as numbers, is tested to be one, and comes back as
/// numbers in an answer.
#[inline(never)]
pub extern "C" fn quiet_across(areas: &mut plain::Areas, numbers: ours::Controller, n: u32) -> ours::Answered {
    let mut c = controller(&numbers);
    let refusal = c.as_mut().map_or(2, |c| plain::quiet(c, areas, n));
    ours::Answered { refusal, controller: c.as_ref().map_or(numbers, flat), reply: ours::Hearing::default() }
}

pub struct World {
    pub areas: plain::Areas,
    pub controller: plain::Controller,
}

/// A frame without quality marks, with its check bytes; kind 2 is a master frame, 3 a slave frame.
pub fn frame(kind: u16, words: &[u16]) -> plain::Hearing {
    plain::Hearing::of([plain::Kind::Master, plain::Kind::Slave][kind as usize - 2], words, &plain::check_bytes(words))
}

impl World {
    pub fn new(ports: &[Port], source: u16, words: &[u16]) -> World {
        let mut w = World { areas: plain::Areas::zero(), controller: plain::Controller::fresh() };
        for &(address, code, sink) in ports {
            assert_eq!(plain::open(&mut w.areas, address, address, code, sink == 1, 1, 0), 0);
        }
        assert_eq!(plain::write(&mut w.areas, source, words), 0);
        w
    }

    /// Both lines hear the frame.
    pub fn hear(&mut self, heard: &plain::Hearing) {
        used(plain::hear(&mut self.controller, &mut self.areas, black_box(*heard), black_box(*heard)));
    }
}
