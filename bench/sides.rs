//! The two sides of the comparison: the library's numbers as the reference's values, and the other way.

use crate::tolvendrum as ours;
use reference as plain;

include!("numbers.rs");

/// The library's numbers as the reference's hearing, where kind and marks are right; the reference tests the counts itself.
pub fn hearing(f: &ours::Hearing) -> Option<plain::Hearing> {
    let right = f.kind <= 3 && f.sqe <= 1 && f.violation <= 1 && f.alo <= 1;
    right.then(|| plain::Hearing {
        kind: [plain::Kind::Silence, plain::Kind::Noise, plain::Kind::Master, plain::Kind::Slave][f.kind as usize],
        words: f.words,
        size: f.size as usize,
        checks: f.checks,
        ends: f.ends as usize,
        sqe: f.sqe == 1,
        violation: f.violation == 1,
        alo: f.alo == 1,
    })
}

/// A reply of the reference as the library's numbers: a slave frame, or silence.
pub fn reply(r: &Option<plain::Reply>) -> ours::Hearing {
    let mut h = ours::Hearing::default();
    if let Some((words, checks)) = r {
        h.kind = ours::SLAVE;
        h.size = words.len() as u16;
        h.words[..words.len()].copy_from_slice(words);
        h.ends = checks.len() as u16;
        h.checks[..checks.len()].copy_from_slice(checks);
    }
    h
}

/// The answer to asking as the library's numbers.
pub fn asked(answer: plain::Answer) -> ours::Number {
    match answer {
        plain::Answer::Never => ours::Number { refusal: 0, value: 0 },
        plain::Answer::Good => ours::Number { refusal: 0, value: 1 },
        plain::Answer::Held => ours::Number { refusal: 0, value: 2 },
        plain::Answer::Stale => ours::Number { refusal: 0, value: 3 },
        plain::Answer::Refused(refusal) => ours::Number { refusal, value: 0 },
    }
}

/// The areas that are lent to the library.
#[derive(Clone)]
pub struct Memory {
    pub index: Vec<u16>,
    pub ports: Vec<u16>,
    pub page0: Vec<u16>,
    pub page1: Vec<u16>,
}

impl Memory {
    pub fn cleared() -> Memory {
        let zeros = |length| vec![0; length];
        Memory {
            index: zeros(ours::INDEX_LENGTH),
            ports: zeros(ours::PORTS_LENGTH),
            page0: zeros(ours::PAGE_LENGTH),
            page1: zeros(ours::PAGE_LENGTH),
        }
    }

    pub fn lent(&mut self) -> ours::Areas<'_> {
        ours::Areas { index: &mut self.index, ports: &mut self.ports, page0: &mut self.page0, page1: &mut self.page1 }
    }
}

/// The library's areas as the reference's.
pub fn areas(m: &Memory) -> plain::Areas {
    plain::Areas { index: m.index.clone(), ports: m.ports.clone(), page0: m.page0.clone(), page1: m.page1.clone() }
}

pub fn same_areas(m: &Memory, r: &plain::Areas) -> bool {
    m.index == r.index && m.ports == r.ports && m.page0 == r.page0 && m.page1 == r.page1
}
