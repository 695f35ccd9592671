//! Listens for the oil temperature: what listen.c does, in Rust. run.sh builds and runs it.

#[path = "tolvendrum.rs"]
mod tolvendrum;

use tolvendrum::{accepted, Areas, Controller, Hearing, Refusal, State, INDEX_LENGTH, MASTER, MILLISECOND, PAGE_LENGTH, PORTS_LENGTH, SINK, SLAVE};

const OIL: u16 = 1;
const PORT: u16 = 1;
const ONE_WORD: u16 = 0;
const NO_INTERRUPT: u16 = 0;
const LIMIT: u16 = 20;
const REPLY_TIME: u32 = 64;

/// A frame of one word and its check byte, without quality marks.
fn frame(kind: u16, word: u16, check: u8) -> Hearing {
    let mut h = Hearing { kind, size: 1, ends: 1, ..Hearing::default() };
    h.words[0] = word;
    h.checks[0] = check;
    h
}

/// Both lines hear the same.
fn hear(areas: &mut Areas, c: Controller, h: Hearing) -> Result<Controller, Refusal> {
    Ok(areas.hear(c, h, h).accepted()?.0)
}

fn print_oil(areas: &Areas) -> Result<(), Refusal> {
    let state = match areas.ask(OIL).state()? {
        State::Never => "never",
        State::Good => "good",
        State::Held => "held",
        State::Stale => "stale",
    };
    match areas.fetch(OIL).words()? {
        [value] => println!("oil temperature: {state}, {value}"),
        _ => println!("oil temperature: {state}"),
    }
    Ok(())
}

fn main() -> Result<(), Refusal> {
    let mut areas = Areas {
        index: &mut [0; INDEX_LENGTH],
        ports: &mut [0; PORTS_LENGTH],
        page0: &mut [0; PAGE_LENGTH],
        page1: &mut [0; PAGE_LENGTH],
    };
    let mut c = Controller::reset();
    accepted(areas.open(OIL, PORT, ONE_WORD, SINK, NO_INTERRUPT, LIMIT))?;
    print_oil(&areas)?;

    let master = frame(MASTER, OIL, 0x34);
    c = hear(&mut areas, c, master)?;
    c = hear(&mut areas, c, frame(SLAVE, 2, 0xA1))?;
    print_oil(&areas)?;

    c = areas.quiet(c, u32::from(LIMIT) * MILLISECOND).accepted()?.0;
    print_oil(&areas)?;

    c = hear(&mut areas, c, master)?;
    areas.quiet(c, REPLY_TIME).accepted()?;
    print_oil(&areas)
}
