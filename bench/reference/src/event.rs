//! What one bus event does.

use crate::areas::{Areas, Port, ALO, CRC, EVER, FIRST_BLOCK, SINK, SQE, SRC, TERR};
use crate::controller::{Controller, Exchange};
use crate::frames::{check_bytes, slave_size, Hearing, Kind};
use crate::interrupts::{dti, DMF, DSF, EMF, ESF, SFC};

/// The words and check bytes of an own slave frame.
pub type Reply = (Vec<u16>, Vec<u8>);

/// The port with exactly this master word. The entry is needed only for F-codes
/// 0 to 4, entry 0 means no port, and a port of another F-code is not meant.
pub(crate) fn port_with(areas: &Areas, master_word: u16) -> Result<Option<Port>, u16> {
    if master_word >> 12 > 4 {
        return Ok(None);
    }
    let port = areas.tables().port_of(master_word & 0x0FFF)?;
    Ok(port.filter(|port| port.master_word == master_word))
}

/// One event: the hearings of line A and line B.
pub fn hear(c: &mut Controller, areas: &mut Areas, a: Hearing, b: Hearing) -> (u16, Option<Reply>) {
    try_hear(c, areas, a, b).map_or_else(|refusal| (refusal, None), |reply| (0, reply))
}

fn try_hear(c: &mut Controller, areas: &mut Areas, a: Hearing, b: Hearing) -> Result<Option<Reply>, u16> {
    areas.test_lengths()?;
    a.test_range()?;
    b.test_range()?;
    // The trusted line is the one at the start of the event.
    let (trusted, observed) = if c.laa { (a, b) } else { (b, a) };
    match (trusted.kind, c.exchange) {
        (Kind::Silence | Kind::Noise, _) => return Ok(None),
        (Kind::Master, _) if trusted.sound(Some(1)) => {
            return sound_master(c, areas, trusted.words[0], &observed);
        }
        (Kind::Master, _) => {
            c.count_judged(false);
            c.groups[0].raise(EMF);
            c.exchange = Exchange::Idle;
            c.rule_1(None);
        }
        (Kind::Slave, Exchange::Waiting(word)) => slave_while_waiting(c, areas, word, &trusted)?,
        (Kind::Slave, Exchange::Idle | Exchange::Done) => {
            c.groups[0].raise(SFC);
            if c.exchange == Exchange::Done && c.since < c.adopted {
                c.groups[0].raise(DSF);
            }
        }
    }
    c.rule_4(&observed);
    Ok(None)
}

fn sound_master(c: &mut Controller, areas: &Areas, word: u16, observed: &Hearing) -> Result<Option<Reply>, u16> {
    let (f_code, address) = (word >> 12, word & 0x0FFF);
    let source = port_with(areas, word)?.filter(|port| port.has(SRC) && port.has(EVER));
    let status_poll = f_code == 15 && address == c.device_address;

    c.count_judged(true);
    if c.exchange == Exchange::Waiting(word) {
        c.groups[0].raise(DMF);
    }
    c.since = 0;
    c.line_count = 0;
    c.adopted = c.chosen;

    // A status reply tells LAA and RLD after rule 4 and before rule 3 (W-201).
    c.rule_4(observed);
    let words = match source {
        Some(port) => Some(areas.valid_words(port)),
        None if status_poll => c.status_reply().map(|status_word| vec![status_word]),
        None => None,
    };
    c.exchange = match (slave_size(f_code), &words) {
        (None, _) => Exchange::Idle,
        (_, Some(_)) => Exchange::Done,
        (_, None) => Exchange::Waiting(word),
    };
    if status_poll {
        c.rule_3();
    }
    Ok(words.map(|words| (words.clone(), check_bytes(&words))))
}

fn slave_while_waiting(c: &mut Controller, areas: &mut Areas, word: u16, heard: &Hearing) -> Result<(), u16> {
    let size = slave_size(word >> 12);
    let sink = port_with(areas, word)?.filter(|port| port.has(SINK));
    let sound = heard.sound(size);

    c.count_judged(sound);
    c.groups[0].raise(SFC);
    c.exchange = Exchange::Done;
    if sound {
        if let Some(port) = sink {
            areas.fill(port, &heard.words[..heard.size]);
            c.groups[0].raise(dti(port.interrupt));
        }
    } else {
        c.groups[0].raise(ESF);
        if let Some(port) = sink {
            let wrong = heard.wrong_blocks(size);
            let crc = if wrong != 0 { CRC } else { 0 };
            let sqe = if heard.sqe { SQE } else { 0 };
            let alo = if heard.alo { ALO } else { 0 };
            areas.set_status_bits(port, TERR | crc | sqe | alo | wrong * FIRST_BLOCK);
        }
        c.rule_1(Some(word >> 12));
    }
    Ok(())
}
