//! The port program ("Numbers on either side"): it reads standard input, line by line, and prints as replies occur.
//! Device address 0, no status word, no transfer interrupts.

use reference::areas::{BLOCKS, FIRST_BLOCK, SINK, WORDS};
use reference::refusal::{refuse_unless, TEXT};
use reference::{ask, fetch, hear, open, quiet, write, Answer, Areas, Controller, Hearing, Kind};
use std::io::{self, BufRead, BufReader, Read, Write};

const SETUP: [&[u8]; 4] = [b"addr", b"fcode", b"dir", b"index"];

/// The longest line, in bytes without its newline; a longer one is malformed.
const LONGEST: usize = 1024;

/// As much is read at once.
const PIECE: usize = 65_536;

/// What a line prints goes here.
type Output<'a> = &'a mut Vec<u8>;

struct Program {
    controller: Controller,
    areas: Areas,
    /// The setup lines of the port being set up, at most three.
    setup: Vec<u16>,
    /// An event or write has come: no setup line may follow.
    running: bool,
    /// The lists of the line at hand, kept so that no line allocates.
    words: Vec<u16>,
    checks: Vec<u8>,
}

/// Digits only; what is too large for a u64 becomes the largest.
fn decimal(text: &[u8]) -> Result<u64, u16> {
    refuse_unless(!text.is_empty(), TEXT)?;
    let mut number = 0u64;
    for byte in text {
        refuse_unless(byte.is_ascii_digit(), TEXT)?;
        number = number.saturating_mul(10).saturating_add((byte - b'0') as u64);
    }
    Ok(number)
}

/// An argument with a range of its own: what does not fit is out of range anyway.
fn argument(text: &[u8]) -> Result<u16, u16> {
    Ok(decimal(text)?.min(65_535) as u16)
}

/// Numbers with commas between them; one that does not fit is malformed, and an empty text is no number.
fn list<T: TryFrom<u64>>(text: &[u8], into: &mut Vec<T>) -> Result<(), u16> {
    into.clear();
    if !text.is_empty() {
        for part in text.split(|byte| *byte == b',') {
            into.push(T::try_from(decimal(part)?).map_err(|_| TEXT)?);
        }
    }
    Ok(())
}

fn split_once(text: &[u8], at: u8) -> Result<(&[u8], &[u8]), u16> {
    let i = text.iter().position(|byte| *byte == at).ok_or(TEXT)?;
    Ok((&text[..i], &text[i + 1..]))
}

fn put_number(number: u16, out: Output) {
    let mut digits = [0u8; 5];
    let (mut rest, mut i) = (number, 5);
    loop {
        i -= 1;
        digits[i] = b'0' + (rest % 10) as u8;
        rest /= 10;
        if rest == 0 {
            break;
        }
    }
    out.extend_from_slice(&digits[i..]);
}

fn put_list(numbers: impl Iterator<Item = u16>, out: Output) {
    for (i, number) in numbers.enumerate() {
        if i > 0 {
            out.push(b',');
        }
        put_number(number, out);
    }
}

fn accepted(refusal: u16) -> Result<(), u16> {
    refuse_unless(refusal == 0, refusal)
}

impl Program {
    fn new() -> Program {
        Program {
            controller: Controller::fresh(),
            areas: Areas::zero(),
            setup: Vec::new(),
            running: false,
            words: Vec::new(),
            checks: Vec::new(),
        }
    }

    /// One line of input, and what it prints.
    fn line(&mut self, line: &[u8], out: Output) -> Result<(), u16> {
        refuse_unless(line.len() <= LONGEST, TEXT)?;
        let (key, value) = split_once(line, b'=')?;
        if SETUP.contains(&key) {
            return self.setup_line(key, value);
        }
        refuse_unless(self.setup.is_empty(), TEXT)?;
        self.running = true;
        match key {
            b"master" => {
                let (word, check) = split_once(value, b',')?;
                list(word, &mut self.words)?;
                list(check, &mut self.checks)?;
                refuse_unless(self.words.len() == 1 && self.checks.len() == 1, TEXT)?;
                self.heard(Kind::Master, out)
            }
            b"slave" => {
                let (heard, checks) = split_once(value, b';')?;
                list(heard, &mut self.words)?;
                list(checks, &mut self.checks)?;
                self.heard(Kind::Slave, out)
            }
            b"quiet" => {
                let n = decimal(value)?.min(u32::MAX as u64) as u32;
                accepted(quiet(&mut self.controller, &mut self.areas, n))
            }
            b"write" => {
                let (address, written) = split_once(value, b';')?;
                let address = u16::try_from(decimal(address)?).map_err(|_| TEXT)?;
                list(written, &mut self.words)?;
                accepted(write(&mut self.areas, address, &self.words))
            }
            _ => Err(TEXT),
        }
    }

    fn setup_line(&mut self, key: &[u8], value: &[u8]) -> Result<(), u16> {
        refuse_unless(!self.running && key == SETUP[self.setup.len()], TEXT)?;
        self.setup.push(match (key, value) {
            (b"dir", b"sink") => 1,
            (b"dir", b"source") => 0,
            (b"dir", _) => return Err(TEXT),
            _ => argument(value)?,
        });
        if let [a, code, sink, p] = self.setup[..] {
            self.setup.clear();
            accepted(open(&mut self.areas, a, p, code, sink == 1, 0, 0))?;
        }
        Ok(())
    }

    /// The words and checks of the line at hand, heard alike on both lines.
    fn heard(&mut self, kind: Kind, out: Output) -> Result<(), u16> {
        let hearing = Hearing::of(kind, &self.words, &self.checks);
        let (refusal, reply) = hear(&mut self.controller, &mut self.areas, hearing, hearing);
        accepted(refusal)?;
        if let Some((words, checks)) = reply {
            out.extend_from_slice(b"reply=");
            put_list(words.iter().copied(), out);
            out.push(b';');
            put_list(checks.iter().map(|check| *check as u16), out);
            out.push(b'\n');
        }
        Ok(())
    }

    /// After the last line: eight lines for each open port by rising address.
    fn finish(&self, out: Output) -> Result<(), u16> {
        refuse_unless(self.setup.is_empty(), TEXT)?;
        for a in 0..4096u16 {
            let state = match ask(self.areas.tables(), a) {
                Answer::Never => "never",
                Answer::Good => "good",
                Answer::Held => "held",
                Answer::Stale => "stale",
                Answer::Refused(_) => continue,
            };
            let p = self.areas.index[a as usize];
            let port = &self.areas.ports[WORDS * p as usize..][..WORDS];
            let dir = if port[1] & SINK != 0 { "sink" } else { "source" };
            let (code, fills, blocks) = (port[0] >> 12, port[3], (port[1] & BLOCKS) / FIRST_BLOCK);
            let head =
                format!("addr={a}\nfcode={code}\ndir={dir}\nindex={p}\nstate={state}\nfills={fills}\nblocks={blocks}\ndata=");
            out.extend_from_slice(head.as_bytes());
            let data = fetch(&self.areas, a);
            if data.is_empty() {
                out.extend_from_slice(b"none");
            }
            put_list(data.iter().copied(), out);
            out.push(b'\n');
        }
        Ok(())
    }

    /// The lines in turn, the last perhaps without its newline. What they print is written before more input is waited for.
    fn lines<R: Read>(&mut self, input: &mut BufReader<R>, output: &mut impl Write, out: Output) -> io::Result<Result<(), u16>> {
        let mut line = Vec::new();
        while input.read_until(b'\n', &mut line)? > 0 {
            if let Err(refusal) = self.line(line.strip_suffix(b"\n").unwrap_or(&line), out) {
                return Ok(Err(refusal));
            }
            if input.buffer().is_empty() || out.len() > PIECE {
                output.write_all(out)?;
                out.clear();
            }
            line.clear();
        }
        Ok(self.finish(out))
    }
}

/// The whole program; a refusal prints its number and stops.
fn serve(input: impl Read, output: &mut impl Write) -> io::Result<()> {
    let (mut input, mut out) = (BufReader::with_capacity(PIECE, input), Vec::new());
    if let Err(refusal) = Program::new().lines(&mut input, output, &mut out)? {
        out.extend_from_slice(format!("refused={refusal}\n").as_bytes());
    }
    output.write_all(&out)
}

fn main() -> io::Result<()> {
    serve(io::stdin().lock(), &mut io::stdout().lock())
}

/// The whole program over a text.
#[cfg(test)]
fn run(input: &str) -> String {
    let mut output = Vec::new();
    serve(input.as_bytes(), &mut output).expect("a text can be read and written");
    String::from_utf8(output).expect("text is printed")
}

#[cfg(test)]
#[path = "tests/program.rs"]
mod tests;
