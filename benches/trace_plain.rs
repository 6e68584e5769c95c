// Plain Rust of the program `trace`, to compare the proved one with. Nothing here is proved.
// It reads what crates/trace reads and prints the same lines; benches/trace builds and times both. How a turn's line is put
// together is chosen: `fast`, by hand into a buffer, or `write`, by writeln!.
use std::io::{self, BufWriter, Read, Write};

// Each has more than is used here.
#[allow(dead_code)]
mod image;
#[allow(dead_code)]
mod machine;
#[allow(dead_code)]
mod run;
#[allow(dead_code)]
mod seeded;
mod step;

use machine::Machine;
use run::{run_told, Cursor, Ending, Ran};
use step::Outcome;

const CHUNK: usize = 1 << 16;
const LINE: usize = 64; // more than a line takes, with the slack

// The name of an opcode.
const fn name(opcode: usize) -> &'static str {
    match opcode {
        0x02 => "NOP",
        0x0B => "MOVB2A",
        0x10 => "ZEROACC",
        0x16 => "TRNSPSRCB",
        0x36 => "CLEARDVALID",
        0x45 => "SETDMAREG",
        0x57 => "SETDVALID",
        0x58 => "ADDDMAREG",
        0x5A => "MULDMAREG",
        0x60 => "DMANOP",
        0xA0 => "ATGETM",
        0xA1 => "ATRELM",
        0xA2 => "STALLWAIT",
        0xA3 => "SEMINIT",
        0xA4 => "SEMPOST",
        0xA5 => "SEMGET",
        0xA6 => "SEMWAIT",
        0xB0 => "WRCFG",
        0xB1 => "RDCFG",
        0xB2 => "SETC16",
        0xB3 => "RMWCIB0",
        0xB4 => "RMWCIB1",
        0xB5 => "RMWCIB2",
        0xB6 => "RMWCIB3",
        _ => "?",
    }
}

// Lines by writeln!.

fn write_turn(out: &mut impl Write, number: u32, thread: usize, word: Option<u32>, outcome: Outcome) -> io::Result<()> {
    let Some(word) = word else { return writeln!(out, "{number} t{thread} idle") };
    let name = name((word >> 24) as usize);
    match outcome {
        Outcome::Idle | Outcome::Passed => writeln!(out, "{number} t{thread} {word:08X} {name} passed"),
        Outcome::Stalled(n, cause) => writeln!(out, "{number} t{thread} {word:08X} {name} stalled {n} {cause}"),
        Outcome::Refused(n) => writeln!(out, "{number} t{thread} {word:08X} {name} refused {n}"),
    }
}

fn write_end(out: &mut impl Write, ran: &Ran, streams: [&[u32]; 3]) -> io::Result<()> {
    match ran.ending {
        Ending::CallRefused(n) => return writeln!(out, "rejected {n}"),
        Ending::WordRefused(n) => writeln!(out, "end refused {n}")?,
        Ending::Finished => writeln!(out, "end finished")?,
        Ending::Stuck => writeln!(out, "end stuck")?,
        Ending::Budget => writeln!(out, "end budget")?,
    }
    writeln!(out, "turns {}", ran.turns)?;
    for (t, stream) in streams.iter().enumerate() {
        write!(out, "t{t} {}/{}", ran.cursor.at[t], stream.len())?;
        match (&ran.ending, ran.stalls[t]) {
            (Ending::Stuck, Some((n, cause))) => writeln!(out, " waits {n} {cause}")?,
            _ => writeln!(out)?,
        }
    }
    writeln!(out, "next {}", ran.cursor.next)
}

// Lines by hand. What is copied has one length for all numbers or names, with slack after the text; each function gives the
// place after the text.

// The numbers below 1,000 in three digits, and how many of these are leading zeros.
static DIGITS: [[u8; 4]; 1000] = {
    let (mut all, mut i) = ([[0; 4]; 1000], 0);
    while i < 1000 {
        let [hundreds, tens, ones] = [i / 100, i / 10 % 10, i % 10];
        all[i] = [b'0' + hundreds as u8, b'0' + tens as u8, b'0' + ones as u8, (i < 100) as u8 + (i < 10) as u8];
        i += 1;
    }
    all
};

static HEX: [[u8; 2]; 256] = {
    let (digits, mut all, mut i) = (b"0123456789ABCDEF", [[0; 2]; 256], 0);
    while i < 256 {
        all[i] = [digits[i >> 4], digits[i & 15]];
        i += 1;
    }
    all
};

// A name with a space before and after it.
#[derive(Clone, Copy)]
struct Name {
    text: [u8; 16],
    len: usize,
}

static NAMES: [Name; 256] = {
    let (mut all, mut opcode) = ([Name { text: [b' '; 16], len: 0 }; 256], 0);
    while opcode < 256 {
        let (text, mut i) = (name(opcode).as_bytes(), 0);
        while i < text.len() {
            all[opcode].text[i + 1] = text[i];
            i += 1;
        }
        all[opcode].len = text.len() + 2;
        opcode += 1;
    }
    all
};

fn put<const N: usize>(out: &mut [u8], at: usize, text: &[u8; N]) -> usize {
    out[at..at + N].copy_from_slice(text);
    at + N
}

// A number below 1,000.
fn put_small(out: &mut [u8], at: usize, number: usize) -> usize {
    let digits = DIGITS[number];
    let zeros = digits[3] as usize;
    put(out, at, &(u32::from_le_bytes(digits) >> (8 * zeros)).to_le_bytes());
    at + 3 - zeros
}

// The number of a turn: 1,000,000 at most, as the budget.
#[inline(always)]
fn put_number(out: &mut [u8], at: usize, number: usize) -> usize {
    let at = match number / 1000 {
        0 => return put_small(out, at, number),
        1000.. => put(out, at, b"1000"),
        thousands => put_small(out, at, thousands),
    };
    put(out, at, &DIGITS[number % 1000]);
    at + 3
}

// Thread, word and name.
fn put_word(out: &mut [u8], at: usize, thread: usize, word: u32) -> usize {
    let (line, name) = (&mut out[at..at + 28], &NAMES[(word >> 24) as usize]);
    put(line, 0, &[b' ', b't', b'0' + thread as u8, b' ']);
    for (i, byte) in word.to_be_bytes().into_iter().enumerate() {
        put(line, 4 + 2 * i, &HEX[byte as usize]);
    }
    put(line, 12, &name.text);
    at + 12 + name.len
}

fn put_turn(out: &mut [u8], at: usize, number: u32, thread: usize, word: Option<u32>, outcome: Outcome) -> usize {
    let at = put_number(out, at, number as usize);
    let Some(word) = word else {
        let at = put(out, at, &[b' ', b't', b'0' + thread as u8]);
        return put(out, at, b" idle\n");
    };
    let at = put_word(out, at, thread, word);
    let at = match outcome {
        Outcome::Idle | Outcome::Passed => return put(out, at, b"passed\n"),
        Outcome::Stalled(n, cause) => {
            let at = put(out, at, b"stalled ");
            let at = put_small(out, at, n as usize);
            let at = put(out, at, b" ");
            put_small(out, at, cause as usize)
        }
        Outcome::Refused(n) => {
            let at = put(out, at, b"refused ");
            put_small(out, at, n as usize)
        }
    };
    put(out, at, b"\n")
}

// The input.

enum Bad {
    Image(usize),
    Record(usize),
}

struct Script {
    streams: [Vec<u32>; 3],
    budget: u32,
    cursor: Cursor,
}

// The next record's body as numbers, at least and at most so many.
fn numbers(input: &[u8], at: &mut usize, kind: u16, least: usize, most: usize) -> Result<Vec<u32>, Bad> {
    let bad = Bad::Record(*at);
    let Some((head, rest)) = input[*at..].split_first_chunk::<6>() else { return Err(bad) };
    let length = u32::from_le_bytes([head[0], head[1], head[2], head[3]]) as usize;
    if head[4..] != kind.to_le_bytes() || rest.len() < length || length % 4 != 0 || length / 4 < least || length / 4 > most {
        return Err(bad);
    }
    *at += 6 + length;
    Ok(rest[..length].chunks_exact(4).map(|b| u32::from_le_bytes([b[0], b[1], b[2], b[3]])).collect())
}

fn read(input: &[u8], m: &mut Machine) -> Result<Script, Bad> {
    let mut at = input.len().min(image::SIZE);
    image::load(&input[..at], m).map_err(Bad::Image)?;
    let mut next = |kind, least, most| numbers(input, &mut at, kind, least, most);
    let streams = [next(32, 0, 65536)?, next(33, 0, 65536)?, next(34, 0, 65536)?];
    let budget = next(35, 1, 1)?[0];
    let c = next(36, 4, 4)?;
    if at < input.len() {
        return Err(Bad::Record(at));
    }
    Ok(Script { streams, budget, cursor: Cursor { at: [c[0] as usize, c[1] as usize, c[2] as usize], next: c[3] as usize } })
}

fn main() -> io::Result<()> {
    let by_hand = match std::env::args().nth(1).as_deref() {
        Some("fast") => true,
        Some("write") => false,
        _ => panic!("fast or write?"),
    };
    let mut input = Vec::new();
    io::stdin().read_to_end(&mut input)?;
    let mut m = Machine::fresh();
    let script = match read(&input, &mut m) {
        Ok(script) => script,
        Err(Bad::Image(at)) => return writeln!(io::stdout(), "bad image at {at}"),
        Err(Bad::Record(at)) => return writeln!(io::stdout(), "bad record at {at}"),
    };
    let streams = [&script.streams[0][..], &script.streams[1][..], &script.streams[2][..]];
    if by_hand {
        let (mut chunk, mut at, mut out) = (vec![0; CHUNK], 0, io::stdout().lock());
        let ran = run_told(&mut m, streams, script.cursor, script.budget, |number, thread, word, outcome| {
            if at > CHUNK - LINE {
                out.write_all(&chunk[..at]).unwrap();
                at = 0;
            }
            at = put_turn(&mut chunk, at, number, thread, word, outcome);
        });
        out.write_all(&chunk[..at])?;
        write_end(&mut out, &ran, streams)
    } else {
        let mut out = BufWriter::with_capacity(CHUNK, io::stdout().lock());
        let ran = run_told(&mut m, streams, script.cursor, script.budget, |number, thread, word, outcome| {
            write_turn(&mut out, number, thread, word, outcome).unwrap();
        });
        write_end(&mut out, &ran, streams)?;
        out.flush()
    }
}
