//! Scripts: one call a line in, one answer a line out.

use crate::load::{Load, ARTICLES};
use crate::order::{Bulk, House, Listed, Report, Simple, Split, Weights, HOUSE, REPORT};
use crate::refusal::Refusal;
use crate::register::{self, Counts, Matched, Register};
use crate::sheet::Equation;
use std::fmt::Write;

/// The longest line that is kept. A longer one is read to its end and not understood.
const LONGEST: usize = 1_000_000;
const MOST_ROOM: u32 = 1_000_000;
const USUAL_ROOM: u32 = 40_000;

/// An order as a script names it.
enum Chosen {
    Listed(Listed),
    Bulk(Bulk),
    Report(Report),
    House(House),
    Weights(Weights<Simple>),
    Split(Split<Simple, Simple>),
}

/// Makes a call under the chosen order, each with its own copy of the generic code.
macro_rules! under {
    ($chosen:expr, $order:ident => $call:expr) => {
        match $chosen {
            Chosen::Listed($order) => $call,
            Chosen::Bulk($order) => $call,
            Chosen::Report($order) => $call,
            Chosen::House($order) => $call,
            Chosen::Weights($order) => $call,
            Chosen::Split($order) => $call,
        }
    };
}

/// The words of a line, parted by spaces.
struct Words<'a>(&'a [u8]);

impl<'a> Iterator for Words<'a> {
    type Item = &'a [u8];

    fn next(&mut self) -> Option<&'a [u8]> {
        let start = self.0.iter().position(|&byte| byte != b' ')?;
        let rest = &self.0[start..];
        let end = rest
            .iter()
            .position(|&byte| byte == b' ')
            .unwrap_or(rest.len());
        self.0 = &rest[end..];
        Some(&rest[..end])
    }
}

impl Words<'_> {
    fn load(&mut self) -> Option<Load> {
        Load::read(self.next()?)
    }

    fn number(&mut self, most: u32) -> Option<u32> {
        read_number(self.next()?, most)
    }

    fn simple(&mut self) -> Option<Simple> {
        match self.next()? {
            b"listed" => Some(Simple::Listed),
            b"bulk" => Some(Simple::Bulk),
            _ => None,
        }
    }

    fn order(&mut self) -> Option<Chosen> {
        Some(match self.next()? {
            b"listed" => Chosen::Listed(Listed),
            b"bulk" => Chosen::Bulk(Bulk),
            b"report" => Chosen::Report(REPORT),
            b"house" => Chosen::House(HOUSE),
            b"weights" => Chosen::Weights(Weights {
                row: read_weights(self.next()?)?,
                below: self.simple()?,
            }),
            b"split" => Chosen::Split(Split {
                marks: read_marks(self.next()?)?,
                first: self.simple()?,
                second: self.simple()?,
            }),
            _ => return None,
        })
    }

    /// Nothing more may follow.
    fn end(&mut self) -> Option<()> {
        self.next().is_none().then_some(())
    }
}

/// A number in decimal digits.
fn read_number(text: &[u8], most: u32) -> Option<u32> {
    let mut value: u32 = 0;
    for byte in text {
        if !byte.is_ascii_digit() {
            return None;
        }
        value = value.checked_mul(10)?.checked_add(u32::from(byte - b'0'))?;
    }
    (!text.is_empty() && value <= most).then_some(value)
}

fn read_signed(text: &[u8]) -> Option<i16> {
    match text {
        [b'-', digits @ ..] => Some(-(read_number(digits, 32768)? as i32) as i16),
        digits => Some(read_number(digits, 32767)? as i16),
    }
}

/// Eight weights parted by commas.
fn read_weights(text: &[u8]) -> Option<[u16; ARTICLES]> {
    let mut row = [0; ARTICLES];
    let mut words = text.split(|&byte| byte == b',');
    for weight in &mut row {
        *weight = read_number(words.next()?, 65535)? as u16;
    }
    words.next().is_none().then_some(row)
}

/// Letters in rising order.
fn read_marks(text: &[u8]) -> Option<u8> {
    let rising = text.windows(2).all(|two| two[0] < two[1]);
    let letters = text.iter().all(|byte| (b'a'..=b'h').contains(byte));
    if text.is_empty() || !rising || !letters {
        return None;
    }
    Some(
        text.iter()
            .fold(0, |marks, byte| marks | 1 << (byte - b'a')),
    )
}

/// Bytes in hexadecimal, or - for none.
fn read_hex(text: &[u8], bytes: &mut Vec<u8>) -> Option<()> {
    bytes.clear();
    if text == b"-" {
        return Some(());
    }
    let pairs = text.chunks_exact(2);
    let rest = pairs.remainder();
    for pair in pairs {
        let high = char::from(pair[0]).to_digit(16)?;
        let low = char::from(pair[1]).to_digit(16)?;
        bytes.push((16 * high + low) as u8);
    }
    rest.is_empty().then_some(())
}

/// A register and the script that is run on it.
pub struct Session {
    register: Register,
    chain: Vec<i16>,
    bytes: Vec<u8>,
    line: Vec<u8>,
    too_long: bool,
    number: u64,
    all_understood: bool,
}

impl Session {
    pub fn new() -> Session {
        Session {
            register: Register::new(),
            chain: Vec::new(),
            bytes: Vec::new(),
            line: Vec::new(),
            too_long: false,
            number: 1,
            all_understood: true,
        }
    }

    pub fn register(&self) -> &Register {
        &self.register
    }

    pub fn all_understood(&self) -> bool {
        self.all_understood
    }

    /// Takes in a block of the script and answers each line that ends in it.
    pub fn feed(&mut self, block: &[u8], out: &mut String) {
        let mut pieces = block.split(|&byte| byte == b'\n');
        if let Some(first) = pieces.next() {
            self.keep(first);
        }
        for piece in pieces {
            self.answer_line(out);
            self.keep(piece);
        }
    }

    /// Answers a last line without a line feed.
    pub fn finish(&mut self, out: &mut String) {
        self.answer_line(out);
    }

    fn keep(&mut self, piece: &[u8]) {
        let room = LONGEST - self.line.len();
        if piece.len() > room {
            self.too_long = true;
        } else {
            self.line.extend_from_slice(piece);
        }
    }

    fn answer_line(&mut self, out: &mut String) {
        let line = std::mem::take(&mut self.line);
        let passed_over = matches!(line[..], [] | [b'#', ..]);
        if self.too_long || !passed_over {
            let understood = !self.too_long && self.answer(&line, out).is_some();
            if !understood {
                self.all_understood = false;
                let _ = writeln!(out, "line {}: not understood", self.number);
            }
        }
        self.line = line;
        self.line.clear();
        self.too_long = false;
        self.number += 1;
    }

    /// Makes the call of a line and tells what it did; None where it is not understood.
    fn answer(&mut self, line: &[u8], out: &mut String) -> Option<()> {
        let mut words = Words(line);
        match words.next()? {
            b"new" => {
                words.end()?;
                self.register = Register::new();
                out.push_str("new register\n");
            }
            b"enter" => {
                let left = words.load()?;
                (words.next()? == b"=").then_some(())?;
                let right = words.load()?;
                words.end()?;
                let entered = self.register.enter(Equation { left, right });
                tell(out, entered, |out, number| {
                    write!(out, "equation {number}: {left} = {right}")
                });
            }
            b"settle" => {
                let order = words.order()?;
                let capacity = words.number(u32::MAX)?;
                let budget = words.number(u32::MAX)?;
                words.end()?;
                let settled = under!(&order, o => self.register.settle(o, capacity, budget));
                tell(out, settled, |out, counts| {
                    tell_counts(out, "settled", counts)
                });
            }
            b"adopt" => {
                let order = words.order()?;
                let budget = words.number(u32::MAX)?;
                read_hex(words.next()?, &mut self.bytes)?;
                words.end()?;
                let adopted = under!(&order, o => self.register.adopt(o, &self.bytes, budget));
                tell(out, adopted, |out, counts| {
                    tell_counts(out, "adopted", counts)
                });
            }
            b"reopen" => {
                words.end()?;
                tell(out, self.register.reopen(), |out, ()| {
                    write!(out, "reopened")
                });
            }
            b"standard" => {
                let mut load = words.load()?;
                let budget = words.number(u32::MAX)?;
                words.end()?;
                let reduced = self.register.standard(&mut load, budget);
                tell(out, reduced, |out, steps| {
                    write!(out, "standard: {load}, {steps} steps")
                });
            }
            b"match" => {
                let first = words.load()?;
                let second = words.load()?;
                let room = words.number(MOST_ROOM)? as usize;
                let budget = words.number(u32::MAX)?;
                words.end()?;
                if self.chain.len() < room {
                    self.chain.resize(room, 0);
                }
                let chain = &mut self.chain[..room];
                let matched = self.register.match_loads(&first, &second, chain, budget);
                tell(out, matched, |out, matched| match matched {
                    Matched::Different(steps) => write!(out, "different: {steps} steps"),
                    Matched::Equal(steps) => {
                        write!(out, "equal: {steps} steps, chain")?;
                        tell_chain(out, &chain[..steps as usize])
                    }
                });
            }
            b"replay" => {
                let load = words.load()?;
                self.chain.clear();
                for word in words {
                    self.chain.push(read_signed(word)?);
                }
                let replayed = self.register.replay(&load, &self.chain);
                tell(out, replayed, |out, (end, net)| {
                    write!(out, "end: {end}, net")?;
                    net.iter().try_for_each(|count| write!(out, " {count}"))
                });
            }
            b"write" => {
                let room = match words.next() {
                    Some(word) => read_number(word, MOST_ROOM)?,
                    None => USUAL_ROOM,
                };
                words.end()?;
                self.bytes.clear();
                let written = self.register.write(&mut self.bytes, room as usize);
                tell(out, written, |out, size| {
                    write!(out, "wrote: {size} bytes, ")?;
                    self.bytes
                        .iter()
                        .try_for_each(|byte| write!(out, "{byte:02x}"))
                });
            }
            b"examine" => {
                let rule = words.number(u32::MAX)?;
                let budget = words.number(u32::MAX)?;
                read_hex(words.next()?, &mut self.bytes)?;
                words.end()?;
                let number = register::examine(rule, &self.bytes, budget);
                let _ = writeln!(out, "examined: {number}");
            }
            b"table" => {
                words.end()?;
                self.tell_table(out);
            }
            b"lines" => {
                words.end()?;
                self.tell_lines(out);
            }
            _ => return None,
        }
        Some(())
    }

    fn tell_table(&self, out: &mut String) {
        let rules = self.register.rules();
        if rules.is_empty() {
            out.push_str("no rules\n");
        }
        for (place, rule) in rules.iter().enumerate() {
            let number = place + 1;
            let _ = writeln!(
                out,
                "rule {number}: {} -> {}, line {}",
                rule.left, rule.right, rule.line
            );
        }
    }

    fn tell_lines(&self, out: &mut String) {
        let sheet = self.register.sheet();
        if sheet.count() == 0 {
            out.push_str("no lines\n");
        }
        for (place, equation) in sheet.book.iter().enumerate() {
            let _ = writeln!(
                out,
                "line {}: {} = {}",
                place + 1,
                equation.left,
                equation.right
            );
        }
        let mut rest = &sheet.chain[..];
        for (place, line) in sheet.lines.iter().enumerate() {
            let number = sheet.book.len() + place + 1;
            let (chain, tail) = rest.split_at(usize::from(line.length));
            rest = tail;
            let Equation { left, right } = line.claim;
            let _ = write!(out, "line {number}: {left} = {right}, chain");
            let _ = tell_chain(out, chain);
            out.push('\n');
        }
    }
}

impl Default for Session {
    fn default() -> Session {
        Session::new()
    }
}

/// Tells an answer, or why the call was refused, on a line of its own.
fn tell<T>(
    out: &mut String,
    answer: Result<T, Refusal>,
    words: impl FnOnce(&mut String, T) -> std::fmt::Result,
) {
    // Writing to a String does not fail.
    let _ = match answer {
        Ok(value) => words(out, value),
        Err(refusal) => write!(out, "{refusal}"),
    };
    out.push('\n');
}

fn tell_counts(out: &mut String, what: &str, counts: Counts) -> std::fmt::Result {
    let Counts {
        rules,
        lines,
        steps,
    } = counts;
    write!(out, "{what}: {rules} rules, {lines} lines, {steps} steps")
}

/// The numbers of a chain, or - where there are none.
fn tell_chain(out: &mut String, chain: &[i16]) -> std::fmt::Result {
    if chain.is_empty() {
        out.push_str(" -");
    }
    chain.iter().try_for_each(|number| write!(out, " {number}"))
}
