//! The swap file: what a settled register holds, in bytes.

use crate::load::{Load, ARTICLES};
use crate::sheet::{Equation, Line, MOST_CHAIN, MOST_EQUATIONS, MOST_LINES, MOST_RULES};
use crate::table::Rule;

/// What a file holds.
#[derive(Clone, Debug, Default, PartialEq, Eq)]
pub struct Content {
    pub equations: Vec<Equation>,
    pub rules: Vec<Rule>,
    pub lines: Vec<Line>,
    pub chain: Vec<i16>,
}

/// What is to be written.
#[derive(Clone, Copy)]
pub struct Parts<'a> {
    pub equations: &'a [Equation],
    pub rules: &'a [Rule],
    pub lines: &'a [Line],
    pub chain: &'a [i16],
}

const HEADER: usize = 16;
const LIMITS: [usize; 4] = [MOST_EQUATIONS, MOST_RULES, MOST_LINES, MOST_CHAIN];

impl Parts<'_> {
    /// The byte offset of each section, and of the end.
    fn offsets(&self) -> [usize; 5] {
        let equations: usize = self
            .equations
            .iter()
            .map(|e| pair_size(&e.left, &e.right))
            .sum();
        let rules: usize = self
            .rules
            .iter()
            .map(|r| pair_size(&r.left, &r.right) + 2)
            .sum();
        let lines = self.lines.iter();
        let lines: usize = lines
            .map(|l| pair_size(&l.claim.left, &l.claim.right) + 2)
            .sum();
        let mut offsets = [HEADER; 5];
        offsets[1] = offsets[0] + equations;
        offsets[2] = offsets[1] + rules;
        offsets[3] = offsets[2] + lines;
        offsets[4] = offsets[3] + 2 * self.chain.len();
        offsets
    }

    /// How many bytes the file has.
    pub fn size(&self) -> usize {
        self.offsets()[4]
    }

    /// Puts the file at the end of a row of bytes.
    pub fn write(&self, out: &mut Vec<u8>) {
        let counts = [
            self.equations.len(),
            self.rules.len(),
            self.lines.len(),
            self.chain.len(),
        ];
        for number in counts.iter().chain(&self.offsets()[..4]) {
            put(out, *number as u16);
        }
        for equation in self.equations {
            put_load(out, &equation.left);
            put_load(out, &equation.right);
        }
        for rule in self.rules {
            put_load(out, &rule.left);
            put_load(out, &rule.right);
            put(out, rule.line);
        }
        for line in self.lines {
            put_load(out, &line.claim.left);
            put_load(out, &line.claim.right);
            put(out, line.length);
        }
        for &number in self.chain {
            put(out, number as u16);
        }
    }
}

impl Content {
    pub fn parts(&self) -> Parts<'_> {
        Parts {
            equations: &self.equations,
            rules: &self.rules,
            lines: &self.lines,
            chain: &self.chain,
        }
    }
}

fn load_size(present: u8) -> usize {
    1 + 2 * present.count_ones() as usize
}

fn pair_size(left: &Load, right: &Load) -> usize {
    load_size(left.present()) + load_size(right.present())
}

fn put(out: &mut Vec<u8>, number: u16) {
    out.extend_from_slice(&number.to_le_bytes());
}

fn put_load(out: &mut Vec<u8>, load: &Load) {
    out.push(load.present());
    for &count in load.counts().iter().filter(|&&count| count != 0) {
        put(out, count);
    }
}

/// Why bytes are no file: the refusal's number and the byte.
#[derive(Clone, Copy, Debug, PartialEq, Eq)]
pub struct FileFault {
    pub number: u8,
    pub place: usize,
}

/// Reads a file; each condition is checked throughout before the next.
pub fn read(bytes: &[u8]) -> Result<Content, FileFault> {
    let (counts, ends) = read_header(bytes)?;
    check_sizes(bytes, counts, ends)?;
    read_records(bytes, counts)
}

/// The counts, and where each section ends. The first begins after the header.
fn read_header(bytes: &[u8]) -> Result<([usize; 4], [usize; 4]), FileFault> {
    if bytes.len() < HEADER {
        return Err(FileFault {
            number: 14,
            place: 0,
        });
    }
    let mut counts = [0; 4];
    for (k, count) in counts.iter_mut().enumerate() {
        *count = usize::from(number_at(bytes, 2 * k));
        if *count > LIMITS[k] {
            let place = 2 * k;
            return Err(FileFault { number: 14, place });
        }
    }
    let mut ends = [bytes.len(); 4];
    let mut last = HEADER;
    for k in 0..4 {
        let place = 8 + 2 * k;
        let offset = usize::from(number_at(bytes, place));
        if offset < last || offset > bytes.len() || (k == 0 && offset != HEADER) {
            return Err(FileFault { number: 15, place });
        }
        if k > 0 {
            ends[k - 1] = offset;
        }
        last = offset;
    }
    Ok((counts, ends))
}

/// Checks that the records of each section fill it.
fn check_sizes(bytes: &[u8], counts: [usize; 4], ends: [usize; 4]) -> Result<(), FileFault> {
    let mut at = HEADER;
    for (kind, (&count, &end)) in counts.iter().zip(&ends).enumerate() {
        for _ in 0..count {
            match record_end(&bytes[..end], at, kind) {
                Some(next) => at = next,
                None => {
                    return Err(FileFault {
                        number: 16,
                        place: at,
                    })
                }
            }
        }
        if at < end {
            return Err(FileFault {
                number: 16,
                place: at,
            });
        }
    }
    Ok(())
}

/// Where the record at a byte ends, if it lies within the bytes. Kinds are 0 to 3, as the sections.
fn record_end(bytes: &[u8], mut at: usize, kind: usize) -> Option<usize> {
    if kind < 3 {
        for _ in 0..2 {
            at += load_size(*bytes.get(at)?);
        }
    }
    if kind > 0 {
        at += 2;
    }
    (at <= bytes.len()).then_some(at)
}

/// Reads all records of a file whose sizes are right. The only fault left is a present count of 0.
fn read_records(bytes: &[u8], counts: [usize; 4]) -> Result<Content, FileFault> {
    let mut cursor = Cursor { bytes, at: HEADER };
    let mut content = Content::default();
    for _ in 0..counts[0] {
        content.equations.push(cursor.equation()?);
    }
    for _ in 0..counts[1] {
        let Equation { left, right } = cursor.equation()?;
        let line = cursor.number();
        content.rules.push(Rule { left, right, line });
    }
    for _ in 0..counts[2] {
        let claim = cursor.equation()?;
        let length = cursor.number();
        content.lines.push(Line { claim, length });
    }
    for _ in 0..counts[3] {
        content.chain.push(cursor.number() as i16);
    }
    Ok(content)
}

fn number_at(bytes: &[u8], at: usize) -> u16 {
    u16::from_le_bytes([bytes[at], bytes[at + 1]])
}

struct Cursor<'a> {
    bytes: &'a [u8],
    at: usize,
}

impl Cursor<'_> {
    fn number(&mut self) -> u16 {
        let number = number_at(self.bytes, self.at);
        self.at += 2;
        number
    }

    fn load(&mut self) -> Result<Load, FileFault> {
        let present = self.bytes[self.at];
        self.at += 1;
        let mut counts = [0; ARTICLES];
        for (article, count) in counts.iter_mut().enumerate() {
            if present >> article & 1 == 1 {
                let place = self.at;
                *count = self.number();
                if *count == 0 {
                    return Err(FileFault { number: 17, place });
                }
            }
        }
        Ok(Load::of(counts))
    }

    fn equation(&mut self) -> Result<Equation, FileFault> {
        let left = self.load()?;
        let right = self.load()?;
        Ok(Equation { left, right })
    }
}
