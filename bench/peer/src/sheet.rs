//! The worksheet: the book's equations, the added lines with their chains, and following chains.

use crate::load::{Load, ARTICLES};

pub const MOST_EQUATIONS: usize = 32;
pub const MOST_RULES: usize = 128;
pub const MOST_LINES: usize = 512;
pub const MOST_CHAIN: usize = 4096;

#[derive(Clone, Copy, Debug, PartialEq, Eq)]
pub struct Equation {
    pub left: Load,
    pub right: Load,
}

/// An added line: its claim and how many chain numbers derive it.
#[derive(Clone, Copy, Debug, PartialEq, Eq)]
pub struct Line {
    pub claim: Equation,
    pub length: u16,
}

/// Lines are numbered from 1, the book's equations first. The chains of added lines stand in one row.
pub struct Sheet {
    pub book: Vec<Equation>,
    pub lines: Vec<Line>,
    pub chain: Vec<i16>,
}

/// Why a swap of a chain is not made.
#[derive(Clone, Copy, Debug, PartialEq, Eq)]
pub enum SwapFault {
    NoLine,
    Lacks,
    Overflow,
}

impl SwapFault {
    pub fn number(self) -> u8 {
        match self {
            SwapFault::NoLine => 11,
            SwapFault::Lacks => 12,
            SwapFault::Overflow => 7,
        }
    }
}

/// The fault of a chain, and its step from 1.
#[derive(Clone, Copy, Debug, PartialEq, Eq)]
pub struct ReplayFault {
    pub fault: SwapFault,
    pub step: usize,
}

impl Sheet {
    pub fn new() -> Sheet {
        Sheet {
            book: Vec::with_capacity(MOST_EQUATIONS),
            lines: Vec::with_capacity(MOST_LINES),
            chain: Vec::with_capacity(MOST_CHAIN),
        }
    }

    /// How many lines there are, equations included.
    pub fn count(&self) -> usize {
        self.book.len() + self.lines.len()
    }

    /// The claim of the line with a number.
    pub fn claim(&self, number: usize) -> Option<&Equation> {
        let place = number.checked_sub(1)?;
        match place.checked_sub(self.book.len()) {
            None => self.book.get(place),
            Some(added) => self.lines.get(added).map(|line| &line.claim),
        }
    }

    /// Drops all added lines.
    pub fn clear(&mut self) {
        self.lines.clear();
        self.chain.clear();
    }

    /// Whether one more line with so many chain numbers can be added.
    pub fn has_room(&self, numbers: usize) -> bool {
        self.lines.len() < MOST_LINES && numbers <= MOST_CHAIN - self.chain.len()
    }

    /// Adds a line; its chain is there already from `start` on. Gives the line's number.
    pub fn push(&mut self, claim: Equation, start: usize) -> u16 {
        let length = (self.chain.len() - start) as u16;
        self.lines.push(Line { claim, length });
        self.count() as u16
    }

    /// Follows a chain that may cite the first `known` lines.
    pub fn follow(&self, load: &Load, chain: &[i16], known: usize) -> Result<Load, ReplayFault> {
        let mut load = *load;
        for (place, &number) in chain.iter().enumerate() {
            load = self
                .swap(&load, number, known)
                .map_err(|fault| ReplayFault {
                    fault,
                    step: place + 1,
                })?;
        }
        Ok(load)
    }

    #[inline]
    fn swap(&self, load: &Load, number: i16, known: usize) -> Result<Load, SwapFault> {
        let line = usize::from(number.unsigned_abs());
        if line > known {
            return Err(SwapFault::NoLine);
        }
        let claim = self.claim(line).ok_or(SwapFault::NoLine)?;
        let (out, into) = if number > 0 {
            (&claim.left, &claim.right)
        } else {
            (&claim.right, &claim.left)
        };
        if !load.contains(out) {
            return Err(SwapFault::Lacks);
        }
        load.exchange(out, into).ok_or(SwapFault::Overflow)
    }
}

impl Default for Sheet {
    fn default() -> Sheet {
        Sheet::new()
    }
}

/// End counts less start counts.
pub fn net(start: &Load, end: &Load) -> [i32; ARTICLES] {
    let mut net = [0; ARTICLES];
    for (article, net) in net.iter_mut().enumerate() {
        *net = i32::from(end.counts()[article]) - i32::from(start.counts()[article]);
    }
    net
}
