//! The register and its calls.

use crate::adopt;
use crate::file::{self, Content, Parts};
use crate::load::{Load, ARTICLES};
use crate::order::{Order, HOUSE, REPORT};
use crate::refusal::Refusal;
use crate::rounds::{Rounds, RoundsFault};
use crate::sheet::{self, Equation, Sheet, MOST_EQUATIONS, MOST_RULES};
use crate::table::{self, Rule};

/// A book and, when it is settled, its table and added lines. An open register has no rules and no added lines.
pub struct Register {
    sheet: Sheet,
    rules: Vec<Rule>,
    settled: bool,
}

/// What settle and adopt answer.
#[derive(Clone, Copy, Debug, PartialEq, Eq)]
pub struct Counts {
    pub rules: usize,
    pub lines: usize,
    pub steps: u32,
}

/// What match answers: the steps of both reductions.
#[derive(Clone, Copy, Debug, PartialEq, Eq)]
pub enum Matched {
    Equal(u32),
    Different(u32),
}

impl Register {
    pub fn new() -> Register {
        Register {
            sheet: Sheet::new(),
            rules: Vec::with_capacity(MOST_RULES),
            settled: false,
        }
    }

    pub fn sheet(&self) -> &Sheet {
        &self.sheet
    }

    pub fn rules(&self) -> &[Rule] {
        &self.rules
    }

    pub fn is_settled(&self) -> bool {
        self.settled
    }

    fn check_open(&self) -> Result<(), Refusal> {
        if self.settled {
            return Err(Refusal::settled());
        }
        Ok(())
    }

    fn check_settled(&self) -> Result<(), Refusal> {
        if !self.settled {
            return Err(Refusal::open());
        }
        Ok(())
    }

    /// Adds an equation and gives its number.
    pub fn enter(&mut self, equation: Equation) -> Result<usize, Refusal> {
        self.check_open()?;
        if equation.left.is_empty() || equation.right.is_empty() {
            return Err(Refusal::new(3, "enter", 0));
        }
        if self.sheet.book.len() == MOST_EQUATIONS {
            return Err(Refusal::new(4, "enter", 0));
        }
        self.sheet.book.push(equation);
        Ok(self.sheet.book.len())
    }

    /// Makes the table and the lines of the book.
    pub fn settle<O: Order>(
        &mut self,
        order: &O,
        capacity: u32,
        budget: u32,
    ) -> Result<Counts, Refusal> {
        self.check_open()?;
        if capacity == 0 || capacity as usize > MOST_RULES {
            return Err(Refusal::new(5, "settle", 0));
        }
        let mut rounds = Rounds {
            order,
            capacity: capacity as usize,
            budget,
            sheet: &mut self.sheet,
            rules: &mut self.rules,
        };
        let outcome = rounds.run();
        let left = rounds.budget;
        if let Err(fault) = outcome {
            self.drop_table();
            return Err(match fault {
                RoundsFault::Step(stuck) => Refusal::new(stuck.fault.number(), "step", stuck.place),
                RoundsFault::Capacity(place) => Refusal::new(8, "adding", place),
                RoundsFault::Room(place) => Refusal::new(9, "adding", place),
            });
        }
        self.settled = true;
        Ok(self.counts(budget - left))
    }

    /// Takes over the table and the lines of a file, when it shows that they are right.
    pub fn adopt<O: Order>(
        &mut self,
        order: &O,
        bytes: &[u8],
        budget: u32,
    ) -> Result<Counts, Refusal> {
        self.check_open()?;
        let content = file::read(bytes)?;
        self.adopt_content(order, content, budget)
    }

    fn adopt_content<O: Order>(
        &mut self,
        order: &O,
        content: Content,
        budget: u32,
    ) -> Result<Counts, Refusal> {
        adopt::check_book(&self.sheet.book, &content)?;
        self.sheet.lines.extend_from_slice(&content.lines);
        self.sheet.chain.extend_from_slice(&content.chain);
        self.rules.extend_from_slice(&content.rules);
        let mut left = budget;
        let checked = adopt::check_lines(&self.sheet)
            .and_then(|()| adopt::check_rules(order, &self.sheet, &self.rules))
            .and_then(|()| adopt::check_meeting(&self.sheet.book, &self.rules, &mut left));
        if let Err(refusal) = checked {
            self.drop_table();
            return Err(refusal);
        }
        self.settled = true;
        Ok(self.counts(budget - left))
    }

    fn counts(&self, steps: u32) -> Counts {
        Counts {
            rules: self.rules.len(),
            lines: self.sheet.count(),
            steps,
        }
    }

    fn drop_table(&mut self) {
        self.rules.clear();
        self.sheet.clear();
        self.settled = false;
    }

    /// Drops the table and the added lines.
    pub fn reopen(&mut self) -> Result<(), Refusal> {
        self.check_settled()?;
        self.drop_table();
        Ok(())
    }

    /// Replaces a load by its standard load and gives the steps.
    pub fn standard(&self, load: &mut Load, budget: u32) -> Result<u32, Refusal> {
        self.check_settled()?;
        let mut left = budget;
        let mut end = *load;
        table::reduce(&self.rules, &mut end, &mut left, |_| ())
            .map_err(|fault| Refusal::new(fault.number(), "step", 1))?;
        *load = end;
        Ok(budget - left)
    }

    /// Whether two loads have the same standard load. When they do, the chain from one to the other is written.
    pub fn match_loads(
        &self,
        first: &Load,
        second: &Load,
        chain: &mut [i16],
        budget: u32,
    ) -> Result<Matched, Refusal> {
        self.check_settled()?;
        let mut left = budget;
        let ends = table::reduce_both(&self.rules, &[*first, *second], &mut left)
            .map_err(|(fault, load)| Refusal::new(fault.number(), "step", load))?;
        let steps = budget - left;
        if !ends.meet() {
            return Ok(Matched::Different(steps));
        }
        if steps as usize > chain.len() {
            return Err(Refusal::new(10, "match", 0));
        }
        let (there, back) = chain[..steps as usize].split_at_mut(ends.steps[0] as usize);
        table::trail_forward(&self.rules, *first, there);
        table::trail_backward(&self.rules, *second, back);
        Ok(Matched::Equal(steps))
    }

    /// Follows a chain from a load: the load at its end, and the net of each article.
    pub fn replay(&self, load: &Load, chain: &[i16]) -> Result<(Load, [i32; ARTICLES]), Refusal> {
        let end = self
            .sheet
            .follow(load, chain, self.sheet.count())
            .map_err(|replay| {
                let part = match replay.fault {
                    sheet::SwapFault::Overflow => "step",
                    _ => "replay",
                };
                Refusal::new(replay.fault.number(), part, replay.step)
            })?;
        Ok((end, sheet::net(load, &end)))
    }

    /// Puts the file at the end of a row of bytes, of which it may take so many, and gives its length.
    pub fn write(&self, out: &mut Vec<u8>, room: usize) -> Result<usize, Refusal> {
        self.check_settled()?;
        let parts = Parts {
            equations: &self.sheet.book,
            rules: &self.rules,
            lines: &self.sheet.lines,
            chain: &self.sheet.chain,
        };
        let size = parts.size();
        if size > room {
            return Err(Refusal::new(13, "write", 0));
        }
        parts.write(out);
        Ok(size)
    }
}

impl Default for Register {
    fn default() -> Register {
        Register::new()
    }
}

/// Judges a file with nothing but its bytes: 0, or the number of a refusal.
pub fn examine(rule: u32, bytes: &[u8], budget: u32) -> u8 {
    let judged = match rule {
        1 => judge(&REPORT, bytes, budget),
        2 => judge(&HOUSE, bytes, budget),
        _ => return 26,
    };
    match judged {
        Ok(_) => 0,
        Err(refusal) => refusal.number,
    }
}

fn judge<O: Order>(order: &O, bytes: &[u8], budget: u32) -> Result<Counts, Refusal> {
    let content = file::read(bytes)?;
    let mut register = Register::new();
    for &equation in &content.equations {
        register.enter(equation)?;
    }
    register.adopt_content(order, content, budget)
}
