//! What a file must show before its table and lines are taken over.

use crate::file::{Content, FileFault};
use crate::order::Order;
use crate::refusal::Refusal;
use crate::rounds::{self, Topic};
use crate::sheet::{Equation, ReplayFault, Sheet};
use crate::table::{self, Rule};

impl From<FileFault> for Refusal {
    fn from(fault: FileFault) -> Refusal {
        Refusal::new(fault.number, "file", fault.place)
    }
}

/// The file has the register's own equations.
pub fn check_book(own: &[Equation], content: &Content) -> Result<(), Refusal> {
    let refused = |place| Err(Refusal::new(18, "worksheet", place));
    if own.len() != content.equations.len() {
        return refused(0);
    }
    match own.iter().zip(&content.equations).position(|(a, b)| a != b) {
        Some(place) => refused(place + 1),
        None => Ok(()),
    }
}

/// The chain lengths sum up to the count of chain numbers, and every chain derives its line from lines before.
pub fn check_lines(sheet: &Sheet) -> Result<(), Refusal> {
    let before = sheet.book.len();
    let mut sum = 0;
    for (place, line) in sheet.lines.iter().enumerate() {
        sum += usize::from(line.length);
        if sum > sheet.chain.len() {
            return Err(Refusal::new(19, "worksheet", before + place + 1));
        }
    }
    if sum < sheet.chain.len() {
        return Err(Refusal::new(19, "worksheet", 0));
    }
    let mut rest = &sheet.chain[..];
    for (place, line) in sheet.lines.iter().enumerate() {
        let number = before + place + 1;
        let (chain, tail) = rest.split_at(usize::from(line.length));
        rest = tail;
        let end = sheet.follow(&line.claim.left, chain, number - 1).map_err(
            |ReplayFault { fault, step }| Refusal {
                number: fault.number(),
                part: "worksheet",
                place: number,
                step: Some(step),
            },
        )?;
        if end != line.claim.right {
            return Err(Refusal::new(20, "worksheet", number));
        }
    }
    Ok(())
}

/// Rules are claims of their lines, fall, and are reduced; each throughout before the next.
pub fn check_rules<O: Order>(order: &O, sheet: &Sheet, rules: &[Rule]) -> Result<(), Refusal> {
    let is_claim = |rule: &Rule| {
        let claim = sheet.claim(usize::from(rule.line));
        claim.is_some_and(|claim| claim.left == rule.left && claim.right == rule.right)
    };
    let refused = |number, place| Err(Refusal::new(number, "table", place + 1));
    if let Some(place) = rules.iter().position(|rule| !is_claim(rule)) {
        return refused(21, place);
    }
    if let Some(place) = rules
        .iter()
        .position(|rule| !order.above(&rule.left, &rule.right))
    {
        return refused(22, place);
    }
    match (0..rules.len()).find(|&place| !is_reduced(order, rules, place)) {
        Some(place) => refused(23, place),
        None => Ok(()),
    }
}

/// Whether a rule stands above the one before it, contains no other left load, and has a standard right load.
fn is_reduced<O: Order>(order: &O, rules: &[Rule], place: usize) -> bool {
    let rule = &rules[place];
    let mut others = rules[..place].iter().chain(&rules[place + 1..]);
    (place == 0 || order.above(&rule.left, &rules[place - 1].left))
        && !others.any(|other| rule.left.contains(&other.left))
        && table::search(rules, &rule.right).is_none()
}

/// Equations and pairs meet.
pub fn check_meeting(book: &[Equation], rules: &[Rule], budget: &mut u32) -> Result<(), Refusal> {
    match rounds::first_apart(book, rules, budget) {
        Ok(None) => Ok(()),
        Ok(Some(apart)) => {
            let number = match apart.topic {
                Topic::Equation(_) => 24,
                Topic::Pair(..) => 25,
            };
            Err(Refusal::new(number, "table", apart.topic.place()))
        }
        Err(stuck) => Err(Refusal::new(stuck.fault.number(), "table", stuck.place)),
    }
}
