//! The rounds that settle a book: equations, pairs of rules, right loads.

use crate::load::Load;
use crate::order::Order;
use crate::sheet::{Equation, Sheet};
use crate::table::{self, Ends, Rule, StepFault};

/// Where two loads are compared: an equation of the book, or the peak of two rules, by places from 1.
#[derive(Clone, Copy, Debug, PartialEq, Eq)]
pub enum Topic {
    Equation(usize),
    Pair(usize, usize),
}

impl Topic {
    pub fn place(self) -> usize {
        match self {
            Topic::Equation(number) => number,
            Topic::Pair(i, j) => 256 * i + j,
        }
    }

    fn stuck(self, fault: StepFault) -> Stuck {
        let place = self.place();
        Stuck { fault, place }
    }
}

/// A topic whose two loads end in different standard loads.
pub struct Apart {
    pub topic: Topic,
    loads: [Load; 2],
    ends: Ends,
}

/// A step that is not made, and the place of its topic.
pub struct Stuck {
    pub fault: StepFault,
    pub place: usize,
}

/// The first equation, and then the first pair, whose loads do not meet.
pub fn first_apart(
    book: &[Equation],
    rules: &[Rule],
    budget: &mut u32,
) -> Result<Option<Apart>, Stuck> {
    for (k, equation) in book.iter().enumerate() {
        let topic = Topic::Equation(k + 1);
        let loads = [equation.left, equation.right];
        let ends =
            table::reduce_both(rules, &loads, budget).map_err(|(fault, _)| topic.stuck(fault))?;
        if !ends.meet() {
            return Ok(Some(Apart { topic, loads, ends }));
        }
    }
    for (i, first) in rules.iter().enumerate() {
        for (j, second) in rules.iter().enumerate().skip(i + 1) {
            if first.left.shares(&second.left) {
                let topic = Topic::Pair(i + 1, j + 1);
                let loads = from_peak(first, second).ok_or(topic.stuck(StepFault::Overflow))?;
                let ends = table::reduce_both(rules, &loads, budget)
                    .map_err(|(fault, _)| topic.stuck(fault))?;
                if !ends.meet() {
                    return Ok(Some(Apart { topic, loads, ends }));
                }
            }
        }
    }
    Ok(None)
}

/// What each of two rules makes of the smallest load that contains both left loads.
#[inline]
fn from_peak(first: &Rule, second: &Rule) -> Option<[Load; 2]> {
    let by_first = first.right.plus_beyond(&second.left, &first.left)?;
    let by_second = second.right.plus_beyond(&first.left, &second.left)?;
    Some([by_first, by_second])
}

/// Why the rounds stop before the book is settled.
pub enum RoundsFault {
    Step(Stuck),
    /// The table is at its capacity, at this place.
    Capacity(usize),
    /// There is no room for a line or its chain, at this place.
    Room(usize),
}

impl From<Stuck> for RoundsFault {
    fn from(stuck: Stuck) -> RoundsFault {
        RoundsFault::Step(stuck)
    }
}

#[derive(Clone, Copy, PartialEq, Eq)]
pub enum Round {
    Changed,
    Settled,
}

/// The state of the rounds.
pub struct Rounds<'a, O> {
    pub order: &'a O,
    pub capacity: usize,
    pub budget: u32,
    pub sheet: &'a mut Sheet,
    pub rules: &'a mut Vec<Rule>,
}

impl<O: Order> Rounds<'_, O> {
    /// Rounds until nothing changes.
    pub fn run(&mut self) -> Result<(), RoundsFault> {
        while self.round()? == Round::Changed {}
        Ok(())
    }

    /// One round: it ends with the first new rule or changed right load.
    pub fn round(&mut self) -> Result<Round, RoundsFault> {
        if let Some(apart) = first_apart(&self.sheet.book, self.rules, &mut self.budget)? {
            self.add(&apart)?;
            return Ok(Round::Changed);
        }
        for place in 0..self.rules.len() {
            if table::search(self.rules, &self.rules[place].right).is_some() {
                self.change(place)?;
                return Ok(Round::Changed);
            }
        }
        Ok(Round::Settled)
    }

    /// Adds the rule between two loads that did not meet, and the line that derives it.
    fn add(&mut self, apart: &Apart) -> Result<(), RoundsFault> {
        let (l, r) = if self.order.above(&apart.ends.loads[0], &apart.ends.loads[1]) {
            (0, 1)
        } else {
            (1, 0)
        };
        let left = apart.ends.loads[l];
        let right = apart.ends.loads[r];
        let kept = self
            .rules
            .iter()
            .filter(|rule| !rule.left.contains(&left))
            .count();
        if kept >= self.capacity {
            return Err(RoundsFault::Capacity(apart.topic.place()));
        }
        let middle = self.middle(apart.topic);
        let cited = middle.iter().flatten().count();
        let [up, down] = [apart.ends.steps[l] as usize, apart.ends.steps[r] as usize];
        if !self
            .sheet
            .has_room(up.saturating_add(down).saturating_add(cited))
        {
            return Err(RoundsFault::Room(apart.topic.place()));
        }

        // Up from the left load, across the topic, down to the right load.
        let chain = &mut self.sheet.chain;
        let start = chain.len();
        chain.resize(start + up, 0);
        table::trail_backward(self.rules, apart.loads[l], &mut chain[start..]);
        if l == 0 {
            chain.extend(middle.into_iter().flatten());
        } else {
            chain.extend(middle.into_iter().rev().flatten().map(|number| -number));
        }
        let across = chain.len();
        chain.resize(across + down, 0);
        table::trail_forward(self.rules, apart.loads[r], &mut chain[across..]);
        let line = self.sheet.push(Equation { left, right }, start);

        self.rules.retain(|rule| !rule.left.contains(&left));
        let place = self
            .rules
            .partition_point(|rule| self.order.above(&left, &rule.left));
        self.rules.insert(place, Rule { left, right, line });
        Ok(())
    }

    /// The lines that lead from the first load of a topic to its second.
    fn middle(&self, topic: Topic) -> [Option<i16>; 2] {
        match topic {
            Topic::Equation(number) => [Some(number as i16), None],
            Topic::Pair(i, j) => [
                Some(-(self.rules[i - 1].line as i16)),
                Some(self.rules[j - 1].line as i16),
            ],
        }
    }

    /// Puts the standard load of a right load in its place.
    fn change(&mut self, place: usize) -> Result<(), RoundsFault> {
        let code = 32768 + place + 1;
        let Rule { left, right, line } = self.rules[place];
        let before = self.budget;
        let mut standard = right;
        table::reduce(self.rules, &mut standard, &mut self.budget, |_| ())
            .map_err(|fault| Stuck { fault, place: code })?;
        let steps = (before - self.budget) as usize;
        if !self.sheet.has_room(steps.saturating_add(1)) {
            return Err(RoundsFault::Room(code));
        }
        let chain = &mut self.sheet.chain;
        let start = chain.len();
        chain.push(line as i16);
        chain.resize(start + 1 + steps, 0);
        table::trail_forward(self.rules, right, &mut chain[start + 1..]);
        let claim = Equation {
            left,
            right: standard,
        };
        let line = self.sheet.push(claim, start);
        self.rules[place] = Rule {
            left,
            right: standard,
            line,
        };
        Ok(())
    }
}
