//! Rules and reducing. Nothing here knows of registers or worksheets.

use crate::load::Load;

/// A one-way swap, and the number of the line that claims it.
#[derive(Clone, Copy, Debug, PartialEq, Eq)]
pub struct Rule {
    pub left: Load,
    pub right: Load,
    pub line: u16,
}

/// Why a step is not made.
#[derive(Clone, Copy, Debug, PartialEq, Eq)]
pub enum StepFault {
    Budget,
    Overflow,
}

impl StepFault {
    pub fn number(self) -> u8 {
        match self {
            StepFault::Budget => 6,
            StepFault::Overflow => 7,
        }
    }
}

/// The first rule that fits a load.
#[inline]
pub fn search<'t>(rules: &'t [Rule], load: &Load) -> Option<&'t Rule> {
    rules.iter().find(|rule| load.contains(&rule.left))
}

/// Steps until no rule fits. Each takes one from the budget and tells its line to `each`.
#[inline]
pub fn reduce(
    rules: &[Rule],
    load: &mut Load,
    budget: &mut u32,
    mut each: impl FnMut(u16),
) -> Result<(), StepFault> {
    while let Some(rule) = search(rules, load) {
        if *budget == 0 {
            return Err(StepFault::Budget);
        }
        *load = load
            .exchange(&rule.left, &rule.right)
            .ok_or(StepFault::Overflow)?;
        *budget -= 1;
        each(rule.line);
    }
    Ok(())
}

/// Two loads and what they are reduced to, with the steps of each.
pub struct Ends {
    pub loads: [Load; 2],
    pub steps: [u32; 2],
}

impl Ends {
    pub fn meet(&self) -> bool {
        self.loads[0] == self.loads[1]
    }
}

/// Reduces two loads in turn within one budget. A fault comes with the load it befell, 1 or 2.
#[inline]
pub fn reduce_both(
    rules: &[Rule],
    loads: &[Load; 2],
    budget: &mut u32,
) -> Result<Ends, (StepFault, usize)> {
    let mut ends = Ends {
        loads: *loads,
        steps: [0; 2],
    };
    for place in 0..2 {
        let before = *budget;
        reduce(rules, &mut ends.loads[place], budget, |_| ())
            .map_err(|fault| (fault, place + 1))?;
        ends.steps[place] = before - *budget;
    }
    Ok(ends)
}

/// Writes the lines of a reduction that is known to end after so many steps as the chain has places.
pub fn trail_forward(rules: &[Rule], mut load: Load, chain: &mut [i16]) {
    let mut steps = chain.len() as u32;
    let mut places = chain.iter_mut();
    let _ = reduce(rules, &mut load, &mut steps, |line| {
        if let Some(place) = places.next() {
            *place = line as i16;
        }
    });
}

/// Writes the chain that undoes such a reduction.
pub fn trail_backward(rules: &[Rule], mut load: Load, chain: &mut [i16]) {
    let mut steps = chain.len() as u32;
    let mut places = chain.iter_mut().rev();
    let _ = reduce(rules, &mut load, &mut steps, |line| {
        if let Some(place) = places.next() {
            *place = -(line as i16);
        }
    });
}
