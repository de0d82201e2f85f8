//! Orders of loads: which of two is above the other.

use crate::load::{Load, ARTICLES};
use std::cmp::Ordering;

pub trait Order {
    /// Greater where `a` is above `b`.
    fn compare(&self, a: &Load, b: &Load) -> Ordering;

    fn above(&self, a: &Load, b: &Load) -> bool {
        self.compare(a, b) == Ordering::Greater
    }
}

/// At the first article that differs, the larger count is above.
#[derive(Clone, Copy)]
pub struct Listed;

impl Order for Listed {
    fn compare(&self, a: &Load, b: &Load) -> Ordering {
        a.counts().cmp(b.counts())
    }
}

/// The larger total is above; with level totals, at the last article that differs, the smaller count.
#[derive(Clone, Copy)]
pub struct Bulk;

impl Order for Bulk {
    fn compare(&self, a: &Load, b: &Load) -> Ordering {
        let totals = a.pieces().cmp(&b.pieces());
        totals.then_with(|| b.counts().iter().rev().cmp(a.counts().iter().rev()))
    }
}

/// The larger weighed sum is above; level sums go to the order below.
#[derive(Clone, Copy)]
pub struct Weights<O> {
    pub row: [u16; ARTICLES],
    pub below: O,
}

impl<O: Order> Order for Weights<O> {
    fn compare(&self, a: &Load, b: &Load) -> Ordering {
        let weigh = |load: &Load| -> u64 {
            let weighed = self.row.iter().zip(load.counts());
            weighed.map(|(&w, &c)| u64::from(w) * u64::from(c)).sum()
        };
        weigh(a)
            .cmp(&weigh(b))
            .then_with(|| self.below.compare(a, b))
    }
}

/// The marked articles under the first order; where they are the same, the others under the second.
#[derive(Clone, Copy)]
pub struct Split<A, B> {
    pub marks: u8,
    pub first: A,
    pub second: B,
}

impl<A: Order, B: Order> Order for Split<A, B> {
    fn compare(&self, a: &Load, b: &Load) -> Ordering {
        let marked = self
            .first
            .compare(&a.masked(self.marks), &b.masked(self.marks));
        marked.then_with(|| {
            self.second
                .compare(&a.masked(!self.marks), &b.masked(!self.marks))
        })
    }
}

pub type Report = Weights<Listed>;
pub type House = Weights<Bulk>;

pub const REPORT: Report = Weights {
    row: [1; ARTICLES],
    below: Listed,
};

pub const HOUSE: House = Weights {
    row: [1; ARTICLES],
    below: Bulk,
};

/// An order that a script names inside another.
#[derive(Clone, Copy)]
pub enum Simple {
    Listed,
    Bulk,
}

impl Order for Simple {
    fn compare(&self, a: &Load, b: &Load) -> Ordering {
        match self {
            Simple::Listed => Listed.compare(a, b),
            Simple::Bulk => Bulk.compare(a, b),
        }
    }
}
