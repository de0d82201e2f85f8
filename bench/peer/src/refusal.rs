//! What is told of a refused call.

use std::fmt;

#[derive(Clone, Copy, Debug, PartialEq, Eq)]
pub struct Refusal {
    pub number: u8,
    pub part: &'static str,
    pub place: usize,
    pub step: Option<usize>,
}

impl Refusal {
    pub fn new(number: u8, part: &'static str, place: usize) -> Refusal {
        Refusal {
            number,
            part,
            place,
            step: None,
        }
    }

    pub fn settled() -> Refusal {
        Refusal::new(1, "register", 0)
    }

    pub fn open() -> Refusal {
        Refusal::new(2, "register", 0)
    }
}

impl fmt::Display for Refusal {
    fn fmt(&self, f: &mut fmt::Formatter<'_>) -> fmt::Result {
        write!(
            f,
            "refused {}: {}, place {}",
            self.number, self.part, self.place
        )?;
        match self.step {
            Some(step) => write!(f, ", step {step}"),
            None => Ok(()),
        }
    }
}
