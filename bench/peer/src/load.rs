//! Loads: eight counts, and a presence byte that answers most questions without them.

use std::array;
use std::fmt;

pub const ARTICLES: usize = 8;

/// The presence bit of each article, as wide as a count.
const BITS: [u16; ARTICLES] = [1, 2, 4, 8, 16, 32, 64, 128];
const LETTERS: [u8; ARTICLES] = *b"abcdefgh";

/// How many pieces of each article, and a bit for each article that is there (bit 0 for article 1).
/// Aligned, so that a copy is two whole moves.
#[derive(Clone, Copy, Debug, PartialEq, Eq)]
#[repr(align(16))]
pub struct Load {
    counts: [u16; ARTICLES],
    present: u8,
}

impl Load {
    pub const EMPTY: Load = Load {
        counts: [0; ARTICLES],
        present: 0,
    };

    #[inline(always)]
    pub fn of(counts: [u16; ARTICLES]) -> Load {
        let mut present = 0;
        for (&bit, &count) in BITS.iter().zip(&counts) {
            present |= if count == 0 { 0 } else { bit };
        }
        Load {
            counts,
            present: present as u8,
        }
    }

    pub fn counts(&self) -> &[u16; ARTICLES] {
        &self.counts
    }

    pub fn present(&self) -> u8 {
        self.present
    }

    pub fn is_empty(&self) -> bool {
        self.present == 0
    }

    /// The pieces of all articles together.
    pub fn pieces(&self) -> u32 {
        self.counts.iter().map(|&count| u32::from(count)).sum()
    }

    /// The load with only the articles of a mask.
    pub fn masked(&self, mask: u8) -> Load {
        let mut counts = self.counts;
        for (article, count) in counts.iter_mut().enumerate() {
            if mask >> article & 1 == 0 {
                *count = 0;
            }
        }
        Load {
            counts,
            present: self.present & mask,
        }
    }

    /// Whether the two have an article in common.
    #[inline(always)]
    pub fn shares(&self, other: &Load) -> bool {
        self.present & other.present != 0
    }

    /// Whether no count is smaller than the other's. The bits decide most cases; the counts are compared
    /// without a branch for each, which compiles to a few vector instructions.
    #[inline(always)]
    pub fn contains(&self, other: &Load) -> bool {
        if other.present & !self.present != 0 {
            return false;
        }
        let mut enough = true;
        for article in 0..ARTICLES {
            enough &= self.counts[article] >= other.counts[article];
        }
        enough
    }

    /// The load without `out`, which it contains, and with `into`; None where a count passes 65,535.
    #[inline(always)]
    pub fn exchange(&self, out: &Load, into: &Load) -> Option<Load> {
        let kept = array::from_fn(|k| self.counts[k].wrapping_sub(out.counts[k]));
        sum(&kept, &into.counts)
    }

    /// This load and what `part` has beyond `base`; None where a count passes 65,535.
    #[inline(always)]
    pub fn plus_beyond(&self, part: &Load, base: &Load) -> Option<Load> {
        let beyond = array::from_fn(|k| part.counts[k].saturating_sub(base.counts[k]));
        sum(&beyond, &self.counts)
    }

    /// The load that a text writes, if it is written exactly as it is printed.
    pub fn read(text: &[u8]) -> Option<Load> {
        if text == b"1" {
            return Some(Load::EMPTY);
        }
        let mut counts = [0; ARTICLES];
        let mut rest = text;
        for (article, letter) in LETTERS.iter().enumerate() {
            let Some((first, tail)) = rest.split_first() else {
                break;
            };
            if first == letter {
                let digits = tail.iter().take_while(|byte| byte.is_ascii_digit()).count();
                counts[article] = read_count(&tail[..digits])?;
                rest = &tail[digits..];
            }
        }
        if text.is_empty() || !rest.is_empty() {
            return None;
        }
        Some(Load::of(counts))
    }
}

/// The sum of two rows of counts; None where a count passes 65,535.
#[inline(always)]
fn sum(a: &[u16; ARTICLES], b: &[u16; ARTICLES]) -> Option<Load> {
    let mut counts = [0; ARTICLES];
    let mut over = false;
    for article in 0..ARTICLES {
        counts[article] = a[article].wrapping_add(b[article]);
        over |= counts[article] < a[article];
    }
    if over {
        return None;
    }
    Some(Load::of(counts))
}

/// The count after a letter: 1 where there is no digit, else a number above 1 without a leading 0.
fn read_count(digits: &[u8]) -> Option<u16> {
    match digits {
        [] => Some(1),
        [b'0', ..] => None,
        _ => {
            let count: u16 = std::str::from_utf8(digits).ok()?.parse().ok()?;
            (count > 1).then_some(count)
        }
    }
}

impl fmt::Display for Load {
    fn fmt(&self, f: &mut fmt::Formatter<'_>) -> fmt::Result {
        if self.is_empty() {
            return f.write_str("1");
        }
        for (&letter, &count) in LETTERS.iter().zip(&self.counts) {
            match count {
                0 => {}
                1 => write!(f, "{}", char::from(letter))?,
                _ => write!(f, "{}{count}", char::from(letter))?,
            }
        }
        Ok(())
    }
}
