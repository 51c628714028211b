//! The worst case: the bounds on what spans look at, and the maker's spans,
//! which reach them.

use std::fmt;

use crate::row::{numbers, span, Span};

/// The maker's row.
pub const WIDTH: u16 = 256;

/// Up to this number of spans the program also lays them.
pub const LAID: u64 = 65_535;

/// "The k-th span of a fresh row looks at no more than the smaller of k and 128."
pub fn bound(k: u64) -> u64 {
    k.min(128)
}

/// "the sum of these bounds"
pub fn sum_of_bounds(n: u64) -> u64 {
    (1..=n).map(bound).sum()
}

/// "k of 0 is taken as 1"
pub fn counted(k: u64) -> u64 {
    k.max(1)
}

/// The maker's k-th span. Many makers would reach the bounds; this one takes the
/// odd columns from the left, and the last column ever after.
pub fn made(k: u64) -> Span {
    let odd = 2 * u128::from(counted(k)) - 1;
    let column = odd.min(u128::from(WIDTH) - 1) as u16;
    span(column, column)
}

/// What is told of a number k: the maker's k-th span and, where k is not too
/// great for it, what the first k spans look at together.
#[derive(Clone, Copy, Debug, PartialEq, Eq)]
pub struct WorstSpan {
    pub span: Span,
    pub reach: Option<u64>,
}

impl WorstSpan {
    pub fn of(k: u64) -> WorstSpan {
        WorstSpan {
            span: made(k),
            reach: (k <= LAID).then(|| sum_of_bounds(k)),
        }
    }

    /// None where the text is not just in the form below.
    pub fn read(text: &str) -> Option<WorstSpan> {
        let told: Vec<u64> = numbers(text)?;
        let column = |k: usize| u16::try_from(*told.get(k)?).ok();
        let one = WorstSpan {
            span: span(column(0)?, column(1)?),
            reach: told.get(2).copied(),
        };
        (one.to_string() == text).then_some(one)
    }
}

impl fmt::Display for WorstSpan {
    fn fmt(&self, f: &mut fmt::Formatter) -> fmt::Result {
        write!(f, "{} {}", self.span.first, self.span.last)?;
        self.reach.map_or(Ok(()), |reach| write!(f, " {reach}"))
    }
}
