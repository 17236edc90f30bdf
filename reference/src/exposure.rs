//! The mean exposure of a run: how many epochs the bytes whose interval is closed were at risk.

use std::fmt;

/// A mean as whole numbers: `quotient * divisor + remainder` is the sum of closing epoch less
/// opening epoch over the bytes whose interval is closed, `divisor` is the number of these bytes,
/// and the remainder is below it.
#[derive(Clone, Copy, Debug, PartialEq, Eq, Hash)]
pub struct Exposure {
    pub quotient: usize,
    pub remainder: usize,
    pub divisor: usize,
}

/// The words that are printed for it.
impl fmt::Display for Exposure {
    fn fmt(&self, f: &mut fmt::Formatter<'_>) -> fmt::Result {
        let (quotient, remainder, divisor) = (self.quotient, self.remainder, self.divisor);
        write!(
            f,
            "quotient {quotient} remainder {remainder} divisor {divisor}"
        )
    }
}
