//! Refusals: numbers, names and reasons.

use crate::tables::{Refusal, REASONS, REFUSAL_NAMES};
use std::error::Error;
use std::fmt;

impl Refusal {
    /// The number of the refusal, the same in every language.
    #[must_use]
    pub fn number(self) -> u32 {
        self as u32
    }

    /// The refusal with a number.
    ///
    /// ```
    /// use region_store::Refusal;
    ///
    /// assert_eq!(Refusal::from_number(19), Some(Refusal::OutsidePointer));
    /// assert_eq!(Refusal::from_number(0), None); // 0 is accepted
    /// assert_eq!(Refusal::from_number(99), None);
    /// ```
    #[must_use]
    pub fn from_number(number: u32) -> Option<Refusal> {
        let place = usize::try_from(number).ok()?.checked_sub(1)?;
        Refusal::ALL.get(place).copied()
    }

    /// The name of the refusal, the same in every language.
    ///
    /// ```
    /// assert_eq!(region_store::Refusal::OutsidePointer.name(), "outside_pointer");
    /// ```
    #[must_use]
    pub fn name(self) -> &'static str {
        REFUSAL_NAMES[self.place()]
    }

    /// Why the call was refused.
    ///
    /// ```
    /// assert_eq!(region_store::Refusal::Permanent.reason(), "region 1 is permanent");
    /// ```
    #[must_use]
    pub fn reason(self) -> &'static str {
        REASONS[self.place()]
    }

    fn place(self) -> usize {
        self as usize - 1
    }
}

/// The number and the reason: `refused by 3: region 1 is permanent`.
impl fmt::Display for Refusal {
    fn fmt(&self, f: &mut fmt::Formatter<'_>) -> fmt::Result {
        write!(f, "refused by {}: {}", self.number(), self.reason())
    }
}

impl Error for Refusal {}

/// Nothing, or the refusal with that number.
#[inline]
pub(crate) fn passed(number: u32) -> Result<(), Refusal> {
    match number {
        0 => Ok(()),
        number => Err(known(number)),
    }
}

/// The reply to a call, or its refusal.
pub(crate) fn accepted(reply: [u32; 5]) -> Result<[u32; 5], Refusal> {
    passed(reply[0]).map(|()| reply)
}

/// A refusal of the library.
///
/// The layout was compared, but a library of another version may have the same one and refuse by a number that this crate does not know. Then this panics, and says that the library is another version.
pub(crate) fn known(number: u32) -> Refusal {
    Refusal::from_number(number).unwrap_or_else(|| {
        panic!(
            "the library region_store that was linked is another version than this crate: it refuses by {number}, which this crate does not know; build both from one version (`hosts/build`)"
        )
    })
}

#[cfg(test)]
mod tests {
    use super::*;

    #[test]
    #[should_panic(expected = "is another version than this crate: it refuses by 99")]
    fn a_number_that_is_not_known() {
        let _ = accepted([99, 0, 0, 0, 0]);
    }
}
