//! Why a call does not answer.
use core::fmt;

/// Why a call does not answer. The first that holds is given, in this order.
///
/// A later library may refuse for reasons that this crate has no name for, so a `match` needs a case for the rest.
#[derive(Clone, Copy, Debug, PartialEq, Eq, PartialOrd, Ord, Hash)]
#[non_exhaustive]
pub enum Refusal {
    /// Some number is a NaN or infinite.
    NotANumber,
    /// A coordinate, a radius, a part of a direction or a bulge is beyond 1,048,576 in size, or an angle beyond 1,024.
    BeyondLimit,
    /// The depth is above 3.
    DepthAbove3,
    /// The lent room has fewer numbers than the call may need.
    RoomTooShort,
    /// There is no such arc or circle: points that coincide or lie on a line, no ellipse that fits.
    Degenerate,
    /// The angle is outside the span of an arc that is not closed.
    OutsideSpan,
    /// A number that this crate has no name for: the archive is newer than the crate.
    Unknown(u32),
}

impl Refusal {
    /// The refusal with a number of the exports. Every number has one.
    pub(crate) fn of(number: u32) -> Self {
        match number {
            1 => Refusal::NotANumber,
            2 => Refusal::BeyondLimit,
            3 => Refusal::DepthAbove3,
            4 => Refusal::RoomTooShort,
            5 => Refusal::Degenerate,
            6 => Refusal::OutsideSpan,
            _ => Refusal::Unknown(number),
        }
    }

    /// The number that include/arcs.h has for it.
    ///
    /// ```
    /// use arcs::{checked, Refusal};
    ///
    /// assert_eq!(checked::norm_tau(f64::NAN).map_err(Refusal::number), Err(1));
    /// ```
    #[must_use]
    pub fn number(self) -> u32 {
        match self {
            Refusal::NotANumber => 1,
            Refusal::BeyondLimit => 2,
            Refusal::DepthAbove3 => 3,
            Refusal::RoomTooShort => 4,
            Refusal::Degenerate => 5,
            Refusal::OutsideSpan => 6,
            Refusal::Unknown(number) => number,
        }
    }
}

impl fmt::Display for Refusal {
    fn fmt(&self, f: &mut fmt::Formatter<'_>) -> fmt::Result {
        f.write_str(match self {
            Refusal::NotANumber => "some number is NaN or infinite",
            Refusal::BeyondLimit => "some number is beyond its limit (1,048,576, or 1,024 for an angle)",
            Refusal::DepthAbove3 => "the depth is above 3",
            Refusal::RoomTooShort => "the lent room is too short",
            Refusal::Degenerate => "the construction is degenerate",
            Refusal::OutsideSpan => "the angle is outside the arc's span",
            Refusal::Unknown(number) => return write!(f, "refusal {number}, which this crate has no name for"),
        })
    }
}

impl core::error::Error for Refusal {}

#[cfg(test)]
mod tests {
    use super::Refusal;
    use std::string::ToString;

    #[test]
    fn a_refusal_has_its_number() {
        for number in (0..100).chain([u32::MAX]) {
            assert_eq!(Refusal::of(number).number(), number);
        }
    }

    #[test]
    fn named_and_unknown_refusals() {
        let named = [
            Refusal::NotANumber,
            Refusal::BeyondLimit,
            Refusal::DepthAbove3,
            Refusal::RoomTooShort,
            Refusal::Degenerate,
            Refusal::OutsideSpan,
        ];
        assert_eq!([1, 2, 3, 4, 5, 6].map(Refusal::of), named);
        assert_eq!([0, 7, u32::MAX].map(Refusal::of), [0, 7, u32::MAX].map(Refusal::Unknown));
        assert_eq!(Refusal::of(7).to_string(), "refusal 7, which this crate has no name for");
    }
}
