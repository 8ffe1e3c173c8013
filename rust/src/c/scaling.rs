//! What values stand for.
use crate::c::sys::{self, Field};

// SAFETY of all calls below: as of those in lib.rs.

/// A number that isn't whole, exactly; not always in its lowest terms.
#[derive(Clone, Copy, Debug, PartialEq, Eq)]
pub struct Fraction {
    pub numerator: i64,
    /// Above 0.
    pub denominator: i64,
}

fn fraction(answer: sys::MaybeFraction) -> Option<Fraction> {
    let sys::MaybeFraction { numerator, denominator, is_there } = answer;
    is_there.then_some(Fraction { numerator, denominator })
}

/// What a value of a variable field stands for, in the field's unit times ten to its exponent. None
/// where the logical minimum isn't below the maximum, and where 64 bits don't hold the numerator.
pub fn physical(field: &Field, value: i64) -> Option<Fraction> {
    fraction(unsafe { sys::hidreport_physical(field, value) })
}

/// The same, between -1, the logical minimum, and 1, the logical maximum.
pub fn normalized(field: &Field, value: i64) -> Option<Fraction> {
    fraction(unsafe { sys::hidreport_normalized(field, value) })
}
