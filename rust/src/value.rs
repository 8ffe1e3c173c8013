//! Values of fields.

/// A value of a field, as its bits write it: signed where the field's logical minimum is below 0.
///
/// It becomes an integer by `From`, of fewer bits by the lowest of its own.
#[derive(Clone, Copy, Debug, PartialEq, Eq, Hash)]
pub struct FieldValue {
    pub(crate) number: i64,
    pub(crate) is_signed: bool,
}

impl FieldValue {
    /// Whether the value is signed.
    pub fn is_signed(&self) -> bool {
        self.is_signed
    }
}

impl From<FieldValue> for i64 {
    /// The number itself.
    fn from(value: FieldValue) -> i64 {
        value.number
    }
}

macro_rules! lowest_bits {
    ($($integer:ty)*) => {$(
        impl From<FieldValue> for $integer {
            /// The lowest bits of the number.
            fn from(value: FieldValue) -> $integer {
                value.number as $integer
            }
        }

        impl From<&FieldValue> for $integer {
            fn from(value: &FieldValue) -> $integer {
                value.number as $integer
            }
        }
    )*};
}

lowest_bits!(u32 u16 u8 i32 i16 i8);
