//! The numbers of a field and a report, each as a type of its own.
use std::fmt;

/// A number as a type: made of the number, and the number again.
macro_rules! number {
    ($(#[$about:meta])* $name:ident, $inner:ty) => {
        $(#[$about])*
        #[derive(Clone, Copy, Debug, PartialEq, Eq, PartialOrd, Ord, Hash)]
        pub struct $name(pub(crate) $inner);

        impl From<$inner> for $name {
            fn from(number: $inner) -> $name {
                $name(number)
            }
        }

        impl From<$name> for $inner {
            fn from(number: $name) -> $inner {
                number.0
            }
        }

        impl From<&$name> for $inner {
            fn from(number: &$name) -> $inner {
                number.0
            }
        }

        impl fmt::Display for $name {
            fn fmt(&self, f: &mut fmt::Formatter<'_>) -> fmt::Result {
                self.0.fmt(f)
            }
        }
    };
}

number! {
    /// The page of a usage (Section 5.5).
    UsagePage, u16
}
number! {
    /// The number of a usage on its page (Section 5.5).
    UsageId, u16
}
number! {
    /// The first usage of a range, its page in the upper 16 bits (Section 6.2.2.8).
    UsageMinimum, u32
}
number! {
    /// The last usage of a range, its page in the upper 16 bits (Section 6.2.2.8).
    UsageMaximum, u32
}
number! {
    /// The least value of a field (Section 6.2.2.7).
    LogicalMinimum, i32
}
number! {
    /// The greatest value of a field (Section 6.2.2.7).
    LogicalMaximum, i32
}
number! {
    /// What the least value stands for (Section 6.2.2.7).
    PhysicalMinimum, i32
}
number! {
    /// What the greatest value stands for (Section 6.2.2.7).
    PhysicalMaximum, i32
}
number! {
    /// The unit of a field's physical bounds, four bits for each part (Section 6.2.2.7).
    Unit, u32
}
number! {
    /// The power of ten of a unit as it stands in the descriptor (Section 6.2.2.7).
    UnitExponent, i32
}
number! {
    /// The id of a report, which is its first byte (Section 5.6).
    ReportId, u8
}
number! {
    /// How many values an array has (Section 6.2.2.7).
    ReportCount, usize
}

/// The page and the number on it of a usage that has both.
macro_rules! of_whole_usage {
    ($name:ident) => {
        impl $name {
            /// The page, the upper 16 bits.
            pub fn usage_page(&self) -> UsagePage {
                UsagePage((self.0 >> 16) as u16)
            }

            /// The number on the page, the lower 16 bits.
            pub fn usage_id(&self) -> UsageId {
                UsageId(self.0 as u16)
            }
        }
    };
}

of_whole_usage!(UsageMinimum);
of_whole_usage!(UsageMaximum);
