//! The numbers of `include/hidreport.h` as enums: each is made of its number, and gives it again.
use std::error::Error;
use std::fmt;

/// A number that none of an enum's has.
#[derive(Clone, Copy, Debug, PartialEq, Eq)]
pub struct UnknownNumber(pub u32);

impl fmt::Display for UnknownNumber {
    fn fmt(&self, f: &mut fmt::Formatter) -> fmt::Result {
        write!(f, "{} is no such number", self.0)
    }
}

impl Error for UnknownNumber {}

/// An enum without parts, with its numbers both ways.
macro_rules! numbers {
    ($(#[$about:meta])* $name:ident { $($(#[$of:meta])* $member:ident = $number:literal,)* }) => {
        $(#[$about])*
        #[derive(Clone, Copy, Debug, PartialEq, Eq)]
        #[repr(u32)]
        pub enum $name {
            $($(#[$of])* $member = $number,)*
        }

        impl TryFrom<u32> for $name {
            type Error = UnknownNumber;

            fn try_from(number: u32) -> Result<$name, UnknownNumber> {
                match number {
                    $($number => Ok($name::$member),)*
                    _ => Err(UnknownNumber(number)),
                }
            }
        }

        impl From<$name> for u32 {
            fn from(member: $name) -> u32 {
                member as u32
            }
        }
    };
}

numbers! {
    /// The direction of a report.
    Direction {
        Input = 0,
        Output = 1,
        Feature = 2,
    }
}

numbers! {
    /// Why there is no answer.
    Status {
        /// An item can't be read, or means nothing where it stands.
        InvalidData = 1,
        /// A report or a count passes what can be counted, or bits lie outside.
        OutOfBounds = 2,
        /// A value of another report.
        MismatchingReportId = 3,
        OutOfMemory = 4,
        /// The descriptor lists more than the limit, or is too long for one.
        BudgetExceeded = 5,
        UnknownOption = 6,
        /// So many bits don't hold the number, signed or unsigned as the field is.
        DoesNotFit = 7,
        /// There are more or fewer numbers than the field has values.
        WrongCount = 8,
    }
}

impl Status {
    /// The status of an answer. Without one there is an answer.
    pub(crate) fn of_answer(number: u32) -> Result<(), Status> {
        match number {
            0 => Ok(()),
            // The library of this version has no other.
            _ => Err(Status::try_from(number).unwrap_or_else(|other| panic!("status {other}"))),
        }
    }
}

impl fmt::Display for Status {
    fn fmt(&self, f: &mut fmt::Formatter) -> fmt::Result {
        f.write_str(match self {
            Status::InvalidData => "invalid data",
            Status::OutOfBounds => "out of bounds",
            Status::MismatchingReportId => "mismatching report id",
            Status::OutOfMemory => "out of memory",
            Status::BudgetExceeded => "budget exceeded",
            Status::UnknownOption => "unknown option",
            Status::DoesNotFit => "the field's bits don't hold the value",
            Status::WrongCount => "the number of values isn't that of the field's values",
        })
    }
}

impl Error for Status {}

numbers! {
    /// `kind` of a field.
    FieldKind {
        Variable = 0,
        Array = 1,
        Constant = 2,
    }
}

numbers! {
    /// What a Push keeps.
    Push {
        /// Global and local items, as the Rust crate has it.
        All = 0,
        /// Global items alone, as Linux has it.
        Globals = 1,
    }
}

numbers! {
    /// By which rule an item finds its usages.
    UsagesBy {
        /// By the letter of the standard, as the Rust crate has it.
        Standard = 0,
        /// As hosts read them, by Linux's rules.
        Hosts = 1,
        /// All as Linux reads it: what it takes is mended first, what it refuses is refused. A Push
        /// has to keep global items alone; for a repair this says nothing.
        Linux = 2,
    }
}

numbers! {
    /// `reason` of a change: what stood there.
    Reason {
        /// An item without the data byte that it needs.
        NoData = 0,
        /// A main item of a tag that the standard doesn't know.
        UnknownMainItem = 1,
        /// A local item of such a main item.
        EndedLocal = 2,
        /// A data item without a usage.
        NoUsage = 3,
        /// A maximum that was meant unsigned.
        UnsignedMaximum = 4,
        /// An item that is cut short.
        CutShort = 5,
    }
}

/// `kind` of a collection.
#[derive(Clone, Copy, Debug, PartialEq, Eq)]
pub enum CollectionKind {
    Physical,
    Application,
    Logical,
    Report,
    NamedArray,
    UsageSwitch,
    UsageModifier,
    /// One that is reserved, 0x07 to 0x7f.
    Reserved {
        value: u8,
    },
    /// The vendor's, 0x80 to 0xff.
    VendorDefined {
        value: u8,
    },
}

impl TryFrom<u32> for CollectionKind {
    type Error = UnknownNumber;

    fn try_from(number: u32) -> Result<CollectionKind, UnknownNumber> {
        let byte = u8::try_from(number).map_err(|_| UnknownNumber(number))?;
        Ok(match byte {
            0 => CollectionKind::Physical,
            1 => CollectionKind::Application,
            2 => CollectionKind::Logical,
            3 => CollectionKind::Report,
            4 => CollectionKind::NamedArray,
            5 => CollectionKind::UsageSwitch,
            6 => CollectionKind::UsageModifier,
            0x07..=0x7f => CollectionKind::Reserved { value: byte },
            0x80.. => CollectionKind::VendorDefined { value: byte },
        })
    }
}

impl From<CollectionKind> for u32 {
    fn from(kind: CollectionKind) -> u32 {
        match kind {
            CollectionKind::Physical => 0,
            CollectionKind::Application => 1,
            CollectionKind::Logical => 2,
            CollectionKind::Report => 3,
            CollectionKind::NamedArray => 4,
            CollectionKind::UsageSwitch => 5,
            CollectionKind::UsageModifier => 6,
            CollectionKind::Reserved { value } | CollectionKind::VendorDefined { value } => {
                value.into()
            }
        }
    }
}

/// What a repair mends besides what Linux reads without asking.
#[derive(Clone, Copy, Debug, Default, PartialEq, Eq)]
pub struct Mends {
    /// An item that is cut short is left out, with all bytes from there on.
    pub cut_short: bool,
    /// A negative maximum is written without a sign, where no negative minimum is in force.
    pub unsigned_maxima: bool,
}

impl TryFrom<u32> for Mends {
    type Error = UnknownNumber;

    fn try_from(number: u32) -> Result<Mends, UnknownNumber> {
        match number {
            0..=3 => Ok(Mends { cut_short: number & 1 != 0, unsigned_maxima: number & 2 != 0 }),
            _ => Err(UnknownNumber(number)),
        }
    }
}

impl From<Mends> for u32 {
    fn from(mends: Mends) -> u32 {
        u32::from(mends.cut_short) + 2 * u32::from(mends.unsigned_maxima)
    }
}

#[cfg(test)]
mod tests {
    use super::*;

    /// Each number that has a member is that member's, and no other has one.
    fn both_ways<T: TryFrom<u32, Error = UnknownNumber> + Into<u32>>(known: &[u32]) {
        for number in (0..300).chain([u32::MAX]) {
            match T::try_from(number) {
                Ok(member) => assert_eq!((member.into(), known.contains(&number)), (number, true)),
                Err(unknown) => {
                    assert_eq!((unknown, known.contains(&number)), (UnknownNumber(number), false))
                }
            }
        }
    }

    #[test]
    fn numbers_are_those_of_the_header() {
        both_ways::<Direction>(&[0, 1, 2]);
        both_ways::<Status>(&[1, 2, 3, 4, 5, 6, 7, 8]);
        both_ways::<FieldKind>(&[0, 1, 2]);
        both_ways::<Push>(&[0, 1]);
        both_ways::<UsagesBy>(&[0, 1, 2]);
        both_ways::<Reason>(&[0, 1, 2, 3, 4, 5]);
        both_ways::<CollectionKind>(&(0..256).collect::<Vec<u32>>());
        both_ways::<Mends>(&[0, 1, 2, 3]);
    }

    #[test]
    fn an_answer_has_its_status() {
        assert_eq!(Status::of_answer(0), Ok(()));
        assert_eq!(Status::of_answer(4), Err(Status::OutOfMemory));
        assert_eq!(Status::OutOfMemory.to_string(), "out of memory");
        assert_eq!(UnknownNumber(7).to_string(), "7 is no such number");
    }
}
