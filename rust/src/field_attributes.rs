//! What the item of a field says of its values.
use crate::c::Flags;

/// What the item of a field says of its values (Section 6.2.2.5).
pub trait FieldAttributes {
    /// Whether a value is a change since the last report.
    fn is_relative(&self) -> bool;

    /// Whether a value past one bound goes on at the other.
    fn wraps(&self) -> bool;

    /// Whether values aren't linear in what was measured.
    fn is_nonlinear(&self) -> bool;

    /// Whether the control stays as it is when it is let go.
    fn has_no_preferred_state(&self) -> bool;

    /// Whether the control has a state in which it sends no meaningful data.
    fn has_null_state(&self) -> bool;

    /// Whether the field is a stream of bytes.
    fn is_buffered_bytes(&self) -> bool;

    /// Whether the device may change the value without the host; `None` in an input report.
    fn is_volatile(&self) -> Option<bool>;

    /// Whether a value is a position, say, and no change.
    fn is_absolute(&self) -> bool {
        !self.is_relative()
    }

    /// Whether a value stays within its bounds.
    fn does_not_wrap(&self) -> bool {
        !self.wraps()
    }

    /// Whether values are linear in what was measured.
    fn is_linear(&self) -> bool {
        !self.is_nonlinear()
    }

    /// Whether the control comes back to a state when it is let go.
    fn has_preferred_state(&self) -> bool {
        !self.has_no_preferred_state()
    }

    /// Whether the control always sends meaningful data.
    fn has_no_null_state(&self) -> bool {
        !self.has_null_state()
    }

    /// Whether the field is no stream of bytes.
    fn is_bitfield(&self) -> bool {
        !self.is_buffered_bytes()
    }

    /// Whether the device changes the value by the host alone; `None` in an input report.
    fn is_nonvolatile(&self) -> Option<bool> {
        self.is_volatile().map(|is_volatile| !is_volatile)
    }
}

/// The flags of an item, and whether it has all of them.
#[derive(Clone, Copy, Debug, PartialEq)]
pub(crate) struct Attributes {
    pub(crate) flags: Flags,
    pub(crate) is_input: bool,
}

/// For a field with its item's `attributes`.
macro_rules! field_attributes {
    ($field:ident) => {
        impl FieldAttributes for $field {
            fn is_relative(&self) -> bool {
                self.attributes.flags.is_relative
            }

            fn wraps(&self) -> bool {
                self.attributes.flags.wraps
            }

            fn is_nonlinear(&self) -> bool {
                self.attributes.flags.is_nonlinear
            }

            fn has_no_preferred_state(&self) -> bool {
                self.attributes.flags.has_no_preferred_state
            }

            fn has_null_state(&self) -> bool {
                self.attributes.flags.has_null_state
            }

            fn is_buffered_bytes(&self) -> bool {
                self.attributes.flags.is_buffered_bytes
            }

            fn is_volatile(&self) -> Option<bool> {
                (!self.attributes.is_input).then_some(self.attributes.flags.is_volatile)
            }
        }
    };
}

pub(crate) use field_attributes;
