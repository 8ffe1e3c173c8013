//! What a control is for, by page and number.
use crate::types::{UsageId, UsageMaximum, UsageMinimum, UsagePage};

/// What a control or a collection is for (Section 5.5): a page, and a number on it.
#[derive(Clone, Copy, Debug, PartialEq, Eq, PartialOrd, Ord, Hash)]
pub struct Usage {
    /// The page.
    pub usage_page: UsagePage,
    /// The number on the page.
    pub usage_id: UsageId,
}

impl Usage {
    /// The usage with this number on this page.
    pub fn from_page_and_id(usage_page: UsagePage, usage_id: UsageId) -> Usage {
        Usage { usage_page, usage_id }
    }
}

impl From<u32> for Usage {
    /// Of the page in the upper 16 bits and the number on it in the lower ones.
    fn from(number: u32) -> Usage {
        Usage { usage_page: UsagePage((number >> 16) as u16), usage_id: UsageId(number as u16) }
    }
}

impl From<Usage> for u32 {
    fn from(usage: Usage) -> u32 {
        u32::from(usage.usage_page.0) << 16 | u32::from(usage.usage_id.0)
    }
}

impl From<&Usage> for u32 {
    fn from(usage: &Usage) -> u32 {
        u32::from(*usage)
    }
}

impl From<Usage> for UsageMinimum {
    fn from(usage: Usage) -> UsageMinimum {
        UsageMinimum(usage.into())
    }
}

impl From<Usage> for UsageMaximum {
    fn from(usage: Usage) -> UsageMaximum {
        UsageMaximum(usage.into())
    }
}

/// The usages of an array that a minimum and a maximum gave (Section 6.2.2.8).
#[derive(Clone, Copy, Debug, PartialEq, Eq)]
pub struct UsageRange {
    pub(crate) minimum: UsageMinimum,
    pub(crate) maximum: UsageMaximum,
}

impl UsageRange {
    /// The first usage, with its page.
    pub fn minimum(&self) -> UsageMinimum {
        self.minimum
    }

    /// The last usage, with its page.
    pub fn maximum(&self) -> UsageMaximum {
        self.maximum
    }

    /// The usage itself where it lies within the range, else `None`.
    pub fn lookup_usage<'a>(&self, usage: &'a Usage) -> Option<&'a Usage> {
        let is_on_page = usage.usage_page == self.minimum.usage_page();
        (is_on_page && self.lookup_id(usage.usage_id).is_some()).then_some(usage)
    }

    /// The usage with this number on the range's page, where it lies within the range.
    pub fn lookup_id(&self, id: UsageId) -> Option<Usage> {
        let within = self.minimum.usage_id() <= id && id <= self.maximum.usage_id();
        within.then(|| Usage::from_page_and_id(self.minimum.usage_page(), id))
    }
}
