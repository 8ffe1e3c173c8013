//! The names of usages, pages, items, flags and kinds of collections.
use crate::c::numbers::Status;
use crate::c::sys;
use crate::c::text_of;

// SAFETY of all calls below: as of those in lib.rs.

/// The name of a usage in the HID Usage Tables, no text where they name no such usage.
pub fn usage_name(usage: u32) -> Result<String, Status> {
    text_of(|text, room| unsafe { sys::hidreport_usage_name(usage, text, room) })
}

/// The name of a usage page, likewise.
pub fn page_name(page: u16) -> Result<String, Status> {
    text_of(|text, room| unsafe { sys::hidreport_page_name(page, text, room) })
}

fn meant(usage: sys::Usage) -> Option<u32> {
    usage.is_meant.then_some(usage.usage)
}

/// The usage that has this name, of several pages that of the lowest.
pub fn usage_by_name(name: &str) -> Option<u32> {
    meant(unsafe { sys::hidreport_usage_by_name(name.as_ptr(), name.len()) })
}

/// The usage of a page that has this name.
pub fn usage_on_page(page: u16, name: &str) -> Option<u32> {
    meant(unsafe { sys::hidreport_usage_on_page(page, name.as_ptr(), name.len()) })
}

/// The usage page that has this name.
pub fn page_by_name(name: &str) -> Option<u16> {
    let found = unsafe { sys::hidreport_page_by_name(name.as_ptr(), name.len()) };
    found.is_there.then_some(found.page)
}

/// The standard's name of the item that these bytes begin with, no text where it can't be read.
pub fn item_name(item: &[u8]) -> Result<String, Status> {
    text_of(|text, room| unsafe { sys::hidreport_item_name(item.as_ptr(), item.len(), text, room) })
}

/// The flags of the Input, Output or Feature that these bytes begin with, no text of another item.
pub fn flag_words(item: &[u8]) -> Result<String, Status> {
    text_of(|text, room| unsafe {
        sys::hidreport_flag_words(item.as_ptr(), item.len(), text, room)
    })
}

/// The standard's name of a kind of collection, no text for a number above 255.
pub fn collection_name(kind: u32) -> Result<String, Status> {
    text_of(|text, room| unsafe { sys::hidreport_collection_name(kind, text, room) })
}

#[cfg(test)]
mod tests {
    use super::*;

    #[test]
    fn names_are_found_again() {
        assert_eq!(usage_name(0x0001_0002), Ok(String::from("Mouse")));
        assert_eq!(usage_by_name("Mouse"), Some(0x0001_0002));
        assert_eq!(usage_on_page(0x09, "Button 5"), Some(0x0009_0005));
        assert_eq!(page_by_name("Generic Desktop"), Some(1));
        assert_eq!(item_name(&[0x05, 0x01]), Ok(String::from("Usage Page")));
        assert_eq!(flag_words(&[0x81, 0x02]), Ok(String::from("Data,Var,Abs,NoNull")));
        assert_eq!(collection_name(1), Ok(String::from("Application")));
        assert_eq!(usage_by_name("mouse"), None);
    }
}
