//! Items and lists of them, as text.
use crate::show::{bytes_text, caught, flag, kind_text, refusal_text};
use hidreport::hid::{
    GlobalItem, HidError, Item, ItemType, LocalItem, MainDataItem, MainItem, ReportDescriptorItems,
};

/// What the reader of items makes of a slice.
pub fn item_text(bytes: &[u8]) -> String {
    match caught(|| ItemType::try_from(bytes)) {
        Ok(Ok(item)) => format!("{} = {}\n", name_text(&item), bytes_text(&item.as_bytes())),
        Ok(Err(error)) => refusal(&error) + "\n",
        Err(message) => format!("panics: {message}\n"),
    }
}

fn refusal(error: &HidError) -> String {
    match error {
        HidError::InvalidData { message } => format!("invalid: {message}"),
        HidError::InsufficientData => "insufficient".to_string(),
    }
}

/// The name and the parts of an item.
fn name_text(item: &ItemType) -> String {
    match item {
        ItemType::Main(item) => main_text(item),
        ItemType::Global(item) => format!("{} prefix {:02x}", global_text(item), item.prefix()),
        ItemType::Local(item) => format!("{} prefix {:02x}", local_text(item), item.prefix()),
        ItemType::Long => "Long".to_string(),
        ItemType::Reserved => "Reserved".to_string(),
    }
}

fn main_text(item: &MainItem) -> String {
    match item {
        MainItem::Input(item) => format!("Input {}", flags_text(item)),
        MainItem::Output(item) => {
            let volatile = flag(item.is_volatile(), item.is_nonvolatile(), ["V", "v"]);
            format!("Output {}{volatile}", flags_text(item))
        }
        MainItem::Feature(item) => {
            let volatile = flag(item.is_volatile(), item.is_nonvolatile(), ["V", "v"]);
            format!("Feature {}{volatile}", flags_text(item))
        }
        MainItem::Collection(kind) => format!("Collection {}", kind_text(*kind)),
        MainItem::EndCollection => "EndCollection".to_string(),
    }
}

fn flags_text(item: &impl MainDataItem) -> String {
    let mut text = flag(item.is_constant(), item.is_data(), ["C", "c"]);
    text += &flag(item.is_variable(), item.is_array(), ["A", "a"]);
    text += &flag(item.is_relative(), item.is_absolute(), ["R", "r"]);
    text += &flag(item.wraps(), item.does_not_wrap(), ["W", "w"]);
    text += &flag(item.is_nonlinear(), item.is_linear(), ["N", "n"]);
    text += &flag(item.has_no_preferred_state(), item.has_preferred_state(), ["P", "p"]);
    text += &flag(item.has_null_state(), item.has_no_null_state(), ["Z", "z"]);
    text + &flag(item.is_buffered_bytes(), item.is_bitfield(), ["B", "b"])
}

fn global_text(item: &GlobalItem) -> String {
    match item {
        GlobalItem::UsagePage(page) => format!("UsagePage {page}"),
        GlobalItem::LogicalMinimum(bound) => format!("LogicalMinimum {bound}"),
        GlobalItem::LogicalMaximum(bound) => format!("LogicalMaximum {bound}"),
        GlobalItem::PhysicalMinimum(bound) => format!("PhysicalMinimum {bound}"),
        GlobalItem::PhysicalMaximum(bound) => format!("PhysicalMaximum {bound}"),
        GlobalItem::UnitExponent(exponent) => format!("UnitExponent {exponent}"),
        GlobalItem::Unit(unit) => format!("Unit {}", u32::from(*unit)),
        GlobalItem::ReportSize(size) => format!("ReportSize {size}"),
        GlobalItem::ReportId(id) => format!("ReportId {id}"),
        GlobalItem::ReportCount(count) => format!("ReportCount {count}"),
        GlobalItem::Push => "Push".to_string(),
        GlobalItem::Pop => "Pop".to_string(),
        GlobalItem::Reserved => "GlobalReserved".to_string(),
    }
}

fn local_text(item: &LocalItem) -> String {
    match item {
        LocalItem::Usage(page, id) => format!("Usage {page} {id}"),
        LocalItem::UsageId(id) => format!("UsageId {id}"),
        LocalItem::UsageMinimum(minimum) => format!("UsageMinimum {minimum}"),
        LocalItem::UsageMaximum(maximum) => format!("UsageMaximum {maximum}"),
        LocalItem::DesignatorIndex(index) => format!("DesignatorIndex {index}"),
        LocalItem::DesignatorMinimum(minimum) => format!("DesignatorMinimum {minimum}"),
        LocalItem::DesignatorMaximum(maximum) => format!("DesignatorMaximum {maximum}"),
        LocalItem::StringIndex(index) => format!("StringIndex {index}"),
        LocalItem::StringMinimum(minimum) => format!("StringMinimum {minimum}"),
        LocalItem::StringMaximum(maximum) => format!("StringMaximum {maximum}"),
        LocalItem::Delimiter(delimiter) => format!("Delimiter {delimiter}"),
        LocalItem::Reserved { value } => format!("LocalReserved {value:02x}"),
    }
}

/// The items that bytes are cut into, a line each, or the fault.
pub fn list_text(bytes: &[u8]) -> String {
    match caught(|| ReportDescriptorItems::try_from(bytes)) {
        Ok(Ok(items)) => items
            .iter()
            .map(|item| format!("{} {}", item.offset(), short_text(item.item())))
            .collect(),
        Ok(Err(error)) => refusal_text(&error),
        Err(message) => format!("panics: {message}\n"),
    }
}

fn short_text(item: &impl Item) -> String {
    let mut text = bytes_text(item.bytes());
    let (size, header, tag) = (item.size(), item.header(), item.tag());
    text += &format!(" size {size} header {header:02x} tag {tag} ");
    text += &flag(item.is_long_item(), !item.is_long_item(), ["long", "short"]);
    match item.data() {
        Some(data) => {
            text += &format!(" data {}", bytes_text(&data));
            text += &match u32::try_from(&data) {
                Ok(number) => format!(" {number}"),
                Err(error) => refusal(&error),
            };
            text += &match u8::try_from(&data) {
                Ok(number) => format!(" {number}"),
                Err(error) => format!(" {}", refusal(&error)),
            };
        }
        None => text += " no data",
    }
    format!("{text}: {}\n", name_text(&item.item_type()))
}
