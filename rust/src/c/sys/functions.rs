//! The functions of `include/hidreport.h`.
use crate::c::sys::{
    Answer, Change, Choice, Collection, Field, Group, Item, Likeness, MaybeFraction, Options, Page,
    Report, Run, Usage, Value,
};

extern "C" {
    pub fn hidreport_version() -> u32;

    pub fn hidreport_reports(
        descriptor: *const u8,
        length: usize,
        options: Options,
        direction: u32,
        reports: *mut Report,
        room: usize,
    ) -> Answer;

    pub fn hidreport_describe(
        descriptor: *const u8,
        length: usize,
        options: Options,
        direction: u32,
        fields: *mut Field,
        room: usize,
    ) -> Answer;

    pub fn hidreport_find(
        descriptor: *const u8,
        length: usize,
        options: Options,
        direction: u32,
        report: *const u8,
        report_length: usize,
        fields: *mut Field,
        room: usize,
    ) -> Answer;

    pub fn hidreport_groups(
        descriptor: *const u8,
        length: usize,
        options: Options,
        direction: u32,
        groups: *mut Group,
        room: usize,
    ) -> Answer;

    pub fn hidreport_group_usage(
        descriptor: *const u8,
        length: usize,
        options: Options,
        direction: u32,
        group: usize,
        index: usize,
        usage: *mut u32,
        room: usize,
    ) -> Answer;

    pub fn hidreport_group_field(
        descriptor: *const u8,
        length: usize,
        options: Options,
        direction: u32,
        group: usize,
        index: usize,
        field: *mut Field,
        room: usize,
    ) -> Answer;

    pub fn hidreport_report_with(
        descriptor: *const u8,
        length: usize,
        options: Options,
        direction: u32,
        has_id: bool,
        id: u8,
        report: *mut Report,
        room: usize,
    ) -> Answer;

    pub fn hidreport_field_numbered(
        descriptor: *const u8,
        length: usize,
        options: Options,
        number: u32,
        field: *mut Field,
        room: usize,
    ) -> Answer;

    pub fn hidreport_field_for(
        descriptor: *const u8,
        length: usize,
        options: Options,
        direction: u32,
        has_id: bool,
        id: u8,
        usage: u32,
        field: *mut Field,
        room: usize,
    ) -> Answer;

    pub fn hidreport_usages(
        descriptor: *const u8,
        length: usize,
        options: Options,
        field: u32,
        usages: *mut u32,
        room: usize,
    ) -> Answer;

    pub fn hidreport_describe_usages(
        descriptor: *const u8,
        length: usize,
        options: Options,
        direction: u32,
        usages: *mut u32,
        room: usize,
    ) -> Answer;

    pub fn hidreport_find_usages(
        descriptor: *const u8,
        length: usize,
        options: Options,
        direction: u32,
        report: *const u8,
        report_length: usize,
        usages: *mut u32,
        room: usize,
    ) -> Answer;

    pub fn hidreport_collections(
        descriptor: *const u8,
        length: usize,
        options: Options,
        field: u32,
        collections: *mut Collection,
        room: usize,
    ) -> Answer;

    pub fn hidreport_collection_usages(
        descriptor: *const u8,
        length: usize,
        options: Options,
        field: u32,
        index: usize,
        usages: *mut u32,
        room: usize,
    ) -> Answer;

    pub fn hidreport_describe_collections(
        descriptor: *const u8,
        length: usize,
        options: Options,
        direction: u32,
        collections: *mut Collection,
        room: usize,
    ) -> Answer;

    pub fn hidreport_describe_collection_usages(
        descriptor: *const u8,
        length: usize,
        options: Options,
        direction: u32,
        usages: *mut u32,
        room: usize,
    ) -> Answer;

    pub fn hidreport_is_alike(
        descriptor: *const u8,
        length: usize,
        other: *const u8,
        other_length: usize,
        options: Options,
    ) -> Likeness;

    pub fn hidreport_message(
        descriptor: *const u8,
        length: usize,
        options: Options,
        text: *mut u8,
        room: usize,
    ) -> Answer;

    pub fn hidreport_items(
        descriptor: *const u8,
        length: usize,
        items: *mut Item,
        room: usize,
    ) -> Answer;

    pub fn hidreport_front_items(
        descriptor: *const u8,
        length: usize,
        items: *mut Item,
        room: usize,
    ) -> Answer;

    pub fn hidreport_rebuild(
        descriptor: *const u8,
        length: usize,
        bytes: *mut u8,
        room: usize,
    ) -> Answer;

    pub fn hidreport_items_message(
        descriptor: *const u8,
        length: usize,
        text: *mut u8,
        room: usize,
    ) -> Answer;

    pub fn hidreport_repair(
        descriptor: *const u8,
        length: usize,
        options: Options,
        mends: u32,
        bytes: *mut u8,
        room: usize,
    ) -> Answer;

    pub fn hidreport_changes(
        descriptor: *const u8,
        length: usize,
        options: Options,
        mends: u32,
        changes: *mut Change,
        room: usize,
    ) -> Answer;

    pub fn hidreport_repair_message(
        descriptor: *const u8,
        length: usize,
        options: Options,
        mends: u32,
        text: *mut u8,
        room: usize,
    ) -> Answer;

    pub fn hidreport_value(
        field: *const Field,
        report: *const u8,
        report_length: usize,
        index: usize,
    ) -> Value;

    pub fn hidreport_values(
        field: *const Field,
        report: *const u8,
        report_length: usize,
        values: *mut i64,
        room: usize,
    ) -> Answer;

    pub fn hidreport_read(
        fields: *const Field,
        field_count: usize,
        report: *const u8,
        report_length: usize,
        values: *mut i64,
        room: usize,
    ) -> Answer;

    pub fn hidreport_read_available(
        fields: *const Field,
        field_count: usize,
        report: *const u8,
        report_length: usize,
        values: *mut i64,
        room: usize,
    ) -> Answer;

    pub fn hidreport_write(
        fields: *const Field,
        field_count: usize,
        report: *mut u8,
        report_length: usize,
        values: *const i64,
        count: usize,
    ) -> u32;

    pub fn hidreport_prepare(
        fields: *const Field,
        field_count: usize,
        runs: *mut Run,
        room: usize,
    ) -> Answer;

    pub fn hidreport_read_prepared(
        runs: *const Run,
        run_count: usize,
        report: *const u8,
        report_length: usize,
        values: *mut i64,
        room: usize,
    ) -> Answer;

    pub fn hidreport_write_prepared(
        runs: *const Run,
        run_count: usize,
        report: *mut u8,
        report_length: usize,
        values: *const i64,
        count: usize,
    ) -> u32;

    pub fn hidreport_usage_of(
        field: *const Field,
        value: i64,
        usages: *const u32,
        usage_count: usize,
    ) -> Usage;

    pub fn hidreport_value_of(
        field: *const Field,
        usage: u32,
        usages: *const u32,
        usage_count: usize,
    ) -> Choice;

    pub fn hidreport_null_value(field: *const Field) -> Choice;

    pub fn hidreport_physical(field: *const Field, value: i64) -> MaybeFraction;

    pub fn hidreport_normalized(field: *const Field, value: i64) -> MaybeFraction;

    pub fn hidreport_insert(
        field: *const Field,
        report: *mut u8,
        report_length: usize,
        index: usize,
        value: i64,
    ) -> u32;

    pub fn hidreport_insert_all(
        field: *const Field,
        report: *mut u8,
        report_length: usize,
        values: *const i64,
        count: usize,
    ) -> u32;

    pub fn hidreport_blank(report: *const Report, bytes: *mut u8, room: usize) -> Answer;

    pub fn hidreport_usage_name(usage: u32, text: *mut u8, room: usize) -> Answer;

    pub fn hidreport_page_name(page: u16, text: *mut u8, room: usize) -> Answer;

    pub fn hidreport_usage_by_name(name: *const u8, length: usize) -> Usage;

    pub fn hidreport_usage_on_page(page: u16, name: *const u8, length: usize) -> Usage;

    pub fn hidreport_page_by_name(name: *const u8, length: usize) -> Page;

    pub fn hidreport_item_name(
        item: *const u8,
        length: usize,
        text: *mut u8,
        room: usize,
    ) -> Answer;

    pub fn hidreport_flag_words(
        item: *const u8,
        length: usize,
        text: *mut u8,
        room: usize,
    ) -> Answer;

    pub fn hidreport_collection_name(kind: u32, text: *mut u8, room: usize) -> Answer;
}
