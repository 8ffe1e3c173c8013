//! Questions of groups, and of all usages, collections and values at once.
use crate::words::{bytes_of, direction_of, kind_of, room_of, words_of};
use crate::{counted, print_collections, print_shared, Asked};
use hidreport::c::{self, Direction, Group};

fn print_group(g: &Group) {
    let (c, bit) = (&g.collections, |b: bool| u8::from(b));
    print!("  {} bits {}, {} each", kind_of(g.kind), g.first_bit, g.element_width);
    print!(" elements {} fields {} usage {:08x}", g.element_count, g.field_count, g.usage);
    print!(" collections {} {}", c.count, c.innermost);
    println!(" report {} {}", bit(g.has_report_id), g.report_id);
    print_shared(&g.measures, &g.flags);
}

/// The groups of a direction.
fn ask_groups(asked: &Asked, direction: Direction, words: &[&str]) {
    let descriptor = bytes_of(&words.concat());
    counted(c::groups(&descriptor, asked.options, direction)).iter().for_each(print_group);
}

/// A usage or a field by its group and its place.
fn ask_placed(asked: &mut Asked, kind: &str, direction: Direction, words: &[&str]) {
    let (group, index) = words[0].split_once('=').expect("a group and a place");
    let (group, index) = (group.parse().expect("a group"), index.parse().expect("a place"));
    let (descriptor, options) = (bytes_of(&words[1..].concat()), asked.options);
    if kind == "group-field" {
        let field = c::group_field(&descriptor, options, direction, group, index);
        return asked.keep_fields(field.map(Vec::from_iter));
    }
    let usage = c::group_usage(&descriptor, options, direction, group, index);
    asked.keep_usages(usage.map(Vec::from_iter));
}

/// The values of all fields that were listed.
fn ask_values(asked: &Asked, kind: &str, room: &str, report: &[u8]) {
    let read = match kind {
        "read" => c::read(&asked.fields, report),
        _ => c::read_available(&asked.fields, report),
    };
    let runs = c::prepare(&asked.fields).unwrap_or_default();
    let is_otherwise = kind == "read" && c::read_prepared(&runs, report) != read;
    match read {
        Ok(values) => {
            println!("  count {} offset 0 accepted", values.len());
            values.iter().take(room_of(room)).for_each(|value| println!("  {value}"));
        }
        Err(status) => println!("  count 0 offset 0 {}", words_of(status)),
    }
    if is_otherwise {
        println!("  otherwise by runs");
    }
}

/// Answers a question of these kinds, and no other.
pub(crate) fn ask(asked: &mut Asked, kind: &str, words: &[&str], report: &[u8]) -> bool {
    if matches!(kind, "read" | "read-available") {
        ask_values(asked, kind, words[0], report);
        return true;
    }
    if !matches!(kind, "groups" | "group-usage" | "group-field")
        && !matches!(kind, "describe-usages" | "find-usages")
        && !matches!(kind, "describe-collections" | "describe-collection-usages")
    {
        return false;
    }
    let direction = match direction_of(words[0]) {
        Some(direction) => direction,
        None => {
            println!("  count 0 offset 0 accepted");
            return true;
        }
    };
    let (options, descriptor) = (asked.options, || bytes_of(&words[1..].concat()));
    match kind {
        "groups" => ask_groups(asked, direction, &words[1..]),
        "group-usage" | "group-field" => ask_placed(asked, kind, direction, &words[1..]),
        "find-usages" => {
            asked.keep_usages(c::find_usages(&descriptor(), options, direction, report));
        }
        "describe-collections" => {
            print_collections(c::describe_collections(&descriptor(), options, direction));
        }
        "describe-collection-usages" => {
            asked.keep_usages(c::describe_collection_usages(&descriptor(), options, direction));
        }
        _ => asked.keep_usages(c::describe_usages(&descriptor(), options, direction)),
    }
    true
}
