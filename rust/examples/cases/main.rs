//! Prints the questions of its input with their answers, as c/cases.c does, by this module's
//! functions.
mod names;
mod wholes;
mod words;

use hidreport::c::{
    Collection, Direction, Field, Flags, Fraction, Measures, Options, Refusal, Report, Status,
    Unread,
};
use std::io::BufRead;
use words::{
    bytes_of, collection_of, direction_of, id_of, kind_of, mends_of, numbers_of, options_of,
    reason_of, room_of, say_unknown, usage_of, usages_by, words_of,
};

/// What the last questions gave, for the questions about it.
#[derive(Default)]
struct Asked {
    options: Options,
    /// Options that can't be named in Rust were asked for.
    is_unknown: bool,
    fields: Vec<Field>,
    usages: Vec<u32>,
    report: Report,
}

/// The list's length, or the refusal; then the list.
fn counted<T>(answer: Result<Vec<T>, Refusal>) -> Vec<T> {
    match answer {
        Ok(list) => {
            println!("  count {} offset 0 accepted", list.len());
            list
        }
        Err(refusal) => {
            println!("  count 0 offset {} {}", refusal.offset, words_of(refusal.status));
            Vec::new()
        }
    }
}

fn say(message: Result<String, Status>) {
    match message {
        Ok(text) => println!("  count {} offset 0 accepted\n  {text}", text.len()),
        Err(status) => println!("  count 0 offset 0 {}\n  ", words_of(status)),
    }
}

fn print_bytes(bytes: &[u8]) {
    let digits: String = bytes.iter().map(|byte| format!("{byte:02x}")).collect();
    println!("  {digits}");
}

/// A refusal with its text.
fn tell(answer: Result<Vec<Field>, Refusal>) {
    let refusal = answer.expect_err("a refusal");
    println!("  {} at {}: {}", words_of(refusal.status), refusal.offset, refusal.message);
}

fn print_field(f: &Field) {
    let (u, m, c, g) = (&f.usages, &f.measures, &f.collections, &f.flags);
    let bit = |b: bool| u8::from(b);
    print!("  #{} {} bits {}..{}", f.number, kind_of(f.kind), f.first_bit, f.end_bit);
    print!(" values {} usages {}", f.value_count, u.count);
    print!(" {:08x}..{:08x} {}", u.first, u.last, bit(u.is_range));
    print!(" collections {} {}", c.count, c.innermost);
    println!(" report {} {}", bit(f.has_report_id), f.report_id);
    print_shared(m, g);
}

/// What the fields of one item share.
fn print_shared(m: &Measures, g: &Flags) {
    let bit = |b: bool| u8::from(b);
    print!("    logical {}..{}", m.logical_minimum, m.logical_maximum);
    print!(" physical {} {}", bit(m.has_physical_minimum), m.physical_minimum);
    print!("..{} {}", bit(m.has_physical_maximum), m.physical_maximum);
    print!(" unit {} {:08x}", bit(m.has_unit), m.unit);
    print!(" exponent {} {} flags ", bit(m.has_unit_exponent), m.unit_exponent);
    for flag in [
        g.is_relative,
        g.wraps,
        g.is_nonlinear,
        g.has_no_preferred_state,
        g.has_null_state,
        g.is_buffered_bytes,
        g.is_volatile,
    ] {
        print!("{}", bit(flag));
    }
    println!();
}

/// The version that this crate says of itself is that of the library.
fn version() {
    let [major, minor, patch, stage] = hidreport::c::version();
    let same = format!("{major}.{minor}.{patch}-{stage}") == env!("CARGO_PKG_VERSION");
    println!("  {}", if same { "as here" } else { "not as here" });
}

fn print_report(r: &Report) {
    print!("  id {} {} bits {}", u8::from(r.has_id), r.id, r.size_in_bits);
    println!(" bytes {} fields {}", r.size_in_bytes, r.field_count);
}

fn print_collections(answer: Result<Vec<Collection>, Refusal>) {
    for c in counted(answer) {
        print!("  #{} {}", c.number, collection_of(c.kind));
        println!(" usages {} {:08x}", c.usage_count, c.usage);
    }
}

fn print_choice(value: Option<i64>) {
    println!("  value {} {}", value.unwrap_or(0), u8::from(value.is_some()));
}

fn print_fraction(fraction: Option<Fraction>) {
    let is_there = u8::from(fraction.is_some());
    let f = fraction.unwrap_or(Fraction { numerator: 0, denominator: 0 });
    println!("  fraction {} {} {is_there}", f.numerator, f.denominator);
}

impl Asked {
    fn keep_fields(&mut self, answer: Result<Vec<Field>, Refusal>) {
        self.fields = counted(answer);
        self.fields.iter().for_each(print_field);
    }

    fn keep_usages(&mut self, answer: Result<Vec<u32>, Refusal>) {
        self.usages = counted(answer);
        self.usages.iter().for_each(|usage| println!("  {usage:08x}"));
    }

    /// Questions of a direction.
    fn ask_direction(&mut self, kind: &str, word: &str, descriptor: &[u8], report: &[u8]) {
        let direction = match direction_of(word) {
            Some(direction) => direction,
            None => return println!("  count 0 offset 0 accepted"),
        };
        match kind {
            "describe" => {
                self.keep_fields(hidreport::c::describe(descriptor, self.options, direction))
            }
            "find" => {
                self.keep_fields(hidreport::c::find(descriptor, self.options, direction, report))
            }
            _ => {
                let listed = counted(hidreport::c::reports(descriptor, self.options, direction));
                listed.iter().for_each(print_report);
            }
        }
    }

    /// Questions of a field's number.
    fn ask_number(&mut self, kind: &str, words: &[&str], descriptor: &[u8]) {
        let number = words[0].parse().expect("a number");
        match kind {
            "usages" => self.keep_usages(hidreport::c::usages(descriptor, self.options, number)),
            "collection-usages" => {
                let index = words[1].parse().expect("an index");
                let answer =
                    hidreport::c::collection_usages(descriptor, self.options, number, index);
                self.keep_usages(answer);
            }
            _ => print_collections(hidreport::c::collections(descriptor, self.options, number)),
        }
    }

    /// Questions of one report or one field, by a direction, an id and a usage.
    fn ask_lookup(&mut self, kind: &str, words: &[&str], descriptor: &[u8]) {
        let direction = match direction_of(words[0]) {
            Some(direction) => direction,
            None => return println!("  count 0 offset 0 accepted"),
        };
        let (options, id) = (self.options, id_of(words[1]));
        if kind == "field-for" {
            let usage = usage_of(words[1]);
            let found = hidreport::c::field_for(descriptor, options, direction, id, usage);
            return self.keep_fields(found.map(Vec::from_iter));
        }
        let found = hidreport::c::report_with(descriptor, options, direction, id);
        for report in counted(found.map(Vec::from_iter)) {
            print_report(&report);
            self.report = report;
        }
    }

    /// The report that was found last, without values.
    fn ask_blank(&self, room: usize) {
        let bytes = hidreport::c::blank(&self.report).unwrap_or_default();
        println!("  count {} offset 0 accepted", bytes.len());
        print_bytes(&bytes[..room.min(bytes.len())]);
    }

    /// What is written into a report by all fields that were listed.
    fn ask_write(&self, numbers: &str, mut report: Vec<u8>) {
        let (numbers, mut by_runs) = (numbers_of(numbers), report.clone());
        let done = hidreport::c::write(&self.fields, &mut report, &numbers);
        let runs = hidreport::c::prepare(&self.fields).unwrap_or_default();
        let prepared = hidreport::c::write_prepared(&runs, &mut by_runs, &numbers);
        println!("  {}", done.map_or_else(words_of, |()| "accepted"));
        print_bytes(&report);
        if (prepared, by_runs) != (done, report) {
            println!("  otherwise by runs");
        }
    }

    /// What is written into a report by a field that was listed.
    fn ask_insert(&self, kind: &str, words: &[&str], mut report: Vec<u8>) {
        let field = &self.fields[words[0].parse::<usize>().expect("a field")];
        let done = if kind == "insert-all" {
            hidreport::c::insert_all(field, &mut report, &numbers_of(words[1]))
        } else {
            let (index, value) = words[1].split_once('=').expect("an index and a value");
            let (index, value) = (index.parse().expect("an index"), value.parse());
            hidreport::c::insert(field, &mut report, index, value.expect("a value"))
        };
        println!("  {}", done.map_or_else(words_of, |()| "accepted"));
        print_bytes(&report);
    }

    /// What stands for what by a field that was listed.
    fn ask_meaning(&self, kind: &str, words: &[&str]) {
        let field = &self.fields[words[0].parse::<usize>().expect("a field")];
        let number = || words[1].parse().expect("a value");
        match kind {
            "value-of" => {
                print_choice(hidreport::c::value_of(field, usage_of(words[1]), &self.usages))
            }
            "null-value" => print_choice(hidreport::c::null_value(field)),
            "physical" => print_fraction(hidreport::c::physical(field, number())),
            _ => print_fraction(hidreport::c::normalized(field, number())),
        }
    }

    /// Whether two descriptors are alike.
    fn ask_alike(&self, descriptor: &[u8], other: &[u8]) {
        let (refusal, is_of_other) = match hidreport::c::is_alike(descriptor, other, self.options) {
            Ok(is_alike) => {
                return println!("  offset 0 accepted of 0 alike {}", u8::from(is_alike));
            }
            Err(Unread::First(refusal)) => (refusal, 0),
            Err(Unread::Other(refusal)) => (refusal, 1),
        };
        let status = words_of(refusal.status);
        println!("  offset {} {status} of {is_of_other} alike 0", refusal.offset);
    }

    /// Questions of a field that was listed.
    fn ask_field(&self, kind: &str, words: &[&str], report: &[u8]) {
        let field = &self.fields[words[0].parse::<usize>().expect("a field")];
        match kind {
            "value" => {
                let index = words[1].parse().expect("an index");
                match hidreport::c::value(field, report, index) {
                    Ok(number) => println!("  number {number} accepted"),
                    Err(status) => println!("  number 0 {}", words_of(status)),
                }
            }
            "values" => match hidreport::c::values(field, report) {
                Ok(values) => {
                    println!("  count {} offset 0 accepted", values.len());
                    values.iter().for_each(|value| println!("  {value}"));
                }
                Err(status) => println!("  count 0 offset 0 {}", words_of(status)),
            },
            _ => {
                let value = words[1].parse().expect("a value");
                let usage = hidreport::c::usage_of(field, value, &self.usages);
                println!("  usage {:08x} {}", usage.unwrap_or(0), u8::from(usage.is_some()));
            }
        }
    }

    /// Questions of a repair.
    fn ask_repair(&self, kind: &str, words: &[&str], descriptor: &[u8]) {
        let (mends, room) = match mends_of(words[0]) {
            Some(mends) => (mends, room_of(words[1])),
            None => return say_unknown(kind),
        };
        if kind == "repair" {
            let bytes = counted(hidreport::c::repair(descriptor, self.options, mends));
            return print_bytes(&bytes[..room.min(bytes.len())]);
        }
        let listed = counted(hidreport::c::changes(descriptor, self.options, mends));
        for c in listed.iter().take(room) {
            print!("  offset {} stood {} stands {}", c.offset, c.stood, c.stands);
            println!(" {}", reason_of(c.reason));
        }
    }

    fn answer(&mut self, line: &str) {
        let (question, report) = line.split_once('/').unwrap_or((line, ""));
        let report = bytes_of(report);
        let words: Vec<&str> = question.split_whitespace().collect();
        let descriptor = |from: usize| bytes_of(&words[from..].concat());
        match words[0] {
            "version" => version(),
            "options" => match options_of(words[1], words[2]) {
                Some(options) => (self.options, self.is_unknown) = (options, false),
                None => self.is_unknown = true,
            },
            "usages-by" => match usages_by(words[1]) {
                Some(usages) => (self.options.usages, self.is_unknown) = (usages, false),
                None => self.is_unknown = true,
            },
            kind if self.is_unknown => say_unknown(kind),
            kind @ ("reports" | "describe" | "find") => {
                self.ask_direction(kind, words[1], &descriptor(2), &report)
            }
            kind @ ("usages" | "collections") => self.ask_number(kind, &words[1..], &descriptor(2)),
            kind @ "collection-usages" => self.ask_number(kind, &words[1..], &descriptor(3)),
            kind @ ("value" | "values" | "usage") => self.ask_field(kind, &words[1..], &report),
            kind @ ("report" | "field-for") => self.ask_lookup(kind, &words[1..], &descriptor(3)),
            "field" => {
                let number = words[1].parse().expect("a number");
                let found = hidreport::c::field_numbered(&descriptor(2), self.options, number);
                self.keep_fields(found.map(Vec::from_iter));
            }
            "alike" => self.ask_alike(&descriptor(1), &report),
            "blank" => self.ask_blank(room_of(words[1])),
            kind @ ("insert" | "insert-all") => self.ask_insert(kind, &words[1..], report),
            "write" => self.ask_write(words[1], report),
            kind @ ("value-of" | "null-value" | "physical" | "normalized") => {
                self.ask_meaning(kind, &words[1..])
            }
            "items" => {
                for item in counted(hidreport::c::items(&descriptor(1))) {
                    println!("  offset {} size {}", item.offset, item.size);
                }
            }
            "front-items" => {
                let items = hidreport::c::front_items(&descriptor(2)).expect("memory");
                println!("  count {} offset 0 accepted", items.len());
                for item in items.iter().take(room_of(words[1])) {
                    println!("  offset {} size {}", item.offset, item.size);
                }
            }
            "rebuild" => print_bytes(&counted(hidreport::c::rebuild(&descriptor(1)))),
            kind @ ("repair" | "changes") => self.ask_repair(kind, &words[1..], &descriptor(3)),
            "repair-message" => match mends_of(words[1]) {
                Some(mends) => {
                    say(hidreport::c::repair_message(&descriptor(2), self.options, mends))
                }
                None => say_unknown("repair-message"),
            },
            "message" => say(hidreport::c::message(&descriptor(1), self.options)),
            "refusal" => {
                tell(hidreport::c::describe(&descriptor(1), self.options, Direction::Input))
            }
            "items-message" => say(hidreport::c::items_message(&descriptor(1))),
            other => {
                let is_answered = wholes::ask(self, other, &words[1..], &report)
                    || names::ask(other, &words[1..]);
                assert!(is_answered, "no question: {other}");
            }
        }
    }
}

fn main() {
    let mut asked = Asked::default();
    for line in std::io::stdin().lock().lines() {
        let line = line.expect("a line");
        println!("{line}");
        if !line.is_empty() && !line.starts_with('#') {
            asked.answer(&line);
        }
    }
}
