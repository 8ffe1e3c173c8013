//! The words of the questions, and those of their answers.
use hidreport::c::{CollectionKind, Direction, FieldKind, Mends, Push, Reason, Status, UsagesBy};
use hidreport::c::{Options, NO_LIMIT};

/// The bytes of a word: of hexadecimal digits, or `9*a4`, one of them nine times.
pub fn word_bytes(word: &str) -> Vec<u8> {
    if let Some((times, byte)) = word.split_once('*') {
        return word_bytes(byte).repeat(times.parse().expect("a number"));
    }
    let digits: Vec<char> = word.chars().filter(|c| c.is_ascii_hexdigit()).collect();
    let byte = |pair: &[char]| u8::from_str_radix(&pair.iter().collect::<String>(), 16);
    digits.chunks(2).map(|pair| byte(pair).expect("two digits")).collect()
}

pub fn bytes_of(text: &str) -> Vec<u8> {
    text.split_whitespace().flat_map(word_bytes).collect()
}

/// Another direction than these can't be named in Rust.
pub fn direction_of(word: &str) -> Option<Direction> {
    match word {
        "input" => Some(Direction::Input),
        "output" => Some(Direction::Output),
        "feature" => Some(Direction::Feature),
        _ => None,
    }
}

/// Other options than these can't be named in Rust.
pub fn options_of(limit: &str, push: &str) -> Option<Options> {
    Some(Options {
        limit: match limit {
            "default" => Options::default().limit,
            "none" => NO_LIMIT,
            _ => limit.parse().expect("a limit"),
        },
        push: match push {
            "default" => Options::default().push,
            "all" => Push::All,
            "globals" => Push::Globals,
            _ => Push::try_from(push.parse::<u32>().expect("a number")).ok()?,
        },
        usages: Options::default().usages,
    })
}

/// Nor another rule.
pub fn usages_by(word: &str) -> Option<UsagesBy> {
    match word {
        "standard" => Some(UsagesBy::Standard),
        "hosts" => Some(UsagesBy::Hosts),
        "linux" => Some(UsagesBy::Linux),
        _ => UsagesBy::try_from(word.parse::<u32>().expect("a number")).ok(),
    }
}

/// Nor other mends.
pub fn mends_of(word: &str) -> Option<Mends> {
    Some(match word {
        "default" => Mends::default(),
        "cut-short" => Mends { cut_short: true, unsigned_maxima: false },
        "unsigned-maxima" => Mends { cut_short: false, unsigned_maxima: true },
        "both" => Mends { cut_short: true, unsigned_maxima: true },
        _ => Mends::try_from(word.parse::<u32>().expect("a number")).ok()?,
    })
}

/// What C answers to what can't be named in Rust; texts and bytes have a line of their own.
pub fn say_unknown(kind: &str) {
    match kind {
        "alike" => println!("  offset 0 unknown-option of 0 alike 0"),
        _ => println!("  count 0 offset 0 unknown-option"),
    }
    if matches!(kind, "message" | "repair" | "repair-message") {
        println!("  ");
    }
}

/// The module makes room for all that there is; with less, C has the first of them.
pub fn room_of(word: &str) -> usize {
    match word {
        "enough" => usize::MAX,
        _ => word.parse().expect("a room"),
    }
}

pub fn reason_of(number: u32) -> &'static str {
    match Reason::try_from(number) {
        Ok(Reason::NoData) => "no data",
        Ok(Reason::UnknownMainItem) => "unknown main item",
        Ok(Reason::EndedLocal) => "local of an unknown main item",
        Ok(Reason::NoUsage) => "no usage",
        Ok(Reason::UnsignedMaximum) => "unsigned maximum",
        Ok(Reason::CutShort) => "cut short",
        Err(_) => "?",
    }
}

pub fn words_of(status: Status) -> &'static str {
    match status {
        Status::InvalidData => "invalid-data",
        Status::OutOfBounds => "out-of-bounds",
        Status::MismatchingReportId => "mismatching-report-id",
        Status::OutOfMemory => "out-of-memory",
        Status::BudgetExceeded => "budget-exceeded",
        Status::UnknownOption => "unknown-option",
        Status::DoesNotFit => "does-not-fit",
        Status::WrongCount => "wrong-count",
    }
}

pub fn kind_of(kind: u32) -> &'static str {
    match FieldKind::try_from(kind) {
        Ok(FieldKind::Variable) => "variable",
        Ok(FieldKind::Array) => "array",
        Ok(FieldKind::Constant) => "constant",
        Err(_) => "?",
    }
}

pub fn collection_of(kind: u32) -> String {
    String::from(match CollectionKind::try_from(kind) {
        Ok(CollectionKind::Physical) => "physical",
        Ok(CollectionKind::Application) => "application",
        Ok(CollectionKind::Logical) => "logical",
        Ok(CollectionKind::Report) => "report",
        Ok(CollectionKind::NamedArray) => "named-array",
        Ok(CollectionKind::UsageSwitch) => "usage-switch",
        Ok(CollectionKind::UsageModifier) => "usage-modifier",
        Ok(
            CollectionKind::Reserved { value: byte }
            | CollectionKind::VendorDefined { value: byte },
        ) => return byte.to_string(),
        Err(_) => "?",
    })
}

/// An id in front of anything, or `-` for none.
pub fn id_of(word: &str) -> Option<u8> {
    let id = word.split('=').next().expect("an id");
    (id != "-").then(|| id.parse().expect("an id"))
}

/// A usage of hexadecimal digits, behind a `=` if there is one.
pub fn usage_of(word: &str) -> u32 {
    let digits = word.rsplit('=').next().expect("a usage");
    u32::from_str_radix(digits, 16).expect("a usage")
}

/// Numbers with a comma between two of them; `-` is none.
pub fn numbers_of(word: &str) -> Vec<i64> {
    let numbers = word.split(',').filter(|number| *number != "-");
    numbers.map(|number| number.parse().expect("a number")).collect()
}
