//! Questions of names.
use crate::words::{bytes_of, usage_of};
use hidreport::c;

/// A name has a `_` for each space.
fn name_of(word: &str) -> String {
    word.replace('_', " ")
}

fn say(text: Result<String, c::Status>) {
    let text = text.expect("a text");
    println!("  count {} offset 0 accepted\n  {text}", text.len());
}

fn tell(number: Option<u32>) {
    println!("  usage {:08x} {}", number.unwrap_or(0), u8::from(number.is_some()));
}

/// A page of hexadecimal digits.
fn page_of(word: &str) -> u16 {
    usage_of(word).try_into().expect("a page")
}

/// Answers a question of these kinds, and no other.
pub fn ask(kind: &str, words: &[&str]) -> bool {
    match kind {
        "usage-name" => say(c::usage_name(usage_of(words[0]))),
        "page-name" => say(c::page_name(page_of(words[0]))),
        "usage-by-name" => tell(c::usage_by_name(&name_of(words[0]))),
        "usage-on-page" => tell(c::usage_on_page(page_of(words[0]), &name_of(words[1]))),
        "page-by-name" => {
            let page = c::page_by_name(&name_of(words[0]));
            println!("  page {:04x} {}", page.unwrap_or(0), u8::from(page.is_some()));
        }
        "item-name" => say(c::item_name(&bytes_of(&words.concat()))),
        "flag-words" => say(c::flag_words(&bytes_of(&words.concat()))),
        "collection-name" => say(c::collection_name(words[0].parse().expect("a number"))),
        _ => return false,
    }
    true
}
