//! Choices of lists, as commands name them, each list with a name.

use crate::{generate, numbers, sweep};

pub type Lists = Box<dyn Iterator<Item = Vec<u8>>>;
pub type Named = Box<dyn Iterator<Item = (String, Vec<u8>)>>;

/// `KIND FROM TO`, `all FROM TO`, `exhaust LENGTH [BYTES]`, `sweep CALLS` or
/// `numbers`.
pub fn named_lists(words: &[&str]) -> Result<Named, &'static str> {
    Ok(match *words {
        ["exhaust", ref choice @ ..] => by_bytes(byte_lists(choice)?),
        ["numbers"] => by_bytes(numbers::lists()),
        ["sweep", calls] => {
            let calls = number(calls)? as usize;
            let numbers = 0..sweep::sequences(calls);
            let name = move |which| format!("sweep {calls} {which}");
            Box::new(numbers.map(move |which| (name(which), sweep::sequence(calls, which))))
        }
        [kind, from, to] => {
            let seeds = number(from)?..number(to)?;
            let lists = kinds(kind)?.into_iter().flat_map(move |kind| {
                let list = move |seed| generate::list(kind, seed, false).expect("a known kind");
                let seeds = seeds.clone();
                seeds.map(move |seed| (format!("gen {kind} {seed}"), list(seed)))
            });
            Box::new(lists)
        }
        _ => return Err("not a choice of lists"),
    })
}

/// Lists that have their bytes as names.
fn by_bytes(lists: impl Iterator<Item = Vec<u8>> + 'static) -> Named {
    Box::new(lists.map(|list| (format!("bytes {}", list_hex(&list)), list)))
}

/// The kinds that a word names: itself, or with `all` every kind.
pub fn kinds(word: &str) -> Result<Vec<&'static str>, &'static str> {
    let mut kinds = generate::kinds();
    kinds.retain(|kind| word == "all" || word == *kind);
    if kinds.is_empty() {
        return Err("not a kind");
    }
    Ok(kinds)
}

/// `LENGTH [BYTES]`.
pub fn byte_lists(words: &[&str]) -> Result<Lists, &'static str> {
    let (length, bytes) = match *words {
        [length] => (length, sweep::every_byte()),
        [length, bytes] => (length, hex_bytes(bytes)?),
        _ => return Err("not a choice of lists"),
    };
    let length = number(length)? as usize;
    Ok(Box::new(sweep::byte_lists(length, &bytes)))
}

pub fn number(word: &str) -> Result<u64, &'static str> {
    word.parse().map_err(|_| "not a number")
}

/// A list's bytes in hex, `-` for none.
pub fn list_hex(list: &[u8]) -> String {
    if list.is_empty() {
        return "-".into();
    }
    list.iter().map(|byte| format!("{byte:02x}")).collect()
}

fn hex_bytes(word: &str) -> Result<Vec<u8>, &'static str> {
    let pairs = word.as_bytes().chunks(2);
    pairs
        .map(|pair| {
            let pair = std::str::from_utf8(pair).map_err(|_| "not hex")?;
            u8::from_str_radix(pair, 16).map_err(|_| "not hex")
        })
        .collect()
}
