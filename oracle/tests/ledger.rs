//! The ledger prints what the Rust prints, listing and detail, on every list
//! tried.

use oracle::cases;
use oracle::named::named_lists;
use oracle::voucher::{agreed, Voucher};

fn agree(words: &[&str]) {
    for (name, list) in named_lists(words).unwrap() {
        assert!(agreed(&list).is_some(), "{name}");
    }
}

#[test]
fn the_whole_case() {
    let listing = Voucher::Ledger.listing(&cases::whole_case());
    assert_eq!(listing, cases::WHOLE_CASE_LISTING);
}

#[test]
fn lists_by_hand() {
    let cases = [
        cases::small_cases(),
        cases::large_cases(),
        cases::later_cases(),
    ];
    for (name, list) in cases.concat() {
        assert!(agreed(&list).is_some(), "{name}");
    }
}

#[test]
fn generated_lists() {
    let seeds = std::env::var("ORACLE_SEEDS").unwrap_or_else(|_| "150".into());
    agree(&["all", "0", &seeds]);
}

#[test]
fn short_sequences() {
    for calls in ["0", "1", "2", "3"] {
        agree(&["sweep", calls]);
    }
}

#[test]
fn short_lists() {
    agree(&["exhaust", "2"]);
    agree(&["exhaust", "5", "00010208097f80ff"]);
}

#[test]
fn forms_of_numbers() {
    agree(&["numbers"]);
}
