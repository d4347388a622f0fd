//! Refusals and their order, on short lists.

use oracle::listing::{detail, listing};
use oracle::{cases, numbers, sweep};

const ANCHOR: [u8; 2] = [5, 0];
const SLOT: [u8; 52] = [7; 52];
const HASH: [u8; 32] = [9; 32];

fn lines(parts: &[&[u8]]) -> String {
    listing(&parts.concat()).trim_end().replace('\n', ";")
}

#[test]
fn bytes_that_are_no_call() {
    assert_eq!(lines(&[]), "");
    assert_eq!(lines(&[&[0]]), "no 3");
    assert_eq!(lines(&[&[10]]), "no 3");
    assert_eq!(lines(&[&[1, 4, 2]]), "no 3");
    assert_eq!(lines(&[&[1, 0x84, 0]]), "no 4");
    assert_eq!(lines(&[&[1], &[0x80; 9], &[2]]), "no 4");
    assert_eq!(lines(&[&[1], &[0x80; 9], &[0x82]]), "no 4");
    assert_eq!(lines(&[&[1], &[0x80; 9], &[0]]), "no 4");
    assert_eq!(lines(&[&[1], &[0x80; 9]]), "no 5");
    assert_eq!(lines(&[&[1], &[0xff; 9], &[1, 0]]), "no 1");
    assert_eq!(lines(&[&[1]]), "no 5");
    assert_eq!(lines(&[&[1, 4, 0, 0]]), "open;no 3");
    // The byte that comes first decides.
    assert_eq!(lines(&[&[9], &ANCHOR, &[2, 0x80, 0]]), "no 3");
    assert_eq!(lines(&[&[1, 0x80, 0, 2]]), "no 4");
    // A huge count is met where the bytes end, or at a bad form byte before.
    let huge = [&[0xff; 9][..], &[1]].concat();
    let member = [&SLOT[..], &[0]].concat();
    assert_eq!(lines(&[&[9], &ANCHOR, &[0], &huge, &member]), "no 5");
    assert_eq!(
        lines(&[&[9], &ANCHOR, &[0], &huge, &member, &SLOT, &[2]]),
        "no 3"
    );
}

/// What an open of a capacity in each form gives, and that the forms have the
/// limits among them.
#[test]
fn numbers_at_their_limits() {
    let groups = |first: u8, others: usize, last: u8| [&vec![first; others][..], &[last]].concat();
    let limits = [
        (groups(0xff, 8, 0x7f), "no 1"), // 2^63 - 1, nine groups
        (groups(0x80, 9, 1), "no 1"),    // 2^63, ten
        (groups(0xff, 9, 1), "no 1"),    // 2^64 - 1
        (groups(0x80, 9, 2), "no 4"),    // 2^64
        (groups(0x80, 8, 0), "no 4"),    // 0 in nine groups
        (groups(0x80, 10, 1), "no 4"),   // eleven groups
        (groups(0x80, 8, 0x80), "no 5"), // nine, and the list ends
    ];
    for (form, line) in limits {
        assert!(numbers::forms().contains(&form));
        let whole = if line == "no 5" { &[][..] } else { &[0] };
        assert_eq!(lines(&[&[1], &form, whole]), line);
    }
}

#[test]
fn the_place_of_a_fault() {
    let place = |parts: &[&[u8]]| {
        let text = detail(&parts.concat());
        let last = text.lines().last().unwrap_or_default();
        last.to_string()
    };
    let open = [1, 4, 0];
    assert_eq!(place(&[&open, &[10, 0, 0]]), "at 3");
    assert_eq!(place(&[&open, &[2, 5, 2, 0]]), "at 5");
    // A number's last byte; the tenth at the latest.
    assert_eq!(place(&[&open, &[2, 0x85, 0, 0]]), "at 5");
    assert_eq!(place(&[&open, &[2], &[0x80; 9], &[2, 0]]), "at 13");
    assert_eq!(place(&[&open, &[2], &[0x80; 14]]), "at 13");
    // Where the list ends.
    assert_eq!(place(&[&open, &[8, 5]]), "at 5");
    assert_eq!(place(&[&open, &[4], &ANCHOR, &SLOT[1..]]), "at 57");
    assert_eq!(place(&[&open, &[8], &ANCHOR]), "no 21");
}

#[test]
fn the_order_of_the_others() {
    let order = cases::small_cases()
        .into_iter()
        .find(|(name, _)| *name == "order")
        .expect("a case");
    assert_eq!(
        listing(&order.1),
        "no 20\nno 1\nno 2\nno 9\nopen\nno 8\nno 21\nanchor fresh\nno 6\nno 7\nno 22\n"
    );
}

/// The refusals of a list by hand, in order.
fn refusals_of(name: &str) -> Vec<u8> {
    let mut cases = cases::later_cases().into_iter();
    let list = cases.find(|(case, _)| *case == name).expect("a case").1;
    let text = listing(&list);
    let numbers = text.lines().filter_map(|line| line.strip_prefix("no "));
    numbers.map(|number| number.parse().unwrap()).collect()
}

#[test]
fn orders_by_hand() {
    let without_store = [20; 6];
    assert_eq!(
        refusals_of("order-20"),
        [&without_store[..], &[6, 7, 8, 8, 21, 21]].concat()
    );
    assert_eq!(refusals_of("order-open"), [1, 1, 1, 2, 9, 9]);
    assert_eq!(
        refusals_of("order-8"),
        [8, 8, 8, 8, 8, 8, 8, 8, 8, 8, 22, 26, 23]
    );
    assert_eq!(
        refusals_of("order-23"),
        [6, 23, 22, 23, 26, 22, 23, 22, 23, 22, 23]
    );
    assert_eq!(refusals_of("order-24"), [22, 24]);
    assert_eq!(refusals_of("cut-value"), [5]);
    for name in ["form-advance", "form-take", "form-answer", "code-10"] {
        assert_eq!(refusals_of(name), [3]);
    }
    assert_eq!(refusals_of("tenth-byte-2"), [4]);
}

#[test]
fn an_open_that_is_refused_keeps_the_store() {
    let open = [1, 4, 0];
    let install = [&[2][..], &ANCHOR].concat();
    assert_eq!(
        lines(&[&open, &install, &[1, 0, 0], &install, &open, &install]),
        "open;anchor fresh;no 1;anchor same;open;anchor fresh"
    );
}

#[test]
fn the_65th_awaiting_slot() {
    let mut list = [&[1, 1, 0, 2][..], &ANCHOR].concat();
    for index in 0..65 {
        list.extend([&[7][..], &ANCHOR, &SLOT[..51], &[index]].concat());
    }
    list.extend([&[7][..], &ANCHOR, &SLOT[..51], &[0]].concat());
    let text = listing(&list);
    let tail: Vec<&str> = text.lines().skip(2 + 63).collect();
    assert_eq!(tail, ["wait 1", "no 24", "wait 2"]);
}

#[test]
fn a_skip_with_writes_is_6_also_above_3() {
    let advance = |skip: u8, writes: u8| {
        let mut bytes = [&[3][..], &ANCHOR, &HASH, &[skip, 0, writes]].concat();
        bytes.extend(vec![1; 84 * usize::from(writes)]);
        bytes
    };
    let open = [1, 4, 0];
    assert_eq!(
        lines(&[
            &open,
            &advance(4, 1),
            &advance(1, 1),
            &advance(4, 0),
            &advance(3, 0)
        ]),
        "open;no 6;no 6;no 7;cold 1 3 0 0 0 0 0"
    );
}

fn large(name: &str) -> String {
    let mut cases = cases::large_cases().into_iter();
    listing(&cases.find(|(case, _)| *case == name).expect("a case").1)
}

#[test]
fn the_limit_of_a_list() {
    assert!(!large("limit-whole").contains("no"));
    assert_eq!(large("limit-whole"), large("limit-ignored"));
    assert!(large("limit-cut").ends_with("no 5\n"));
}

#[test]
fn the_deepest_store_folds_256_layers() {
    let text = large("depth-255");
    let folds: Vec<&str> = text
        .lines()
        .filter(|line| line.starts_with("carried") && !line.ends_with(" 0 0 0"))
        .collect();
    // The slot Q is dropped, P is left; one fold makes room for 255 layers.
    assert_eq!(folds, ["carried 1 0 0 0 1 1 256 1 1"]);
}

#[test]
fn the_fullest_store() {
    let text = large("records-256");
    let lines: Vec<&str> = text.lines().collect();
    assert_eq!(lines[..3], ["open", "no 23", "no 21"]);
    assert_eq!(lines[3], "cold 1 0 257 1 0 256 256");
    assert_eq!(lines[4..6], ["no 23", "put"]);
    assert_eq!(lines[7..], ["wait 1", "current 256 256"]);
}

#[test]
fn lists_of_two_bytes() {
    let mut count = 0;
    for list in sweep::byte_lists(2, &sweep::every_byte()) {
        let text = listing(&list);
        assert!(
            ["", "no 3\n", "no 5\n"].contains(&text.as_str()),
            "{list:?}"
        );
        count += 1;
    }
    assert_eq!(count, 65_793);
}
