//! The recorded set is what its vouchers print, its lists read back, and the
//! commands on it write what they say.

use oracle::calls::{write_list, Reader};
use oracle::convert::{Conversion, CONVERSIONS};
use oracle::index::{self, Index};
use oracle::listing::is_detail_line;
use oracle::record::{self, Report};
use oracle::voucher::Voucher;
use oracle::{cases, finals};
use std::fs;
use std::path::{Path, PathBuf};

fn folder() -> PathBuf {
    Path::new(env!("CARGO_MANIFEST_DIR")).join("recorded")
}

fn wrong(report: &Report) -> Vec<String> {
    let moved = report.moved().into_iter();
    let moved = moved.map(|path| path.file_name().unwrap().to_string_lossy().into_owned());
    report.faults.iter().cloned().chain(moved).collect()
}

#[test]
fn verified() {
    let report = record::verify(&folder(), CONVERSIONS).unwrap();
    assert!(report.lists() > 0 && report.inputs > 0);
    assert_eq!(wrong(&report), Vec::<String>::new());
}

#[test]
fn the_whole_case_is_recorded() {
    let text = fs::read_to_string(folder().join("0000-whole-case.listing")).unwrap();
    assert_eq!(text, cases::WHOLE_CASE_LISTING);
}

#[test]
fn details_without_their_lines_are_the_listing() {
    for row in Index::read(&folder()).unwrap().rows {
        let path = folder().join(row.name + ".detail");
        let detail = fs::read_to_string(&path).unwrap();
        let plain: String = detail
            .lines()
            .filter(|line| !is_detail_line(line))
            .map(|line| format!("{line}\n"))
            .collect();
        assert_eq!(
            plain,
            fs::read_to_string(path.with_extension("listing")).unwrap()
        );
    }
}

#[test]
fn whole_lists_are_rewritten_to_their_bytes() {
    for row in Index::read(&folder()).unwrap().rows {
        if row.voucher != Voucher::Rust {
            continue;
        }
        let list = fs::read(folder().join(format!("{}.calls", row.name))).unwrap();
        let mut reader = Reader::new(&list);
        let mut calls = Vec::new();
        let mut whole = true;
        while let Some(parsed) = reader.next_call() {
            match parsed {
                Ok(call) => calls.push(call),
                Err(_) => {
                    whole = false;
                    break;
                }
            }
        }
        let written = write_list(&calls);
        assert!(list.starts_with(&written), "{}", row.name);
        assert!(
            !whole || written.len() == list.len().min(65_536),
            "{}",
            row.name
        );
    }
}

/// A set of two lists and one input in a new folder.
fn small_set(name: &str) -> PathBuf {
    let folder = Path::new(env!("CARGO_TARGET_TMPDIR")).join(name);
    let _ = fs::remove_dir_all(&folder);
    fs::create_dir_all(folder.join("finals")).unwrap();
    let index =
        "# conversions: 0\n0000-one, by hand, rust, 0, 0\n0001-two, by hand, ledger, 0, 0\n";
    fs::write(folder.join("INDEX.txt"), index).unwrap();
    fs::write(folder.join("0000-one.calls"), cases::whole_case()).unwrap();
    fs::write(folder.join("0001-two.calls"), [1, 4, 0]).unwrap();
    fs::write(folder.join("finals/0000.input"), finals::input(0)).unwrap();
    folder
}

#[test]
fn relist_writes_what_moved_and_keeps_the_lists() {
    let folder = small_set("relist");
    let all = [
        "0000-one.detail",
        "0000-one.listing",
        "0001-two.detail",
        "0001-two.listing",
        "0000.seed",
    ];
    assert_eq!(wrong(&record::relist(&folder, &[]).unwrap()), all);
    assert_eq!(
        wrong(&record::relist(&folder, &[]).unwrap()),
        Vec::<String>::new()
    );
    let report = record::verify(&folder, &[]).unwrap();
    assert_eq!((report.rust, report.ledger, report.inputs), (1, 1, 1));
    assert_eq!(wrong(&report), Vec::<String>::new());
    fs::write(folder.join("0001-two.listing"), "put\n").unwrap();
    assert_eq!(
        wrong(&record::verify(&folder, &[]).unwrap()),
        ["0001-two.listing"]
    );
    assert_eq!(
        wrong(&record::relist(&folder, &[]).unwrap()),
        ["0001-two.listing"]
    );
    assert_eq!(fs::read(folder.join("0001-two.calls")).unwrap(), [1, 4, 0]);
    let text = fs::read_to_string(folder.join("0001-two.listing")).unwrap();
    assert_eq!(text, "open\n");
    let rows = Index::read(&folder).unwrap().rows;
    let counts: Vec<_> = rows.iter().map(|row| (row.bytes, row.lines)).collect();
    assert_eq!(counts, [(cases::whole_case().len(), 10), (3, 1)]);
}

#[test]
fn the_index_and_the_folder_name_the_same_lists() {
    let folder = small_set("unlisted");
    record::relist(&folder, &[]).unwrap();
    fs::write(folder.join("0002-three.calls"), [1]).unwrap();
    fs::remove_file(folder.join("0001-two.calls")).unwrap();
    let found = wrong(&record::verify(&folder, &[]).unwrap());
    assert_eq!(found.len(), 2, "{found:?}");
    assert!(found[0].ends_with("0002-three.calls: not in the index"));
    assert_eq!(found[1], "0001-two: no list");
}

#[test]
fn record_adds_and_keeps_what_is_there() {
    let folder = small_set("record");
    for name in ["0000-one.calls", "0001-two.calls"] {
        fs::remove_file(folder.join(name)).unwrap();
    }
    let index = "0007-whole-case, by hand, rust, 0, 0\n";
    fs::write(folder.join("INDEX.txt"), index).unwrap();
    fs::write(folder.join("0007-whole-case.calls"), [1, 4, 0]).unwrap();
    let added = record::record(&folder, &[]).unwrap();
    assert_eq!(added[0], "0008-small-idle-1");
    let kept = fs::read(folder.join("0007-whole-case.calls")).unwrap();
    assert_eq!(kept, [1, 4, 0]);
    assert_eq!(record::record(&folder, &[]).unwrap(), Vec::<String>::new());
    let moved = wrong(&record::relist(&folder, &[]).unwrap());
    let before = [
        "0007-whole-case.detail",
        "0007-whole-case.listing",
        "0000.seed",
    ];
    assert_eq!(moved, before);
}

#[test]
fn lists_are_converted_once() {
    let folder = small_set("convert");
    let first: Conversion = |list| [list, &[1, 4, 0]].concat();
    let both: [Conversion; 2] = [first, |list| [&[1, 5, 0], list].concat()];
    let names = record::convert(&folder, &both[..1]).unwrap();
    assert_eq!(names, ["0000-one", "0001-two"]);
    record::relist(&folder, &both[..1]).unwrap();
    let due = record::verify(&folder, &both).unwrap();
    assert_eq!(wrong(&due), ["the lists are to be converted"]);
    assert!(record::relist(&folder, &both).is_err());
    assert!(record::record(&folder, &both).is_err());
    record::convert(&folder, &both).unwrap();
    record::convert(&folder, &both).unwrap();
    let list = fs::read(folder.join("0001-two.calls")).unwrap();
    assert_eq!(list, [1, 5, 0, 1, 4, 0, 1, 4, 0]);
    assert_eq!(record::relist(&folder, &both).unwrap().listings.len(), 2);
    let report = record::verify(&folder, &both).unwrap();
    assert_eq!(wrong(&report), Vec::<String>::new());
}

#[test]
fn an_index_is_read_as_it_was_written() {
    let text = fs::read_to_string(folder().join("INDEX.txt")).unwrap();
    assert_eq!(index::parse(&text).unwrap().text(), text);
    for line in [
        "one, by hand, rust, 1, 1",
        "0001-one, by hand, nobody, 1, 1",
        "0001-one, by hand, 1, 1",
        "0001-one, by hand, rust, 1, many",
    ] {
        assert_eq!(index::parse(line).err().as_deref(), Some(line));
    }
}
