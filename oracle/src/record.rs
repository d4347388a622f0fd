//! The recorded set: lists with the listings that their vouchers print, which
//! tests replay without Rust. The bytes of a recorded list are kept; only
//! `convert` rewrites them.

use crate::choice::{self, Entry, BY_HAND};
use crate::convert::{converted, Conversion};
use crate::finals;
use crate::index::{Index, Row};
use crate::voucher::Voucher;
use std::collections::BTreeSet;
use std::fs;
use std::io::{self, Write as _};
use std::path::{Path, PathBuf};

/// Inputs for final writes, of the first seeds.
const FINALS: u64 = 40;

const DUE: &str = "the lists are to be converted";

/// What was found when a set was recomputed.
#[derive(Debug, Default)]
pub struct Report {
    /// Lists by voucher, and inputs for final writes.
    pub rust: usize,
    pub ledger: usize,
    pub inputs: usize,
    /// Files that have another text than what was computed.
    pub listings: Vec<PathBuf>,
    pub details: Vec<PathBuf>,
    pub seeds: Vec<PathBuf>,
    /// What is wrong with the set beside that.
    pub faults: Vec<String>,
}

impl Report {
    pub fn moved(&self) -> Vec<&PathBuf> {
        let mut paths: Vec<&PathBuf> = self.listings.iter().chain(&self.details).collect();
        paths.sort();
        paths.extend(&self.seeds);
        paths
    }

    pub fn lists(&self) -> usize {
        self.rust + self.ledger
    }
}

/// Recompute the set and rewrite the listings, details and seeds that moved,
/// and the index's counts.
pub fn relist(folder: &Path, conversions: &[Conversion]) -> io::Result<Report> {
    let mut index = Index::read(folder)?;
    refuse_if_due(&index, conversions)?;
    let report = recompute(folder, &mut index, |path, text| fs::write(path, text))?;
    index.write(folder)?;
    Ok(report)
}

/// Recompute the set and compare; nothing is written.
pub fn verify(folder: &Path, conversions: &[Conversion]) -> io::Result<Report> {
    let mut index = Index::read(folder)?;
    let text = index.text();
    let mut report = recompute(folder, &mut index, |_, _| Ok(()))?;
    if index.text() != text {
        report.faults.push("the index has other counts".into());
    }
    if index.conversions != conversions.len() {
        report.faults.push(DUE.into());
    }
    Ok(report)
}

/// Lists in an older format are not read by the present one.
fn refuse_if_due(index: &Index, conversions: &[Conversion]) -> io::Result<()> {
    if index.conversions != conversions.len() {
        return Err(io::Error::new(io::ErrorKind::InvalidData, DUE));
    }
    Ok(())
}

/// `moved` gets every file that has another text, and the text.
fn recompute(
    folder: &Path,
    index: &mut Index,
    moved: impl Fn(&Path, &str) -> io::Result<()>,
) -> io::Result<Report> {
    let mut report = Report {
        faults: unlisted(folder, index)?,
        ..Report::default()
    };
    let compare = |path: PathBuf, text: &str, found: &mut Vec<PathBuf>| {
        if fs::read(&path).ok().as_deref() != Some(text.as_bytes()) {
            moved(&path, text)?;
            found.push(path);
        }
        io::Result::Ok(())
    };
    for row in &mut index.rows {
        let path = calls_path(folder, &row.name);
        let Ok(list) = fs::read(&path) else {
            report.faults.push(format!("{}: no list", row.name));
            continue;
        };
        match row.voucher {
            Voucher::Rust => report.rust += 1,
            Voucher::Ledger => report.ledger += 1,
        }
        let Some(printed) = row.voucher.vouched(&list) else {
            let fault = format!("{}: the Rust and the ledger disagree", row.name);
            report.faults.push(fault);
            continue;
        };
        (row.bytes, row.lines) = (list.len(), printed.listing.lines().count());
        compare(
            path.with_extension("listing"),
            &printed.listing,
            &mut report.listings,
        )?;
        compare(
            path.with_extension("detail"),
            &printed.detail,
            &mut report.details,
        )?;
    }
    for path in files(&folder.join("finals"), "input")? {
        let seed = finals::seed_text(&fs::read(&path)?);
        compare(path.with_extension("seed"), &seed, &mut report.seeds)?;
        report.inputs += 1;
    }
    Ok(report)
}

/// The lists of the folder that the index doesn't have, as faults.
fn unlisted(folder: &Path, index: &Index) -> io::Result<Vec<String>> {
    let listed: BTreeSet<PathBuf> = index
        .rows
        .iter()
        .map(|row| calls_path(folder, &row.name))
        .collect();
    let mut paths = files(folder, "calls")?;
    paths.retain(|path| !listed.contains(path));
    Ok(paths
        .iter()
        .map(|path| format!("{}: not in the index", path.display()))
        .collect())
}

/// Rewrite the lists by the conversions that they have not been through;
/// yields the names of those that changed.
pub fn convert(folder: &Path, conversions: &[Conversion]) -> io::Result<Vec<String>> {
    let mut index = Index::read(folder)?;
    let due = &conversions[index.conversions..];
    let mut changed = Vec::new();
    for row in &mut index.rows {
        let path = calls_path(folder, &row.name);
        let before = fs::read(&path)?;
        let after = converted(&before, due);
        if after != before {
            fs::write(&path, &after)?;
            row.bytes = after.len();
            changed.push(row.name.clone());
        }
    }
    index.conversions = conversions.len();
    index.write(folder)?;
    Ok(changed)
}

/// Add the chosen lists that the index doesn't have: those by hand whose name
/// it lacks, and those of a kind of which it has none. Yields their names.
pub fn record(folder: &Path, conversions: &[Conversion]) -> io::Result<Vec<String>> {
    fs::create_dir_all(folder)?;
    let mut index = Index::read(folder)?;
    refuse_if_due(&index, conversions)?;
    let recorded: BTreeSet<(bool, String)> = index
        .rows
        .iter()
        .map(|row| (row.origin == BY_HAND, row.kind().into()))
        .collect();
    let numbers = index.rows.iter().map(Row::number);
    let mut next = numbers.max().map_or(0, |last| last + 1);
    let mut added = Vec::new();
    for entry in choice::entries() {
        if !recorded.contains(&(entry.origin == BY_HAND, entry.kind.clone())) {
            let row = add(folder, next, entry)?;
            added.push(row.name.clone());
            index.rows.push(row);
            next += 1;
        }
    }
    index.write(folder)?;
    record_finals(&folder.join("finals"))?;
    Ok(added)
}

fn add(folder: &Path, number: usize, entry: Entry) -> io::Result<Row> {
    let name = format!("{number:04}-{}", entry.kind);
    let printed = entry.voucher.vouched(&entry.list).ok_or_else(|| {
        let message = format!("{name}: the Rust and the ledger disagree");
        io::Error::new(io::ErrorKind::InvalidData, message)
    })?;
    let path = calls_path(folder, &name);
    write_new(&path, &entry.list)?;
    write_new(&path.with_extension("listing"), printed.listing.as_bytes())?;
    write_new(&path.with_extension("detail"), printed.detail.as_bytes())?;
    Ok(Row {
        name,
        origin: entry.origin,
        voucher: entry.voucher,
        bytes: entry.list.len(),
        lines: printed.listing.lines().count(),
    })
}

fn record_finals(folder: &Path) -> io::Result<()> {
    fs::create_dir_all(folder)?;
    for seed in 0..FINALS {
        let path = folder.join(format!("{seed:04}.input"));
        if !path.exists() {
            let input = finals::input(seed);
            write_new(&path, &input)?;
            let text = finals::seed_text(&input);
            write_new(&path.with_extension("seed"), text.as_bytes())?;
        }
    }
    Ok(())
}

/// Write a file that isn't there yet.
fn write_new(path: &Path, bytes: &[u8]) -> io::Result<()> {
    let mut file = fs::File::create_new(path).map_err(|error| {
        let message = format!("{}: {error}", path.display());
        io::Error::new(error.kind(), message)
    })?;
    file.write_all(bytes)
}

fn calls_path(folder: &Path, name: &str) -> PathBuf {
    folder.join(format!("{name}.calls"))
}

/// The files of a folder with this extension, by name; none where there is no
/// folder.
fn files(folder: &Path, extension: &str) -> io::Result<Vec<PathBuf>> {
    let mut paths = Vec::new();
    if folder.exists() {
        for entry in fs::read_dir(folder)? {
            let path = entry?.path();
            if path.extension().is_some_and(|found| found == extension) {
                paths.push(path);
            }
        }
    }
    paths.sort();
    Ok(paths)
}
