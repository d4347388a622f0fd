//! The command `oracle`.

use oracle::calls::LIST_LIMIT;
use oracle::convert::CONVERSIONS;
use oracle::named::{byte_lists, kinds, list_hex, named_lists, number, Lists, Named};
use oracle::record::{self, Report};
use oracle::tally::{count, Tally};
use oracle::voucher::{agreed, Voucher};
use oracle::{finals, generate, sweep};
use std::collections::BTreeSet;
use std::io::{self, BufWriter, Read, Write};
use std::path::Path;
use std::process::{Command, ExitCode, Output, Stdio};

const USAGE: &str = "\
oracle calls [--detail]               list on standard input, listing out
oracle kinds                          the kinds of generated lists
oracle gen KIND SEED [--small]        one list
oracle stats KIND|all FROM TO         what the lists of these seeds meet
oracle finals                         account changes on standard input, seed out
oracle gen-finals SEED                one such input
oracle exhaust LENGTH [BYTES]         every list of up to LENGTH bytes, of all
                                      bytes or of those given in hex
oracle sweep CALLS [NUMBER]           every sequence of CALLS calls, or one list
oracle agree LISTS                    run the Rust and the ledger on lists and
                                      compare
oracle compare [--detail] PROGRAM LISTS
                                      run PROGRAM on lists and compare
oracle verify DIR                     recompute the recorded set and compare
oracle relist DIR                     recompute it and rewrite what moved; the
                                      lists stay
oracle record DIR                     add the chosen lists that it lacks
oracle convert DIR                    rewrite its lists in the present format

LISTS is KIND|all FROM TO, exhaust LENGTH [BYTES], sweep CALLS or numbers (forms
of a number around its limits, at every place). With --ledger the ledger answers
in place of the Rust: calls, exhaust, sweep, compare.
";

fn main() -> ExitCode {
    let mut arguments: Vec<String> = std::env::args().skip(1).collect();
    let detailed = remove(&mut arguments, "--detail");
    let small = remove(&mut arguments, "--small");
    let by = if remove(&mut arguments, "--ledger") {
        Voucher::Ledger
    } else {
        Voucher::Rust
    };
    let words: Vec<&str> = arguments.iter().map(String::as_str).collect();
    match run(&words, by, detailed, small) {
        Ok(code) => code,
        // A reader that stops early is no fault.
        Err(error) if error.kind() == io::ErrorKind::BrokenPipe => ExitCode::SUCCESS,
        Err(error) => {
            eprint!("oracle: {error}\n{USAGE}");
            ExitCode::from(2)
        }
    }
}

fn remove(arguments: &mut Vec<String>, option: &str) -> bool {
    let before = arguments.len();
    arguments.retain(|argument| argument != option);
    arguments.len() < before
}

fn run(words: &[&str], by: Voucher, detailed: bool, small: bool) -> io::Result<ExitCode> {
    let mut out = BufWriter::new(io::stdout().lock());
    let mut good = true;
    match *words {
        ["calls"] => out.write_all(text(&standard_input()?, by, detailed).as_bytes())?,
        ["kinds"] => {
            for kind in generate::kinds() {
                writeln!(out, "{kind}")?;
            }
        }
        ["gen", kind, seed] => out.write_all(&made(kind, asked(number(seed))?, small)?)?,
        ["finals"] => out.write_all(finals::seed_text(&standard_input()?).as_bytes())?,
        ["gen-finals", seed] => out.write_all(&finals::input(asked(number(seed))?))?,
        ["stats", kind, from, to] => {
            let (from, to) = (asked(number(from))?, asked(number(to))?);
            stats(&mut out, &asked(kinds(kind))?, from, to)?;
        }
        ["exhaust", ref choice @ ..] => exhaust(&mut out, asked(byte_lists(choice))?, by)?,
        ["sweep", calls] => sweep_all(&mut out, asked(number(calls))? as usize, by)?,
        ["sweep", calls, which] => {
            let (calls, which) = (asked(number(calls))?, asked(number(which))?);
            out.write_all(&sweep::sequence(calls as usize, which as usize))?;
        }
        ["agree", ref lists @ ..] => good = agree(&mut out, asked(named_lists(lists))?)?,
        ["compare", program, ref lists @ ..] => {
            let lists = asked(named_lists(lists))?;
            good = compare(&mut out, program, lists, by, detailed)?;
        }
        ["verify", folder] => {
            let report = record::verify(Path::new(folder), CONVERSIONS)?;
            good = verified(&mut out, &report)?;
        }
        ["relist", folder] => {
            good = relisted(&mut out, &record::relist(Path::new(folder), CONVERSIONS)?)?
        }
        ["record", folder] => {
            let added = record::record(Path::new(folder), CONVERSIONS)?;
            named(&mut out, &added, "added")?;
        }
        ["convert", folder] => {
            let changed = record::convert(Path::new(folder), CONVERSIONS)?;
            named(&mut out, &changed, "converted")?;
        }
        _ => return Err(wrong("not a command")),
    }
    out.flush()?;
    Ok(ExitCode::from(u8::from(!good)))
}

fn wrong(message: &str) -> io::Error {
    io::Error::new(io::ErrorKind::InvalidInput, message)
}

fn asked<T>(found: Result<T, &'static str>) -> io::Result<T> {
    found.map_err(wrong)
}

fn made(kind: &str, seed: u64, small: bool) -> io::Result<Vec<u8>> {
    generate::list(kind, seed, small).ok_or_else(|| wrong("not a kind"))
}

fn standard_input() -> io::Result<Vec<u8>> {
    let mut list = Vec::new();
    io::stdin()
        .lock()
        .take(LIST_LIMIT as u64)
        .read_to_end(&mut list)?;
    Ok(list)
}

fn text(list: &[u8], by: Voucher, detailed: bool) -> String {
    if detailed {
        by.detail(list)
    } else {
        by.listing(list)
    }
}

/// A table of counts: one column for each kind and their sum.
fn stats(out: &mut impl Write, kinds: &[&str], from: u64, to: u64) -> io::Result<()> {
    let mut tallies = Vec::new();
    for kind in kinds {
        let mut tally = Tally::new();
        for seed in from..to {
            count(&made(kind, seed, false)?, &mut tally);
        }
        tallies.push(tally);
    }
    let forms: BTreeSet<&String> = tallies.iter().flat_map(Tally::keys).collect();
    write!(out, "{:<26}{:>10}", "form", "sum")?;
    for kind in kinds {
        write!(out, "{kind:>11}")?;
    }
    writeln!(out)?;
    for form in forms {
        let counts: Vec<usize> = tallies
            .iter()
            .map(|tally| tally.get(form).copied().unwrap_or(0))
            .collect();
        write!(out, "{form:<26}{:>10}", counts.iter().sum::<usize>())?;
        for count in counts {
            write!(out, "{count:>11}")?;
        }
        writeln!(out)?;
    }
    Ok(())
}

/// One line for each list: its bytes in hex, a blank, and its lines with `;`
/// between them.
fn exhaust(out: &mut impl Write, lists: Lists, by: Voucher) -> io::Result<()> {
    for list in lists {
        writeln!(out, "{} {}", list_hex(&list), one_line(&list, by))?;
    }
    Ok(())
}

/// The same with the sequence's number in place of its bytes.
fn sweep_all(out: &mut impl Write, calls: usize, by: Voucher) -> io::Result<()> {
    for which in 0..sweep::sequences(calls) {
        let list = sweep::sequence(calls, which);
        writeln!(out, "{which} {}", one_line(&list, by))?;
    }
    Ok(())
}

fn one_line(list: &[u8], by: Voucher) -> String {
    by.listing(list).trim_end().replace('\n', ";")
}

/// Names the lists on which the Rust and the ledger differ, or one of them
/// finds itself wrong; whether there is none.
fn agree(out: &mut impl Write, lists: Named) -> io::Result<bool> {
    let (mut run, mut differing) = (0, 0);
    for (name, list) in lists {
        run += 1;
        let same = std::panic::catch_unwind(|| agreed(&list).is_some());
        if !same.unwrap_or(false) {
            differing += 1;
            writeln!(out, "differs: {name}")?;
        }
    }
    writeln!(out, "{run} lists, {differing} differ")?;
    Ok(differing == 0)
}

/// Names, and how many.
fn named(out: &mut impl Write, names: &[String], done: &str) -> io::Result<()> {
    for name in names {
        writeln!(out, "{name}")?;
    }
    writeln!(out, "{} lists {done}", names.len())
}

fn verified(out: &mut impl Write, report: &Report) -> io::Result<bool> {
    let moved = report.moved();
    let wrong = moved.len() + report.faults.len();
    faults(out, report)?;
    for path in moved {
        writeln!(out, "differs: {}", path.display())?;
    }
    let (rust, ledger, inputs) = (report.rust, report.ledger, report.inputs);
    writeln!(
        out,
        "{rust} lists by the Rust and the ledger, {ledger} by the ledger alone, \
         {inputs} inputs, {wrong} wrong"
    )?;
    Ok(wrong == 0)
}

fn relisted(out: &mut impl Write, report: &Report) -> io::Result<bool> {
    faults(out, report)?;
    for path in report.moved() {
        writeln!(out, "{}", file_name(path))?;
    }
    if !report.seeds.is_empty() {
        writeln!(
            out,
            "{} inputs, {} seeds moved",
            report.inputs,
            report.seeds.len()
        )?;
    }
    let (listings, details) = (report.listings.len(), report.details.len());
    writeln!(
        out,
        "{} lists, {listings} listings moved, {details} details moved",
        report.lists()
    )?;
    Ok(report.faults.is_empty())
}

fn faults(out: &mut impl Write, report: &Report) -> io::Result<()> {
    for fault in &report.faults {
        writeln!(out, "wrong: {fault}")?;
    }
    Ok(())
}

fn file_name(path: &Path) -> String {
    let name = path.file_name().unwrap_or(path.as_os_str());
    name.to_string_lossy().into_owned()
}

/// Run the program on every list; names those whose output differs, and those
/// on which it ends with another status than 0. Whether there is none.
fn compare(
    out: &mut impl Write,
    program: &str,
    lists: Named,
    by: Voucher,
    detailed: bool,
) -> io::Result<bool> {
    let (mut run, mut differing, mut failing) = (0, 0, 0);
    for (name, list) in lists {
        run += 1;
        let theirs = output_of(program, &list)?;
        if !theirs.status.success() {
            failing += 1;
            writeln!(out, "fails: {name}, {}", theirs.status)?;
        } else if theirs.stdout != text(&list, by, detailed).as_bytes() {
            differing += 1;
            writeln!(out, "differs: {name}")?;
        }
    }
    writeln!(out, "{run} lists, {differing} differ, {failing} fail")?;
    Ok(differing == 0 && failing == 0)
}

fn output_of(program: &str, list: &[u8]) -> io::Result<Output> {
    let mut child = Command::new(program)
        .stdin(Stdio::piped())
        .stdout(Stdio::piped())
        .spawn()?;
    let mut input = child.stdin.take().expect("piped");
    let list = list.to_vec();
    let feeder = std::thread::spawn(move || {
        // A program that stops reading early is judged by its output.
        let _ = input.write_all(&list);
    });
    let output = child.wait_with_output()?;
    let _ = feeder.join();
    Ok(output)
}
