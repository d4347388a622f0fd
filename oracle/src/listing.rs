//! The listing of a call list, as document 01 prints it, and on request the
//! detail lines that it leaves out.

use crate::calls::{Call, Reader};
use crate::driver::{advance_line, Answer, Driver, Refusal};
use crate::sim::evm2::delta_snapshot::Slot;
use alloy::primitives::StorageValue;
use std::fmt::Write as _;

/// One call of a list with its answer. A refusal of bytes that are no call has
/// no call, but the place of the fault.
pub struct Step {
    pub call: Option<Call>,
    pub answer: Result<Answer, Refusal>,
    pub fault_place: Option<usize>,
}

/// Run a list; `each` sees every step and the driver after it.
pub fn run(list: &[u8], mut each: impl FnMut(&Step, &Driver)) {
    let mut driver = Driver::default();
    let mut reader = Reader::new(list);
    while let Some(parsed) = reader.next_call() {
        let step = match parsed {
            Ok(call) => Step {
                answer: driver.run(&call),
                call: Some(call),
                fault_place: None,
            },
            Err(refusal) => Step {
                call: None,
                answer: Err(refusal),
                fault_place: Some(reader.fault_place(refusal)),
            },
        };
        each(&step, &driver);
        if step.call.is_none() {
            return;
        }
    }
}

/// The listing.
pub fn listing(list: &[u8]) -> String {
    let mut text = String::new();
    run(list, |step, _| push_lines(&mut text, &step.answer));
    text
}

/// The listing with the detail lines.
pub fn detail(list: &[u8]) -> String {
    let mut text = String::new();
    run(list, |step, driver| {
        push_lines(&mut text, &step.answer);
        if let Ok(answer) = &step.answer {
            push_detail(&mut text, answer, driver);
        }
        if let Some(place) = step.fault_place {
            line(&mut text, &format!("at {place}"));
        }
    });
    text
}

/// Whether a line of `detail` is one that the listing leaves out.
pub fn is_detail_line(line: &str) -> bool {
    let words = ["applied ", "  slot ", "stats ", "reads ", "at "];
    words.iter().any(|word| line.starts_with(word))
}

pub fn push_lines(text: &mut String, answer: &Result<Answer, Refusal>) {
    match answer {
        Err(refusal) => line(text, &format!("no {refusal}")),
        Ok(Answer::Open) => line(text, "open"),
        Ok(Answer::AnchorSame) => line(text, "anchor same"),
        Ok(Answer::AnchorFresh) => line(text, "anchor fresh"),
        Ok(Answer::Advanced(report)) => line(text, &advance_line(report)),
        Ok(Answer::Value(value)) => line(text, &format!("value {}", hex(value))),
        Ok(Answer::None) => line(text, "none"),
        Ok(Answer::Wait(waiters)) => line(text, &format!("wait {waiters}")),
        Ok(Answer::Put) => line(text, "put"),
        Ok(Answer::Take(slots)) => {
            line(text, &format!("take {}", slots.len()));
            for slot in slots {
                line(text, &format!("slot {}", slot_hex(slot)));
            }
        }
        Ok(Answer::Round { report, woken }) => line(
            text,
            &format!(
                "answer {} {} {woken}",
                report.storage_members, report.storage_member_errors
            ),
        ),
    }
}

fn push_detail(text: &mut String, answer: &Answer, driver: &Driver) {
    if let Answer::Advanced(report) = answer {
        line(text, &format!("applied {}", report.writes.len()));
        for slot in &report.writes {
            line(text, &format!("  slot {}", slot_hex(slot)));
        }
    }
    if let Some(stats) = driver.stats() {
        line(
            text,
            &format!(
                "stats {} {} {} {}",
                stats.coalesced, stats.rounds, stats.storage_members, stats.storage_member_errors
            ),
        );
    }
    if let Some(reads) = driver.reads() {
        line(
            text,
            &format!(
                "reads {} {} {} {} {}",
                reads.accepted, reads.served, reads.waiting, reads.valued, reads.refused
            ),
        );
    }
}

fn line(text: &mut String, line: &str) {
    text.push_str(line);
    text.push('\n');
}

fn push_hex(text: &mut String, bytes: &[u8]) {
    for byte in bytes {
        let _ = write!(text, "{byte:02x}");
    }
}

pub fn hex(value: &StorageValue) -> String {
    let mut text = String::new();
    push_hex(&mut text, &value.0);
    text
}

pub fn slot_hex(slot: &Slot) -> String {
    let mut text = String::new();
    push_hex(&mut text, &slot.0 .0);
    push_hex(&mut text, &slot.1 .0);
    text
}
