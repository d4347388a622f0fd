//! The lines of the listing and of its detail.

use crate::bytes::{Fault, Slot};
use crate::flat::Answer;
use crate::layers::Kept;
use crate::totals::Totals;

pub fn refused(number: u8) -> String {
    format!("no {number}\n")
}

/// The refusal that ends a list.
pub fn fault(fault: &Fault, detailed: bool) -> String {
    let mut text = refused(fault.refusal);
    if detailed {
        text += &format!("at {}\n", fault.place);
    }
    text
}

/// The lines of an accepted call.
pub fn accepted(answer: &Answer, kept: &Kept) -> String {
    let held = kept.held;
    match answer {
        Answer::Open => "open\n".into(),
        Answer::AnchorSame => "anchor same\n".into(),
        Answer::AnchorFresh => "anchor fresh\n".into(),
        Answer::AlreadyCurrent { live } => format!("current {held} {live}\n"),
        Answer::Advanced {
            lineage,
            skip,
            writes,
            live,
        } => {
            let applied = writes.applied.len();
            let counts = format!(
                "{applied} {} {} {held} {live}",
                writes.overwritten, writes.skipped
            );
            if *lineage == 0 && *skip == 0 {
                let (carried, fold) = (kept.carried_values, kept.fold);
                format!(
                    "carried {carried} {counts} {} {} {}\n",
                    fold.merged, fold.left, fold.dropped
                )
            } else {
                format!("cold {lineage} {skip} {counts}\n")
            }
        }
        Answer::Value(value) => format!("value {}\n", hex(value)),
        Answer::None => "none\n".into(),
        Answer::Wait { waiters } => format!("wait {waiters}\n"),
        Answer::Put => "put\n".into(),
        Answer::Take(slots) => format!("take {}\n{}", slots.len(), slot_lines("", slots)),
        Answer::Round {
            members,
            errors,
            valued,
            refused,
        } => {
            format!("answer {members} {errors} {}\n", valued + refused)
        }
    }
}

/// The writes that an advance applied.
pub fn applied(answer: &Answer) -> String {
    match answer {
        Answer::AlreadyCurrent { .. } => "applied 0\n".into(),
        Answer::Advanced { writes, .. } => {
            let slots = &writes.applied;
            format!("applied {}\n{}", slots.len(), slot_lines("  ", slots))
        }
        _ => String::new(),
    }
}

pub fn totals(totals: &Totals) -> String {
    let Totals {
        accepted,
        served,
        waiting,
        valued,
        refused,
        coalesced,
        rounds,
        members,
        errors,
    } = totals;
    format!(
        "stats {coalesced} {rounds} {members} {errors}\n\
         reads {accepted} {served} {waiting} {valued} {refused}\n"
    )
}

fn slot_lines(indent: &str, slots: &[Slot]) -> String {
    let line = |(address, index): &Slot| format!("{indent}slot {}{}\n", hex(address), hex(index));
    slots.iter().map(line).collect()
}

fn hex(bytes: &[u8]) -> String {
    bytes.iter().map(|byte| format!("{byte:02x}")).collect()
}
