//! What a list meets: its line forms and refusals, counted for statistics and
//! collected for choosing which lists to record.

use crate::calls::{Call, Round};
use crate::driver::{lineage_number, skip_number, Answer};
use crate::listing::{push_lines, run, Step};
use crate::sim::evm2::read_hub::CarryOutcome;
use std::collections::{BTreeMap, BTreeSet};

const NAMES: [&str; 10] = [
    "bytes", "open", "install", "advance", "look", "get", "put", "read", "take", "answer",
];

/// Counts by line form.
pub type Tally = BTreeMap<String, usize>;

pub fn count(list: &[u8], tally: &mut Tally) {
    run(list, |step, _| {
        *tally.entry(form(step)).or_default() += 1;
    });
}

fn name(step: &Step) -> &'static str {
    NAMES[step
        .call
        .as_ref()
        .map_or(0, |call| usize::from(call.code()))]
}

/// The form of a step's line, with what sets it apart.
fn form(step: &Step) -> String {
    let answer = match &step.answer {
        Err(refusal) => return format!("no {refusal:02}"),
        Ok(answer) => answer,
    };
    match answer {
        Answer::Open => "open".into(),
        Answer::AnchorSame => "anchor same".into(),
        Answer::AnchorFresh => "anchor fresh".into(),
        Answer::Advanced(report) => match &report.outcome {
            CarryOutcome::AlreadyCurrent => "current".into(),
            CarryOutcome::Carried { .. } => match report.compaction {
                None => "carried".into(),
                Some(fold) if fold.dropped == 0 => "carried, folded".into(),
                Some(_) => "carried, folded, dropped".into(),
            },
            CarryOutcome::Cold { lineage, bal } => format!(
                "cold {} {}",
                lineage_number(lineage.as_ref()),
                skip_number(bal.as_ref())
            ),
        },
        Answer::Value(_) => format!("value ({})", name(step)),
        Answer::None => format!("none ({})", name(step)),
        Answer::Wait(1) => "wait 1".into(),
        Answer::Wait(_) => "wait 2 or more".into(),
        Answer::Put => "put".into(),
        Answer::Take(slots) if slots.is_empty() => "take 0".into(),
        Answer::Take(_) => "take 1 or more".into(),
        Answer::Round { report, .. } => round_form(step, report.storage_member_errors).into(),
    }
}

fn round_form(step: &Step, errors: usize) -> &'static str {
    let Some(Call::Answer(_, round)) = &step.call else {
        unreachable!("only an answer settles a round");
    };
    match round {
        _ if round.slots().is_empty() => "answer, empty",
        Round::Failed(_) => "answer, failed round",
        Round::Members(_) if errors > 0 => "answer, with errors",
        Round::Members(_) => "answer, all valued",
    }
}

/// What a list shows: the forms with their calls, the forms that follow each
/// other, and for each line every pair of its numbers as none, one or more.
pub fn features(list: &[u8]) -> BTreeSet<String> {
    let mut features = BTreeSet::new();
    let mut before = String::from("start");
    run(list, |step, _| {
        let now = format!("{} by {}", form(step), name(step));
        features.insert(format!("{before} > {now}"));
        let mut text = String::new();
        push_lines(&mut text, &step.answer);
        if step.answer.is_ok() {
            add_pairs(&mut features, text.lines().next().unwrap_or_default());
        }
        features.insert(now.clone());
        before = now;
    });
    features
}

fn add_pairs(features: &mut BTreeSet<String>, line: &str) {
    let mut fields = line.split(' ');
    let word = fields.next().unwrap_or_default();
    if word == "value" {
        return;
    }
    let sizes: Vec<&str> = fields
        .map(|field| match field {
            "0" | "1" => field,
            _ => "more",
        })
        .collect();
    for (i, first) in sizes.iter().enumerate() {
        for (j, second) in sizes.iter().enumerate().skip(i + 1) {
            features.insert(format!("{word} {i}:{first} {j}:{second}"));
        }
    }
}
