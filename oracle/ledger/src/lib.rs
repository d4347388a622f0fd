//! Document 01 read a second time, without the Rust: the flat ledger says what
//! calls answer, layers beside it say what the ledger leaves out (values held
//! and carried, folds, records). Written to be read, not to be fast.

mod bytes;
mod flat;
mod layers;
mod lines;
mod refusals;
mod totals;

use bytes::{Bytes, Call, Shape};
use flat::{Answer, Ledger, Retention};
use layers::{Kept, Layers};
use totals::Totals;

/// The depth limit of an open with byte 0.
const DEFAULT_DEPTH: u64 = 8;

/// The listing of a list.
pub fn listing(list: &[u8]) -> String {
    run(list, false)
}

/// The listing with the detail lines.
pub fn detail(list: &[u8]) -> String {
    run(list, true)
}

fn run(list: &[u8], detailed: bool) -> String {
    let mut bytes = Bytes::new(list);
    let mut store = None;
    let mut text = String::new();
    while !bytes.at_end() {
        match bytes.call() {
            Ok(call) => text += &step(&mut store, &call, detailed),
            Err(fault) => return text + &lines::fault(&fault, detailed),
        }
    }
    text
}

/// Run a call on the lent store, which is none before the first accepted open.
fn step(store: &mut Option<Store>, call: &Call, detailed: bool) -> String {
    if let Some(number) = refusals::refusal(call, store.as_ref()) {
        return lines::refused(number);
    }
    let (after, answer, kept) = match (call, store.take()) {
        (Call::Open { capacity, shape }, _) => (
            Store::open(*capacity, *shape),
            Answer::Open,
            Kept::default(),
        ),
        (_, Some(opened)) => opened.after(call),
        (_, None) => unreachable!("refused by 20"),
    };
    after.check();
    let mut text = lines::accepted(&answer, &kept);
    if detailed {
        text += &lines::applied(&answer);
        if after.ledger.anchor.is_some() {
            text += &lines::totals(&after.totals);
        }
    }
    *store = Some(after);
    text
}

/// An opened store.
#[derive(Clone)]
struct Store {
    capacity: u64,
    ledger: Ledger,
    layers: Layers,
    totals: Totals,
}

impl Store {
    fn open(capacity: u64, shape: Option<Shape>) -> Self {
        let Shape { depth, retention } = shape.unwrap_or(Shape {
            depth: DEFAULT_DEPTH,
            retention: Retention::Unbounded,
        });
        Self {
            capacity,
            ledger: Ledger::new(retention),
            layers: Layers::new(depth, retention),
            totals: Totals::default(),
        }
    }

    /// The store after a call, with its answer and what the layers report.
    fn after(mut self, call: &Call) -> (Self, Answer, Kept) {
        let answer = self.ledger.run(call);
        let kept = self.layers.follow(call, &answer, &self.ledger);
        self.totals.count(call, &answer);
        (self, answer, kept)
    }

    /// The layers serve what the ledger serves, and the totals add up.
    fn check(&self) {
        if let Some(anchor) = self.ledger.anchor {
            assert_eq!(
                self.layers.served(anchor.number),
                self.ledger.served_slots()
            );
        }
        self.totals.check(&self.ledger);
    }
}
