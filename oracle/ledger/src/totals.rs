//! The running totals of a generation's reads.

use crate::bytes::Call;
use crate::flat::{Answer, Ledger};

#[derive(Clone, Default)]
pub struct Totals {
    pub accepted: u64,
    pub served: u64,
    pub waiting: u64,
    /// Woken with a value.
    pub valued: u64,
    /// Woken with a refusal.
    pub refused: u64,
    pub coalesced: u64,
    pub rounds: u64,
    pub members: u64,
    pub errors: u64,
}

impl Totals {
    pub fn count(&mut self, call: &Call, answer: &Answer) {
        match answer {
            Answer::AnchorFresh | Answer::Advanced { .. } => *self = Self::default(),
            Answer::Value(_) if matches!(call, Call::Read(..)) => {
                self.accepted += 1;
                self.served += 1;
            }
            Answer::Wait { waiters } => {
                self.accepted += 1;
                self.waiting += 1;
                self.coalesced += u64::from(*waiters > 1);
            }
            Answer::Round {
                members,
                errors,
                valued,
                refused,
            } => {
                self.waiting -= valued + refused;
                self.valued += valued;
                self.refused += refused;
                self.rounds += u64::from(*members > 0);
                self.members += members;
                self.errors += errors;
            }
            _ => {}
        }
    }

    /// Document 01's equations.
    pub fn check(&self, ledger: &Ledger) {
        let ended = self.valued + self.refused;
        let awaiting = ledger.awaiting.len() as u64;
        assert_eq!(self.accepted, self.served + self.waiting + ended);
        assert_eq!(
            self.coalesced + self.members + awaiting,
            self.waiting + ended
        );
        assert!(self.rounds <= self.members && self.errors <= self.members);
    }
}
