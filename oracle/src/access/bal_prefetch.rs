// Child module of `bal_prefetch`: the private fold of account changes.

use super::{seed_from_accounts, AccountChanges, BalPlan, BalSeed};

pub fn fold_accounts(accounts: &[AccountChanges], plan: &BalPlan) -> BalSeed {
    seed_from_accounts(accounts, plan)
}
