//! Makes call lists of every kind, the same ones for the same seed.

mod damage;
mod maker;
mod profile;
pub mod rng;

pub use damage::FAULTS;
pub use maker::{address, index};
pub use profile::kinds;

use maker::Maker;
use profile::{profile, PROFILES};
use rng::Rng;

/// Most bytes of a small list, and of any other.
const SMALL: usize = 690;
const LARGE: usize = 16_000;

/// The list of a kind and a seed; none for an unknown kind.
pub fn list(kind: &str, seed: u64, small: bool) -> Option<Vec<u8>> {
    let rng = Rng::for_list(kind, seed);
    let budget = if small { SMALL } else { LARGE };
    Some(match kind {
        "parse" => with_fault(rng, seed, budget, small),
        "broken" => broken(rng, budget, small),
        _ => good(kind, rng, budget, small)?.list,
    })
}

fn good(kind: &str, rng: Rng, budget: usize, small: bool) -> Option<Maker<'static>> {
    let mut maker = Maker::new(profile(kind)?, rng, budget, small);
    maker.fill();
    Some(maker)
}

/// A short good list and one fault after it; the seed says which.
fn with_fault(mut rng: Rng, seed: u64, budget: usize, small: bool) -> Vec<u8> {
    let before = *rng.pick(&[0, 100, 250, 400, 400]);
    let maker = good("mixed", rng, before.min(budget), small);
    let Maker {
        mut rng, mut list, ..
    } = maker.expect("a kind");
    list.extend(damage::fault(seed as usize, &mut rng));
    list
}

/// A damaged copy of a good list of another kind.
fn broken(mut rng: Rng, budget: usize, small: bool) -> Vec<u8> {
    let kind = rng.pick(PROFILES).kind;
    let maker = good(kind, rng, budget.min(4_000), small);
    let Maker {
        mut rng,
        mut list,
        starts,
        ..
    } = maker.expect("a kind");
    damage::damage(&mut list, &starts, &mut rng);
    list.truncate(budget);
    list
}
