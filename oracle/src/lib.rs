//! The oracle: the reference Rust sources, compiled unchanged, driven by call
//! lists.

pub mod calls;
pub mod cases;
pub mod choice;
pub mod convert;
pub mod driver;
pub mod finals;
pub mod generate;
pub mod index;
pub mod listing;
pub mod missing;
pub mod named;
pub mod numbers;
pub mod record;
pub mod sweep;
pub mod tally;
pub mod voucher;

include!(concat!(env!("OUT_DIR"), "/modules.rs"));
