//! Call lists and their listing.

use crate::raw::{run, store_size, RunAreas, MAX_AWAITING, MEMBER_SIZE, SLOT_SIZE, WRITE_SIZE};
use crate::refusal::Refusal;

/// A run that a fault of the list ended.
#[derive(Clone, Copy, Debug, PartialEq, Eq)]
pub struct Fault {
    /// [`Refusal::UnknownForm`], [`Refusal::BadNumber`] or [`Refusal::CutShort`].
    pub refusal: Refusal,
    /// The place of the byte at fault, or the list's end.
    pub place: usize,
}

/// What a run over a call list printed.
#[derive(Clone, Debug, PartialEq, Eq)]
pub struct Listing {
    /// The lines: one for each call, and one more for each slot of a take (docs/REFERENCE.md).
    pub text: String,
    /// The fault that ended the list, if one did.
    pub fault: Option<Fault>,
}

/// Bytes lent for a run's output; the least that a run takes is 7,237.
const OUT: usize = 65_536;

/// Runs a call list on a store of its own, which opens of up to `capacity` records fit in, and gives its listing: as the
/// program `calls` does, with no limit on the list's length.
///
/// ```
/// let list = [1, 4, 0, 2, 7, 0]; // open 4; install 7
/// let listing = poxilme::run_list(&list, 256)?;
/// assert_eq!(listing.text, "open\nanchor fresh\n");
/// # Ok::<(), poxilme::Refusal>(())
/// ```
///
/// # Errors
///
/// [`Refusal::CapacityOutOfRange`] unless `capacity` is 1 to 4,096.
pub fn run_list(list: &[u8], capacity: usize) -> Result<Listing, Refusal> {
    let size = store_size(capacity as u64) as usize;
    if size == 0 {
        return Err(Refusal::CapacityOutOfRange);
    }
    let mut areas = RunAreas {
        store: vec![0; size],
        work: vec![0; size],
        entries: vec![0; list.len() / WRITE_SIZE * SLOT_SIZE + MAX_AWAITING * SLOT_SIZE],
        // A member stands in at least 53 bytes of a list.
        members: vec![0; list.len() / 53 * MEMBER_SIZE],
        out: vec![0; OUT],
    };
    let mut text = Vec::new();
    let mut from = 0;
    loop {
        let reply = run(list, from, &mut areas)?;
        text.extend_from_slice(&areas.out[..reply.count(2)]);
        let fault = match reply.word(0) {
            0 => {
                from = reply.count(1);
                continue;
            }
            1 => None,
            _ => Refusal::from_number(reply.word(3)).map(|refusal| Fault { refusal, place: reply.count(1) }),
        };
        let text = String::from_utf8(text).expect("a listing is ASCII");
        return Ok(Listing { text, fault });
    }
}
