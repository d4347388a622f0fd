//! The kinds of lists: what each opens with and which moves it prefers.

/// One move of the generator: a call, or a short run of calls that brings
/// about a rare order.
#[derive(Clone, Copy, Debug, PartialEq, Eq)]
pub enum Move {
    Open,
    OpenOdd,
    Install,
    InstallSame,
    Look,
    Get,
    Put,
    Read,
    Take,
    Answer,
    AnswerEmpty,
    /// Names a slot twice, or one that was not taken.
    AnswerBad,
    /// A linked advance with writes.
    Linked,
    /// A linked advance without writes.
    Quiet,
    /// One above, with another parent hash.
    Sibling,
    /// Any number but one above.
    Gap,
    /// A child at a number around the largest.
    Wrap,
    /// The installed anchor again.
    Current,
    /// A skip of 1 to 3, without writes.
    Skip,
    /// A skip that is turned down.
    SkipBad,
    /// A call that names another anchor than the installed one.
    Stale,
    /// A put, advances until it lapses, then a probe.
    Lapse,
    /// A lapsed slot gets a relevant write.
    Reseed,
    /// A value below and uses alone above it.
    UseAlone,
    /// One list that writes a slot several times.
    Twice,
    /// Puts until the store is full, and one more.
    Fill,
    /// Reads of many slots, up to the 65th.
    Crowd,
    /// Reads, a take and a whole answer.
    Settle,
}

pub struct Profile {
    pub kind: &'static str,
    pub capacities: &'static [u64],
    /// Empty: always the form with the defaults.
    pub depths: &'static [u64],
    /// None is unbounded.
    pub idles: &'static [Option<u64>],
    pub starts: &'static [u64],
    pub addresses: usize,
    pub indexes: usize,
    /// Percent of new anchors without a hash.
    pub hashless: usize,
    /// Fewest and most moves.
    pub moves: (usize, usize),
    pub steps: &'static [(Move, usize)],
}

const LARGEST: u64 = u64::MAX;
const CAPACITIES: &[u64] = &[3, 6, 12, 40, 256];
const DEPTHS: &[u64] = &[0, 1, 1, 2, 3, 8];
const IDLES: &[Option<u64>] = &[None, Some(0), Some(1), Some(1), Some(2), Some(4)];
const STARTS: &[u64] = &[0, 1, 10, 10, 126, 1000];

use Move::*;

const PLAIN: Profile = Profile {
    kind: "",
    capacities: CAPACITIES,
    depths: DEPTHS,
    idles: IDLES,
    starts: STARTS,
    addresses: 3,
    indexes: 2,
    hashless: 3,
    moves: (8, 28),
    steps: &[],
};

/// The kinds that a profile alone makes. `parse` and `broken` start from them.
#[rustfmt::skip]
pub const PROFILES: &[Profile] = &[
    Profile {
        kind: "mixed",
        steps: &[
            (Open, 1), (Install, 3), (InstallSame, 1), (Look, 10), (Get, 10), (Put, 10),
            (Read, 10), (Take, 5), (Answer, 6), (AnswerEmpty, 1), (AnswerBad, 2), (Linked, 14),
            (Quiet, 6), (Sibling, 2), (Gap, 2), (Current, 2), (Skip, 2), (SkipBad, 1),
            (Stale, 3), (Lapse, 2), (Reseed, 2), (UseAlone, 2), (Twice, 2), (Settle, 3),
        ],
        ..PLAIN
    },
    Profile {
        kind: "lapse",
        idles: &[Some(0), Some(1), Some(1), Some(2), Some(3)],
        moves: (4, 16),
        steps: &[
            (Lapse, 12), (Quiet, 8), (Linked, 8), (Look, 8), (Get, 5), (Read, 5), (Put, 5),
            (Settle, 2), (Reseed, 2),
        ],
        ..PLAIN
    },
    Profile {
        kind: "fold",
        depths: &[0, 1, 1, 2, 3],
        idles: &[None, Some(1), Some(2), Some(3), Some(5)],
        steps: &[
            (Linked, 14), (Quiet, 10), (Put, 10), (Get, 8), (Look, 6), (Lapse, 2), (Reseed, 2),
            (UseAlone, 3), (Twice, 1), (Settle, 1),
        ],
        ..PLAIN
    },
    Profile {
        kind: "sibling",
        hashless: 8,
        steps: &[
            (Sibling, 10), (Gap, 6), (Current, 5), (Install, 5), (InstallSame, 3), (Linked, 10),
            (Quiet, 3), (Put, 8), (Look, 8), (Get, 3), (Read, 3), (Stale, 5),
        ],
        ..PLAIN
    },
    Profile {
        kind: "reseed",
        idles: &[Some(0), Some(1), Some(1), Some(2)],
        moves: (3, 12),
        steps: &[
            (Reseed, 14), (Lapse, 4), (Linked, 6), (Quiet, 8), (Look, 6), (Get, 4), (Twice, 4),
            (Put, 3), (UseAlone, 2),
        ],
        ..PLAIN
    },
    Profile {
        kind: "uses",
        idles: &[None, Some(1), Some(1), Some(2), Some(3)],
        steps: &[
            (UseAlone, 10), (Get, 12), (Read, 6), (Quiet, 12), (Linked, 6), (Look, 6), (Put, 3),
        ],
        ..PLAIN
    },
    Profile {
        kind: "duplicates",
        addresses: 2,
        steps: &[
            (Twice, 14), (Linked, 4), (Read, 8), (Take, 5), (Answer, 4), (AnswerBad, 6),
            (Put, 5), (Look, 5), (Get, 3), (Lapse, 2), (Quiet, 2), (Settle, 3),
        ],
        ..PLAIN
    },
    Profile {
        kind: "full",
        capacities: &[1, 2, 2, 3, 4, 5],
        depths: &[0, 1, 1, 2, 3],
        idles: &[None, Some(0), Some(1), Some(1), Some(2)],
        steps: &[
            (Put, 12), (Get, 10), (Read, 6), (Linked, 14), (Quiet, 8), (Twice, 5), (Settle, 5),
            (Take, 3), (Answer, 5), (Fill, 4), (Look, 4), (UseAlone, 4), (Reseed, 3), (Lapse, 2),
            (Sibling, 2), (Skip, 2), (Install, 1), (Current, 2),
        ],
        ..PLAIN
    },
    Profile {
        kind: "awaiting",
        addresses: 4,
        indexes: 24,
        hashless: 90,
        moves: (3, 9),
        steps: &[
            (Crowd, 10), (Read, 10), (Take, 6), (Answer, 8), (AnswerBad, 2), (Put, 4), (Look, 2),
            (Get, 2), (Install, 1), (Quiet, 1),
        ],
        ..PLAIN
    },
    Profile {
        kind: "limits",
        capacities: &[1, 2, 256, 256],
        depths: &[0, 1, 255],
        idles: &[None, Some(0), Some(1), Some(LARGEST), Some(LARGEST - 1), Some(1 << 63)],
        starts: &[
            0, 127, 128, 16_383, 16_384, 0xffff_ffff, 0x1_0000_0000, (1 << 63) - 1, 1 << 63,
            LARGEST - 2, LARGEST - 1, LARGEST - 1, LARGEST,
        ],
        moves: (6, 20),
        steps: &[
            (OpenOdd, 8), (Open, 2), (Install, 6), (Wrap, 8), (Linked, 10), (Quiet, 6),
            (Gap, 3), (SkipBad, 4), (Put, 8), (Look, 6), (Get, 5), (Read, 3), (Settle, 2),
            (Current, 2), (Stale, 2),
        ],
        ..PLAIN
    },
    Profile {
        kind: "reads",
        steps: &[
            (Read, 18), (Take, 8), (Answer, 10), (AnswerEmpty, 3), (AnswerBad, 4), (Settle, 5),
            (Put, 5), (Get, 4), (Look, 3), (Linked, 4), (Quiet, 2), (Stale, 3), (Install, 1),
            (InstallSame, 1), (Current, 1), (Open, 1),
        ],
        ..PLAIN
    },
    Profile {
        kind: "skip",
        steps: &[
            (Skip, 10), (SkipBad, 10), (Linked, 8), (Put, 8), (Look, 6), (Get, 2), (Read, 3),
            (Sibling, 2), (Gap, 2), (Current, 2), (Install, 1),
        ],
        ..PLAIN
    },
    Profile {
        kind: "hashless",
        hashless: 50,
        steps: &[
            (Linked, 12), (Quiet, 6), (Install, 6), (InstallSame, 3), (Put, 8), (Look, 6),
            (Get, 4), (Read, 4), (Settle, 3), (Current, 4), (Stale, 5), (Sibling, 2), (Skip, 2),
        ],
        ..PLAIN
    },
    Profile {
        kind: "deep",
        capacities: &[8, 40, 256],
        depths: &[0, 1, 2, 3, 7, 8, 8, 9, 255],
        idles: &[None, Some(1), Some(3), Some(6), Some(9), Some(12)],
        moves: (14, 40),
        steps: &[
            (Quiet, 24), (Linked, 10), (Put, 6), (Get, 5), (Look, 4), (Twice, 1), (Read, 1),
        ],
        ..PLAIN
    },
];

/// Every kind, in the order of the recorded set.
pub fn kinds() -> Vec<&'static str> {
    let mut kinds: Vec<_> = PROFILES.iter().map(|profile| profile.kind).collect();
    kinds.extend(["parse", "broken"]);
    kinds
}

pub fn profile(kind: &str) -> Option<&'static Profile> {
    PROFILES.iter().find(|profile| profile.kind == kind)
}
