//! The refusals: their numbers and words.

use std::fmt;

macro_rules! refusals {
    ($($name:ident = $number:literal, $words:literal;)*) => {
        /// Why a call was refused. A refused call has changed nothing.
        ///
        /// The numbers are those of the listing, of C and of docs/REFERENCE.md, which says what to do about each.
        #[derive(Clone, Copy, Debug, PartialEq, Eq, Hash)]
        #[non_exhaustive]
        pub enum Refusal {
            $(
                #[doc = concat!(stringify!($number), ": ", $words, ".")]
                $name = $number,
            )*
        }

        impl Refusal {
            /// Every refusal, by rising number.
            pub const ALL: &'static [Self] = &[$(Self::$name),*];

            /// What it says, without its number.
            #[must_use]
            pub const fn words(self) -> &'static str {
                match self {
                    $(Self::$name => $words,)*
                }
            }

            /// The refusal of a number.
            #[must_use]
            pub const fn from_number(number: u64) -> Option<Self> {
                match number {
                    $($number => Some(Self::$name),)*
                    _ => None,
                }
            }
        }
    };
}

refusals! {
    CapacityOutOfRange = 1, "the capacity is 0 or above 4,096 records";
    DepthLimitTooLarge = 2, "the depth limit is above 255";
    UnknownForm = 3, "an unknown call code or form byte, or a member's flag that is neither 0 nor 1";
    BadNumber = 4, "a number in a call list is not in its shortest form, or is 2^64 or more";
    CutShort = 5, "the call list ends inside a call";
    WritesWithSkip = 6, "a skip other than 0, and writes";
    UnknownSkip = 7, "the skip is above 3";
    SlotTwice = 8, "an answer names a slot twice";
    AreaTooShort = 9, "a lent area is too short";
    CountsDisagree = 10, "the counts of slots, changes or reads do not sum to the lists' lengths";
    NotAStore = 20, "the bytes are not a store";
    NothingInstalled = 21, "nothing is installed";
    OtherAnchor = 22, "another anchor is installed than the call names";
    StoreFull = 23, "after the call there would be more records than the capacity";
    QueueFull = 24, "the slot would be the 65th that awaits an answer";
    TooManyReads = 25, "the generation has had 4,294,967,295 accepted reads";
    NotTaken = 26, "an answered slot has not been taken";
    OutputTooShort = 27, "a take's output holds fewer entries than the queue";
}

impl Refusal {
    /// Its number.
    ///
    /// ```
    /// assert_eq!(poxilme::Refusal::OtherAnchor.number(), 22);
    /// ```
    #[must_use]
    pub const fn number(self) -> u64 {
        self as u64
    }
}

impl fmt::Display for Refusal {
    fn fmt(&self, f: &mut fmt::Formatter<'_>) -> fmt::Result {
        write!(f, "refused by {}: {}", self.number(), self.words())
    }
}

impl std::error::Error for Refusal {}
