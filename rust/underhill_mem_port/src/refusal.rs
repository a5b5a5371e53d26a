//! Document 01's numbers.

use std::error::Error;
use std::fmt;

/// Declares [`Refusal`]: of each its name, number and text.
macro_rules! refusals {
    ($($(#[$doc:meta])* $name:ident = $number:literal, $text:literal;)*) => {
        /// Why a call was refused: nothing was asked for, and nothing was changed, save that a
        /// default change refused by [`Locked`](Self::Locked) leaves its default.
        #[derive(Debug, Clone, Copy, PartialEq, Eq, Hash)]
        #[non_exhaustive]
        #[repr(u8)]
        pub enum Refusal {
            $($(#[$doc])* $name = $number,)*
        }

        impl Refusal {
            /// The refusal of that number.
            pub fn from_number(number: u64) -> Option<Self> {
                match number {
                    $($number => Some(Self::$name),)*
                    _ => None,
                }
            }

            fn text(self) -> &'static str {
                match self {
                    $(Self::$name => $text,)*
                }
            }
        }
    };
}

refusals! {
    /// 1: the layout is unfit (no entry or over 32, empty, out of order, past 2^52), or the offset
    /// is (no multiple of 4,096, or with the last end past 2^64 - 1).
    UnfitLayout = 1, "unfit layout or offset";
    /// 2: a start or an end is no multiple of 32,768.
    BadAlignment = 2, "memory map entries must be aligned to 32,768 bytes";
    /// 3: an isolation type that the protector doesn't serve.
    UnfitIsolation = 3, "unfit isolation type";
    /// 4: a lent buffer has the wrong length.
    WrongLength = 4, "lent buffer of wrong length";
    /// 5: a list of over 512 pages.
    LongList = 5, "list over 512 pages";
    /// 6: a page stands twice in a list whose visibility is to change.
    RepeatedPage = 6, "a page stands twice in the list";
    /// 7: a page isn't RAM.
    NotRam = 7, "page not in guest RAM";
    /// 8: a number that stands for one of a few cases is none of them.
    UnfitNumber = 8, "unfit number";
    /// 9: a chunk past the last is touched, or a granularity or alignment is unfit.
    UnfitChunk = 9, "chunk past the last, or unfit granularity or alignment";
    /// 10: a page is locked.
    Locked = 10, "page locked";
    /// 11: an overlay is there.
    Overlay = 11, "overlay page";
    /// 12: a page is shared.
    Shared = 12, "page shared with the host";
    /// 13: permissions are too narrow for what is asked.
    Narrow = 13, "permissions too narrow";
    /// 14: no overlay is there.
    NoOverlay = 14, "no such overlay page";
    /// 17: a table or a count is full.
    Full = 17, "table or count full";
    /// 18: no list of just these pages is locked.
    NotLocked = 18, "no such locked list";
    /// 19: an operation is outstanding.
    Busy = 19, "an operation is outstanding";
    /// 20: an earlier call halted.
    Halted = 20, "halted by an earlier call";
    /// 21: an answer, and nothing is asked for, or what is asked for can't fail.
    NothingAsked = 21, "nothing is asked for that this answers";
    /// 24: permissions aren't tracked.
    Untracked = 24, "permissions are not tracked";
}

impl Refusal {
    /// Document 01's number.
    pub fn number(self) -> u64 {
        u64::from(self as u8)
    }

    /// The hypervisor's code for it, OperationDenied; none for those that are the port's own.
    pub fn code(self) -> Option<u16> {
        match self {
            Self::NotRam
            | Self::Locked
            | Self::Overlay
            | Self::Shared
            | Self::Narrow
            | Self::NoOverlay => Some(8),
            _ => None,
        }
    }
}

impl fmt::Display for Refusal {
    fn fmt(&self, f: &mut fmt::Formatter<'_>) -> fmt::Result {
        write!(f, "{} (refusal {})", self.text(), self.number())
    }
}

impl Error for Refusal {}
