//! What calls return.
use crate::numbers::Home;
use crate::{library, Card, Slot};
use std::error::Error;
use std::fmt;

/// Why a call was refused. Nothing has changed then.
#[derive(Clone, Copy, Debug, PartialEq, Eq)]
pub enum Refusal {
    /// An allocation failed.
    NoMemory,
    /// The counts of a heap are outside their limits.
    BadLayout,
    /// The hot limit or the size of the ring is outside its limits.
    BadSettings,
    /// The heap has no such slot, or a range of slots ends behind its last one.
    NoSlot,
    /// The heap has no such card.
    NoCard,
    /// The heap has no such region.
    NoRegion,
    /// More than [`LOG`](crate::LOG) cards at once.
    TooManyCards,
    /// References were to be moved from a region to itself.
    SameRegion,
    /// A racer's log is full: take it, and store again.
    LogFull,
    /// Not as many racers or sweepers as a heap may have, or more readers than it may have.
    BadHandles,
    /// A racer or a sweeper of the heap that was to be paused was not handed in.
    StillOut,
    /// A word of data is less than [`DATA`](crate::concurrent::DATA).
    BadWord,
    /// A slot of the region that was to be forgotten refers out of it.
    StillReferenced,
    /// A slot, card, region, racer or sweeper of another heap was passed.
    OtherHeap,
    /// A code that these types rule out, such as that the heap is closed.
    Unexpected(u32),
}

impl Refusal {
    pub(crate) fn of(word: u32) -> Refusal {
        match word {
            library::NO_MEMORY => Refusal::NoMemory,
            library::BAD_LAYOUT => Refusal::BadLayout,
            library::BAD_SETTINGS => Refusal::BadSettings,
            library::NO_SLOT => Refusal::NoSlot,
            library::NO_CARD => Refusal::NoCard,
            library::NO_REGION => Refusal::NoRegion,
            library::TOO_MANY_CARDS => Refusal::TooManyCards,
            library::SAME_REGION => Refusal::SameRegion,
            library::LOG_FULL => Refusal::LogFull,
            library::BAD_HANDLES => Refusal::BadHandles,
            library::BAD_WORD => Refusal::BadWord,
            library::STILL_REFERENCED => Refusal::StillReferenced,
            word => Refusal::Unexpected(word),
        }
    }
}

impl fmt::Display for Refusal {
    fn fmt(&self, f: &mut fmt::Formatter<'_>) -> fmt::Result {
        f.write_str(match self {
            Refusal::NoMemory => "no memory",
            Refusal::BadLayout => "counts outside the limits of a heap",
            Refusal::BadSettings => "a setting outside its limits",
            Refusal::NoSlot => "no such slot",
            Refusal::NoCard => "no such card",
            Refusal::NoRegion => "no such region",
            Refusal::TooManyCards => "more cards than a queue has",
            Refusal::SameRegion => "the same region twice",
            Refusal::LogFull => "the log is full",
            Refusal::BadHandles => "a wrong number of racers, sweepers or readers",
            Refusal::StillOut => "a racer or a sweeper was not handed in",
            Refusal::BadWord => "a word that is no data",
            Refusal::StillReferenced => "a reference leaves the region",
            Refusal::OtherHeap => "a number, a racer or a sweeper of another heap",
            Refusal::Unexpected(word) => return write!(f, "an unexpected code: {word}"),
        })
    }
}

impl Error for Refusal {}

/// The end of a call that returns nothing else than whether it is done.
pub(crate) fn done(word: u32) -> Result<(), Refusal> {
    match word {
        library::DONE => Ok(()),
        word => Err(Refusal::of(word)),
    }
}

/// A refused call that was to take a value: the value comes back as it was.
#[derive(Debug)]
pub struct Refused<T> {
    /// What the call was to take.
    pub value: T,
    /// Why it was refused.
    pub refusal: Refusal,
}

impl<T> From<Refused<T>> for Refusal {
    /// Drops the value.
    fn from(refused: Refused<T>) -> Refusal {
        refused.refusal
    }
}

impl<T> fmt::Display for Refused<T> {
    fn fmt(&self, f: &mut fmt::Formatter<'_>) -> fmt::Result {
        self.refusal.fmt(f)
    }
}

impl<T: fmt::Debug> Error for Refused<T> {}

/// How much is pending and recorded.
#[repr(C)]
#[derive(Clone, Copy, Debug, Default, PartialEq, Eq)]
pub struct Totals {
    /// Cards that are pending.
    pub pending: u32,
    /// Pairs of a card and a region into which it is recorded to refer.
    pub recorded: u32,
}

/// What a store was.
#[derive(Clone, Copy, Debug, PartialEq, Eq)]
pub enum Kind {
    /// The target is null.
    Null,
    /// The slot and its target are in one region.
    SameRegion,
    /// The slot's card was pending already.
    Dirty,
    /// The card was clean, and is pending now. It belongs into the dirty card queue of the thread
    /// that stored; a [`Racer`](crate::concurrent::Racer) has put it into its log.
    Logged(Card),
}

impl Kind {
    /// The kind of a word, for a store to this card.
    pub(crate) fn of(word: u32, card: Card) -> Result<Kind, Refusal> {
        match word {
            library::STORED_NULL => Ok(Kind::Null),
            library::STORED_SAME_REGION => Ok(Kind::SameRegion),
            library::STORED_DIRTY => Ok(Kind::Dirty),
            library::STORED_LOGGED => Ok(Kind::Logged(card)),
            word => Err(Refusal::Unexpected(word)),
        }
    }
}

/// What an exchange did that expected something of a slot.
#[derive(Clone, Copy, Debug, PartialEq, Eq)]
pub enum Exchanged<T = Option<Slot>> {
    /// The slot had what was expected, and the store was made.
    Stored(Kind),
    /// Nothing was stored: this is what the slot has. Where that is a reference it is `None` for
    /// null, and also for data, which is not the null that may have been expected.
    Differs(T),
}

/// What a refinement did.
#[derive(Clone, Debug, PartialEq, Eq)]
pub struct Refined {
    /// The cards that were refined, in order.
    pub cards: Vec<Card>,
    /// How many cards were found hot.
    pub hot: u32,
    /// How many cards were not dirty.
    pub skipped: u32,
    /// An allocation failed midway: hand the same cards in again.
    pub is_short: bool,
}

/// What a drain did.
#[derive(Clone, Debug, PartialEq, Eq)]
pub enum Drained {
    /// All that was pending is refined.
    Cards {
        /// The remembered set of the region, ascending.
        members: Vec<Card>,
        /// The cards that were refined, in order.
        refined: Vec<Card>,
    },
    /// An allocation failed midway: drain again.
    Short {
        /// The cards that were refined, in order; the others are pending as before.
        refined: Vec<Card>,
    },
}

/// What a clear of a region, or a free of several, did.
#[derive(Clone, Copy, Debug, PartialEq, Eq)]
pub enum Cleared {
    /// The sets are empty.
    Cleared,
    /// Refused: cards are pending, as many as this says. Drain or refine first.
    Pending(u32),
    /// Refused: this is the least slot outside the regions that refers into one of them.
    StillReferenced(Slot),
}

impl Cleared {
    /// What the code of a clear says, with its detail.
    pub(crate) fn of(word: u32, detail: u32, home: Home) -> Result<Cleared, Refusal> {
        match word {
            library::DONE => Ok(Cleared::Cleared),
            library::STILL_PENDING => Ok(Cleared::Pending(detail)),
            library::STILL_REFERENCED => Ok(Cleared::StillReferenced(Slot {
                number: detail,
                home,
            })),
            word => Err(Refusal::of(word)),
        }
    }
}

/// What a redirect did.
#[derive(Clone, Debug, PartialEq, Eq)]
pub enum Redirected {
    /// The references have moved.
    Slots {
        /// How many slots changed.
        moved: u32,
        /// The cards that were refined, in order.
        refined: Vec<Card>,
    },
    /// An allocation failed midway, and no slot has changed: redirect again.
    Short {
        /// The cards that were refined, in order; the others are pending as before.
        refined: Vec<Card>,
    },
}
