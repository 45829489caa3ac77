//! Garbage-First's remembered-set log machinery, from the write barrier to the drain at an
//! evacuation pause: a safe wrapper of the verified library Ninkoda.
//!
//! There are two kinds of heap. A [`Core`] is for one call at a time. A concurrent heap, whose
//! mutators store with no lock beside refinement threads, is in [`concurrent`].
//!
//! What `g1.h` asks of its caller and nothing there can test holds here by types. A [`Core`] is
//! open from [`Core::open`] until it is dropped, is never copied, and takes each call by
//! `&mut self`, so that one call at a time uses it. It may go to another thread, and in a `Mutex`
//! it serves several. A [`Slot`], [`Card`] or [`Region`] is one that its heap has, and knows which
//! heap that is, so that no other heap takes it. What is left is what a program may meet when it
//! runs, a [`Refusal`].
//!
//! ```
//! use ninkoda::{Core, Counts, Drained, Kind, Refusal};
//!
//! fn main() -> Result<(), Refusal> {
//!     let counts = Counts { regions: 4, cards: 2, slots: 4 };
//!     let mut core = Core::open(counts, 4, 1024)?;
//!     let (slot, place) = (core.slot(0)?, core.slot(8)?);
//!     if let Kind::Logged(card) = core.store(slot, Some(place))? {
//!         core.refine(&[card])?;
//!     }
//!     let region = core.region(1)?;
//!     if let Drained::Cards { members, .. } = core.drain(region)? {
//!         println!("scan {members:?}");
//!     }
//!     Ok(())
//! }
//! ```
//!
//! A build links the library that `scripts/install` installed: `NINKODA_LIBDIR` names its folder,
//! or `pkg-config` finds it by `g1.pc`. By default that is the static library, and with
//! `NINKODA_LINK=shared` the shared one. In the repository, where none is installed, it is the
//! archive of `prebuilt/`, or the one that `scripts/built g1_c` builds. Where there is none of
//! these, `cargo check` and `cargo doc` work, and a program is not linked.
mod answers;
pub mod concurrent;
mod library;
mod numbers;

pub use answers::{
    Cleared, Drained, Exchanged, Kind, Redirected, Refined, Refusal, Refused, Totals,
};
pub use numbers::{Card, Counts, Region, Slot};

use answers::done;
use library::{
    g1_clear, g1_close, g1_copy, g1_drain, g1_is_pending, g1_members, g1_open, g1_redirect,
    g1_refine, g1_status, g1_store, g1_store_all, g1_target, g1_verify, g1_version, Batch, Handle,
    Tally, DONE, NULL, SHORT,
};
use numbers::{numbers_of, Home, Numbers};
use std::ffi::CStr;
use std::ptr::null_mut;

/// How many cards a refinement takes at most: the size of a dirty card queue.
pub const LOG: usize = 256;

/// The version of the library that the program runs with. With a shared one it may be another than
/// that of this crate.
pub fn version() -> &'static str {
    // SAFETY: it is a text of the library, which ends with a zero and stays.
    let version = unsafe { CStr::from_ptr(g1_version()) };
    version.to_str().unwrap_or("")
}

/// A core: a heap for one call at a time.
pub struct Core {
    handle: Handle,
    numbers: Numbers,
}

impl Drop for Core {
    fn drop(&mut self) {
        // SAFETY: the handle is closed, or one that the library wrote.
        unsafe { g1_close(&mut self.handle) };
    }
}

numbers_of!(Core, numbers);

// SAFETY of each call below: the handle is open, `&mut self` has no other call use it, and an array
// is one of the wrapper's, of the length that is passed.
impl Core {
    /// A new core: each slot is null. From `hot` refinements on (0 to 255) a card is hot; `ring` (1
    /// to 4,096) is how many cards the hot ring holds. Takes 4 bytes a slot, 34 bytes a card and the
    /// ring, and later 19 to 38 bytes for each pair of a card and a region that it records.
    ///
    /// Refused with [`Refusal::BadLayout`], [`Refusal::BadSettings`] or [`Refusal::NoMemory`].
    pub fn open(counts: Counts, hot: u32, ring: u32) -> Result<Core, Refusal> {
        let core = null_mut();
        let mut handle = Handle { core };
        match unsafe { g1_open(&mut handle, &counts, hot, ring) } {
            DONE => {
                let home = Home::new(counts);
                let numbers = Numbers { counts, home };
                Ok(Core { handle, numbers })
            }
            word => Err(Refusal::of(word)),
        }
    }

    /// Stores a reference, or null. Constant time, no memory.
    ///
    /// Refused with [`Refusal::OtherHeap`].
    pub fn store(&mut self, slot: Slot, target: Option<Slot>) -> Result<Kind, Refusal> {
        let ((word, target), mut kind) = (self.numbers.words_of(slot, target)?, 0);
        match unsafe { g1_store(&mut self.handle, word, target, &mut kind) } {
            DONE => Kind::of(kind, slot.card()),
            word => Err(Refusal::of(word)),
        }
    }

    /// Makes these stores in order, and returns the cards of those that were logged, in order, for
    /// a dirty card queue. Time in the number of stores; allocates that list.
    ///
    /// Refused with [`Refusal::OtherHeap`] if any slot or target is another heap's.
    pub fn store_all(&mut self, stores: &[(Slot, Option<Slot>)]) -> Result<Vec<Card>, Refusal> {
        let mut logged = Vec::new();
        for block in self.numbers.blocks(stores)? {
            let (mut cards, mut batch) = ([0; LOG], Batch::default());
            let (some, room) = (block.stores(), cards.as_mut_ptr());
            let (given, count) = (some.as_ptr(), some.len());
            match unsafe { g1_store_all(&mut self.handle, given, count, room, LOG, &mut batch) } {
                DONE => logged.extend(self.numbers.cards_of(&cards, batch.logged)),
                word => return Err(Refusal::of(word)),
            }
        }
        Ok(logged)
    }

    /// Refines the cards of a dirty card queue, at most [`LOG`], in order. A card that is not dirty
    /// is skipped. Time in the slots of the cards that are refined. Allocates the list of these, and
    /// what the sets gain.
    ///
    /// Refused with [`Refusal::TooManyCards`], [`Refusal::OtherHeap`] or [`Refusal::NoMemory`].
    pub fn refine(&mut self, cards: &[Card]) -> Result<Refined, Refusal> {
        if cards.len() > LOG {
            return Err(Refusal::TooManyCards);
        }
        let mut numbers = [0; LOG];
        for (number, card) in numbers.iter_mut().zip(cards) {
            self.numbers.has(card.home)?;
            *number = card.number;
        }
        let (mut refined, mut tally) = ([0; LOG], Tally::default());
        let (given, room) = (numbers.as_ptr(), refined.as_mut_ptr());
        let word =
            unsafe { g1_refine(&mut self.handle, given, cards.len(), room, LOG, &mut tally) };
        if word != DONE && word != SHORT {
            return Err(Refusal::of(word));
        }
        let cards = self.numbers.cards_of(&refined, tally.refined);
        Ok(Refined {
            cards,
            hot: tally.hot,
            skipped: tally.skipped,
            is_short: word == SHORT,
        })
    }

    /// Refines all that is pending, and returns the remembered set of a region: every card outside
    /// it that refers into it, ascending. Some may be stale: they did since the set was last
    /// cleared, and no longer do. Time in the cards of the heap, and in the slots of those that are
    /// refined. Allocates 4 bytes for each card of the heap, twice, beside the lists.
    ///
    /// Refused with [`Refusal::OtherHeap`] or [`Refusal::NoMemory`].
    pub fn drain(&mut self, region: Region) -> Result<Drained, Refusal> {
        self.numbers.has(region.home)?;
        let all = self.numbers.all_cards() as usize;
        let (mut cards, mut count) = (vec![0; all], 0);
        let (mut refined, mut refined_count) = (vec![0; all], 0);
        let word = unsafe {
            g1_drain(
                &mut self.handle,
                region.number,
                cards.as_mut_ptr(),
                all,
                &mut count,
                refined.as_mut_ptr(),
                all,
                &mut refined_count,
            )
        };
        let refined = self.numbers.cards_of(&refined, refined_count);
        match word {
            DONE => Ok(Drained::Cards {
                members: self.numbers.cards_of(&cards, count),
                refined,
            }),
            SHORT => Ok(Drained::Short { refined }),
            word => Err(Refusal::of(word)),
        }
    }

    /// What a slot refers to. Constant time, no memory.
    ///
    /// Refused with [`Refusal::OtherHeap`].
    pub fn target(&mut self, slot: Slot) -> Result<Option<Slot>, Refusal> {
        self.numbers.has(slot.home)?;
        let mut target = NULL;
        match unsafe { g1_target(&mut self.handle, slot.number, &mut target) } {
            DONE => Ok(self.numbers.reference(target)),
            word => Err(Refusal::of(word)),
        }
    }

    /// Whether a card is dirty or held in the hot ring. Constant time, no memory.
    ///
    /// Refused with [`Refusal::OtherHeap`].
    pub fn is_pending(&mut self, card: Card) -> Result<bool, Refusal> {
        self.numbers.has(card.home)?;
        let mut pending = 0;
        match unsafe { g1_is_pending(&mut self.handle, card.number, &mut pending) } {
            DONE => Ok(pending == 1),
            word => Err(Refusal::of(word)),
        }
    }

    /// How much is pending and recorded. Time in the number of regions, no memory.
    pub fn status(&mut self) -> Result<Totals, Refusal> {
        let mut totals = Totals::default();
        match unsafe { g1_status(&mut self.handle, &mut totals) } {
            DONE => Ok(totals),
            word => Err(Refusal::of(word)),
        }
    }

    /// The remembered set of a region as it is recorded, ascending. Pending cards may be missing
    /// from it. Allocates 4 bytes for each card of the heap, beside the list.
    ///
    /// Refused with [`Refusal::OtherHeap`] or [`Refusal::NoMemory`].
    pub fn members(&mut self, region: Region) -> Result<Vec<Card>, Refusal> {
        self.numbers.has(region.home)?;
        let (mut cards, mut count) = (vec![0; self.numbers.all_cards() as usize], 0);
        let (room, length) = (cards.as_mut_ptr(), cards.len());
        match unsafe { g1_members(&mut self.handle, region.number, room, length, &mut count) } {
            DONE => Ok(self.numbers.cards_of(&cards, count)),
            word => Err(Refusal::of(word)),
        }
    }

    /// Empties the remembered set of a region, once nothing is pending and no slot outside the
    /// region refers into it. A slot counts even if its object is dead or its own region was freed:
    /// store null to it first. Time in the slots of the cards in the set, no memory.
    ///
    /// Refused with [`Refusal::OtherHeap`].
    pub fn clear(&mut self, region: Region) -> Result<Cleared, Refusal> {
        self.numbers.has(region.home)?;
        let mut detail = 0;
        let word = unsafe { g1_clear(&mut self.handle, region.number, &mut detail) };
        Cleared::of(word, detail, self.numbers.home)
    }

    /// Refines all that is pending, moves each reference from outside the region `from` into it to
    /// the same offset of `to`, and empties the set of `from`. The card of each slot that changed
    /// outside `to` is recorded for `to`.
    ///
    /// It copies no slot: store what the copies in `to` refer to first, and redirect then. Slots
    /// inside `from` stay as they are, and so may keep a clear of another region refused. Time as of
    /// a drain, and in the slots of the cards in the set. Allocates 4 bytes for each card of the
    /// heap, beside the list.
    ///
    /// Refused with [`Refusal::OtherHeap`], [`Refusal::SameRegion`] or [`Refusal::NoMemory`].
    pub fn redirect(&mut self, from: Region, to: Region) -> Result<Redirected, Refusal> {
        self.numbers.has(from.home)?;
        self.numbers.has(to.home)?;
        let all = self.numbers.all_cards() as usize;
        let (mut refined, mut refined_count, mut moved) = (vec![0; all], 0, 0);
        let word = unsafe {
            g1_redirect(
                &mut self.handle,
                from.number,
                to.number,
                &mut moved,
                refined.as_mut_ptr(),
                all,
                &mut refined_count,
            )
        };
        let refined = self.numbers.cards_of(&refined, refined_count);
        match word {
            DONE => Ok(Redirected::Slots { moved, refined }),
            SHORT => Ok(Redirected::Short { refined }),
            word => Err(Refusal::of(word)),
        }
    }

    /// Copies what `count` slots refer to, from the slot `from` on to the slots from `to` on, as if
    /// all were read before any is written. A card becomes pending as by [`Core::store`], and none
    /// is returned for a queue: the next drain finds it. Time in `count`, no memory.
    ///
    /// Refused with [`Refusal::OtherHeap`], or [`Refusal::NoSlot`] if either range ends behind the
    /// last slot.
    pub fn copy(&mut self, from: Slot, to: Slot, count: u32) -> Result<(), Refusal> {
        self.numbers.has(from.home)?;
        self.numbers.has(to.home)?;
        done(unsafe { g1_copy(&mut self.handle, from.number, to.number, count) })
    }

    /// The least slot that refers to something else than a runtime's memory does, for a debug build:
    /// one whose store was not reported, most often. `memory` is what that has in as many slots from
    /// `first` on. Time in the slots, no memory.
    ///
    /// Refused with [`Refusal::OtherHeap`], or [`Refusal::NoSlot`] if the range ends behind the last
    /// slot.
    pub fn first_differing(
        &mut self,
        first: Slot,
        memory: &[Option<Slot>],
    ) -> Result<Option<Slot>, Refusal> {
        let handle = &mut self.handle;
        let check = |first, memory: &[u32], differing: &mut u32| {
            let (given, length, mut missing) = (memory.as_ptr(), memory.len(), NULL);
            unsafe { g1_verify(handle, first, 0, given, length, differing, &mut missing) }
        };
        self.numbers.first_differing(first, memory, check)
    }

    /// The least of `count` slots from `first` on that refers into another region while its card is
    /// neither pending nor recorded for that region, for a debug build: no drain would return it.
    /// There is none if only the library has written to the core's memory. Time in the slots, no memory.
    ///
    /// Refused with [`Refusal::OtherHeap`], or [`Refusal::NoSlot`] if the range ends behind the last
    /// slot.
    pub fn first_missing(&mut self, first: Slot, count: u32) -> Result<Option<Slot>, Refusal> {
        self.numbers.has(first.home)?;
        let (mut differing, mut missing) = (NULL, NULL);
        let (handle, memory) = (&mut self.handle, [0; 0]);
        let (first, given) = (first.number, memory.as_ptr());
        done(unsafe { g1_verify(handle, first, count, given, 0, &mut differing, &mut missing) })?;
        Ok(self.numbers.reference(missing))
    }
}
