//! What the collector does at a pause.
use super::{Life, Paused, Racer, Racing, Sweeper, Word, Words};
use super::{NO_RACER, NO_SWEEPER, RACERS, SWEEPERS};
use crate::answers::done;
use crate::library::{
    g1_heap_clear, g1_heap_copy, g1_heap_forget, g1_heap_free, g1_heap_is_pending,
    g1_heap_next_dirty, g1_heap_next_into, g1_heap_next_member, g1_heap_open, g1_heap_redirect,
    g1_heap_refine, g1_heap_resume, g1_heap_status, g1_heap_store, g1_heap_store_all,
    g1_heap_store_data, g1_heap_store_words, g1_heap_verify, g1_heap_wipe, g1_heap_words,
    HeapHandle, DONE, NULL,
};
use crate::numbers::{CollectionSet, Home, Numbers};
use crate::{Card, Cleared, Counts, Kind, Refusal, Region, Slot, Totals};
use std::fmt;
use std::ptr::{null, null_mut};
use std::sync::atomic::Ordering::Acquire;

// SAFETY of each call below: the handle is open and at a pause, `&mut self` has no other call use
// it, and an array is one of the wrapper's, of the length that is passed.
impl Paused {
    /// A new heap, each of whose slots is null, with 1 to [`RACERS`] racers and 1 to [`SWEEPERS`]
    /// sweepers. Takes 8 bytes a slot, 8 bytes a card, a bit for each pair of a card and a region and
    /// one for each card, all of this twice meanwhile; and about 2.4 kilobytes for each racer and 0.3
    /// for each sweeper.
    ///
    /// Refused with [`Refusal::BadHandles`], [`Refusal::BadLayout`] or [`Refusal::NoMemory`].
    pub fn open(counts: Counts, racers: usize, sweepers: usize) -> Result<Paused, Refusal> {
        let (heap, mut start) = (null_mut(), null());
        let mut handle = HeapHandle { heap };
        let numbers = [racers, sweepers].map(|count| u32::try_from(count).unwrap_or(u32::MAX));
        match unsafe { g1_heap_open(&mut handle, &counts, numbers[0], numbers[1]) } {
            DONE => unsafe { g1_heap_words(&mut handle, &mut start) },
            word => return Err(Refusal::of(word)),
        };
        let home = Home::new(counts);
        Ok(Paused {
            life: Life {
                handle,
                numbers: Numbers { counts, home },
                words: Words(start.cast()),
                racers,
                sweepers,
                readers: Vec::with_capacity(racers + sweepers),
            },
            racers: Vec::with_capacity(racers),
            sweepers: Vec::with_capacity(sweepers),
        })
    }

    /// Ends the pause: the heap races from here on. Each racer has the log of the one that was at
    /// its place when the pause began, or an empty one if the pause has refined. No memory.
    pub fn resume(self) -> (Racing, Vec<Racer>, Vec<Sweeper>) {
        let Paused {
            mut life,
            mut racers,
            mut sweepers,
        } = self;
        let (mut racing, mut sweeping) = ([NO_RACER; RACERS], [NO_SWEEPER; SWEEPERS]);
        let (some, few) = (racing.as_mut_ptr(), sweeping.as_mut_ptr());
        let word =
            unsafe { g1_heap_resume(&mut life.handle, some, life.racers, few, life.sweepers) };
        assert_eq!(word, DONE, "a resume of a paused heap is not refused");
        let seats = racing.iter().take(life.racers);
        racers.extend(seats.map(|handle| Racer {
            seat: life.seat(handle),
        }));
        let seats = sweeping.iter().take(life.sweepers);
        sweepers.extend(seats.map(|handle| Sweeper {
            seat: life.seat(handle),
        }));
        (Racing { life }, racers, sweepers)
    }

    /// What a slot refers to: nothing if it has data. One load, no memory. Several threads that
    /// share the pause by `&` may ask at once.
    ///
    /// Refused with [`Refusal::OtherHeap`].
    pub fn target(&self, slot: Slot) -> Result<Option<Slot>, Refusal> {
        match self.word(slot)? {
            Word::Reference(place) => Ok(Some(place)),
            Word::Null | Word::Data(_) => Ok(None),
        }
    }

    /// What a slot has. One load, no memory. Several threads that share the pause by `&` may ask at
    /// once.
    ///
    /// Refused with [`Refusal::OtherHeap`].
    pub fn word(&self, slot: Slot) -> Result<Word, Refusal> {
        self.life.numbers.has(slot.home)?;
        // SAFETY: the words are as many as the heap has slots, and stay until it is closed. At a
        // pause only calls by `&mut self` write them.
        let word = unsafe { &*self.life.words.0.add(slot.number as usize) };
        Ok(Word::of(word.load(Acquire), &self.life.numbers))
    }

    /// Whether a card is dirty. Constant time, no memory.
    ///
    /// Refused with [`Refusal::OtherHeap`].
    pub fn is_pending(&mut self, card: Card) -> Result<bool, Refusal> {
        self.life.numbers.has(card.home)?;
        let mut pending = 0;
        match unsafe { g1_heap_is_pending(&mut self.life.handle, card.number, &mut pending) } {
            DONE => Ok(pending == 1),
            word => Err(Refusal::of(word)),
        }
    }

    /// How much is pending and recorded. No memory. It reads a bit for each pair of a card and a
    /// region, so it is no call for every pause.
    pub fn status(&mut self) -> Result<Totals, Refusal> {
        let mut totals = Totals::default();
        match unsafe { g1_heap_status(&mut self.life.handle, &mut totals) } {
            DONE => Ok(totals),
            word => Err(Refusal::of(word)),
        }
    }

    /// The remembered set of a region as it is recorded, ascending. Dirty cards may be missing from
    /// it; after [`Paused::refine`], and until the next store, none is. Time in the set, and a word
    /// for each 64 cards of the heap. Allocates the list alone.
    ///
    /// Refused with [`Refusal::OtherHeap`].
    pub fn members(&mut self, region: Region) -> Result<Vec<Card>, Refusal> {
        Ok(self.members_iter(region)?.collect())
    }

    /// The same cards one by one, with no memory.
    ///
    /// Refused with [`Refusal::OtherHeap`].
    pub fn members_iter(&mut self, region: Region) -> Result<Members<'_>, Refusal> {
        self.life.numbers.has(region.home)?;
        Ok(Members {
            heap: self,
            region,
            from: 0,
        })
    }

    /// The least card from the number `from` on that is recorded for a region. Stores, copies and
    /// wipes between two of these calls do not change what a walk meets. No memory.
    ///
    /// Refused with [`Refusal::OtherHeap`].
    pub fn next_member(&mut self, region: Region, from: u32) -> Result<Option<Card>, Refusal> {
        self.life.numbers.has(region.home)?;
        let (mut number, handle) = (NULL, &mut self.life.handle);
        done(unsafe { g1_heap_next_member(handle, region.number, from, &mut number) })?;
        // (The word for none is no card's number.)
        Ok(self.life.numbers.card(number).ok())
    }

    /// A collection set of these regions, for [`Paused::next_into`] and [`Paused::free`]. They may
    /// come in any order, and more than once, or be none. It takes memory for their numbers.
    ///
    /// Refused with [`Refusal::OtherHeap`] if any region is another heap's.
    pub fn collection_set(&self, regions: &[Region]) -> Result<CollectionSet, Refusal> {
        self.life.numbers.set_of(regions)
    }

    /// The least card from the number `from` on that lies outside the regions of a collection set
    /// and is recorded for one of them: a walk meets each card once for the whole set. Stores, copies
    /// and wipes change it as little as one by [`Paused::next_member`]. No memory.
    ///
    /// Refused with [`Refusal::OtherHeap`].
    pub fn next_into(&mut self, set: &CollectionSet, from: u32) -> Result<Option<Card>, Refusal> {
        self.life.numbers.has(set.home)?;
        let (mut number, handle) = (NULL, &mut self.life.handle);
        let (given, length) = (set.numbers.as_ptr(), set.numbers.len());
        done(unsafe { g1_heap_next_into(handle, given, length, from, &mut number) })?;
        Ok(self.life.numbers.card(number).ok())
    }

    /// The least dirty card from the number `from` on, in whatever region. A store between two of
    /// these calls may make a card dirty, which a walk meets if it lies ahead. No memory.
    pub fn next_dirty(&mut self, from: u32) -> Result<Option<Card>, Refusal> {
        let mut number = NULL;
        done(unsafe { g1_heap_next_dirty(&mut self.life.handle, from, &mut number) })?;
        Ok(self.life.numbers.card(number).ok())
    }

    /// Refines all that is dirty, empties the racers' logs, and returns the remembered set of a
    /// region: every card outside it that refers into it, ascending. Some may be stale: they no
    /// longer refer into it, but did, or were recorded for it, when the heap was last resumed, or
    /// have done so since. Time as of both calls; allocates the list alone.
    ///
    /// Refused with [`Refusal::OtherHeap`].
    pub fn drain(&mut self, region: Region) -> Result<Vec<Card>, Refusal> {
        self.life.numbers.has(region.home)?;
        self.refine()?;
        self.members(region)
    }

    /// Refines all that is dirty, and empties the racers' logs. Call it once for a collection set,
    /// and then [`Paused::members`] or [`Paused::members_iter`] for each region. No memory.
    pub fn refine(&mut self) -> Result<(), Refusal> {
        done(unsafe { g1_heap_refine(&mut self.life.handle) })
    }

    /// The collector stores a reference, or null. A card that is logged is dirty, and in no log.
    /// Constant time, no memory.
    ///
    /// Refused with [`Refusal::OtherHeap`].
    pub fn store(&mut self, slot: Slot, target: Option<Slot>) -> Result<Kind, Refusal> {
        let (word, target) = self.life.numbers.words_of(slot, target)?;
        let mut kind = 0;
        done(unsafe { g1_heap_store(&mut self.life.handle, word, target, &mut kind) })?;
        Kind::of(kind, slot.card())
    }

    /// Makes these stores in order, each as [`Paused::store`] does. It takes no memory.
    ///
    /// Refused with [`Refusal::OtherHeap`] if any slot or target is another heap's.
    pub fn store_all(&mut self, stores: &[(Slot, Option<Slot>)]) -> Result<(), Refusal> {
        for block in self.life.numbers.blocks(stores)? {
            let (some, mut stored) = (block.stores(), 0);
            let (handle, given) = (&mut self.life.handle, some.as_ptr());
            done(unsafe { g1_heap_store_all(handle, given, some.len(), &mut stored) })?;
        }
        Ok(())
    }

    /// The collector stores a row of words, in order, into as many slots from the first on: null and
    /// references as [`Paused::store`] does, data as [`Paused::store_data`]. It takes no memory.
    ///
    /// Refused with [`Refusal::OtherHeap`], [`Refusal::NoSlot`] if the row leaves the heap, or
    /// [`Refusal::BadWord`]: then it has stored nothing.
    pub fn store_words(&mut self, first: Slot, words: &[Word]) -> Result<(), Refusal> {
        let (numbers, handle) = (self.life.numbers, &mut self.life.handle);
        Word::store_row(&numbers, first, words, |slot, row| {
            done(unsafe { g1_heap_store_words(&mut *handle, slot, row.as_ptr(), row.len()) })?;
            Ok(row.len())
        })?;
        Ok(())
    }

    /// The collector stores data, a word from [`DATA`](super::DATA) on. Constant time, no memory.
    ///
    /// Refused with [`Refusal::OtherHeap`] or [`Refusal::BadWord`].
    pub fn store_data(&mut self, slot: Slot, word: u64) -> Result<(), Refusal> {
        self.life.numbers.has(slot.home)?;
        done(unsafe { g1_heap_store_data(&mut self.life.handle, slot.number, word) })
    }

    /// Copies what `count` slots have, references and data, from the slot `from` on to the slots
    /// from `to` on, as if all were read before any is written. A card becomes dirty as by
    /// [`Paused::store`]. Time in `count`, no memory.
    ///
    /// Refused with [`Refusal::OtherHeap`], or [`Refusal::NoSlot`] if either range ends behind the
    /// last slot.
    pub fn copy(&mut self, from: Slot, to: Slot, count: u32) -> Result<(), Refusal> {
        self.life.numbers.has(from.home)?;
        self.life.numbers.has(to.home)?;
        done(unsafe { g1_heap_copy(&mut self.life.handle, from.number, to.number, count) })
    }

    /// Empties the remembered set of a region, once no card is dirty and no slot outside the region
    /// refers into it. A slot counts even if its object is dead or its own region was freed: wipe
    /// that, or store null to it first. No memory.
    ///
    /// Refused with [`Refusal::OtherHeap`].
    pub fn clear(&mut self, region: Region) -> Result<Cleared, Refusal> {
        self.life.numbers.has(region.home)?;
        let mut detail = 0;
        let word = unsafe { g1_heap_clear(&mut self.life.handle, region.number, &mut detail) };
        Cleared::of(word, detail, self.life.numbers.home)
    }

    /// Frees the regions of a collection set, once no card is dirty and no slot outside them refers
    /// into one of them. Afterwards none of their slots refers into another region, none of their
    /// cards is in a remembered set, and their own sets are empty.
    ///
    /// Null is stored into each of their slots that refers into another region, then each region is
    /// forgotten as by [`Paused::forget`], and then its set is emptied as by [`Paused::clear`]. A
    /// slot that refers inside its region keeps its reference, and one with data its data: only
    /// [`Paused::wipe`] makes these null too.
    ///
    /// Time in the slots of the regions, and of each card that [`Paused::next_into`] would find for
    /// them, and as of a forget and a clear of each. No memory.
    ///
    /// Refused with [`Refusal::OtherHeap`].
    pub fn free(&mut self, set: &CollectionSet) -> Result<Cleared, Refusal> {
        self.life.numbers.has(set.home)?;
        let (mut detail, handle) = (0, &mut self.life.handle);
        let (given, length) = (set.numbers.as_ptr(), set.numbers.len());
        let word = unsafe { g1_heap_free(handle, given, length, &mut detail) };
        Cleared::of(word, detail, self.life.numbers.home)
    }

    /// Refines all that is dirty, moves each reference from outside the region `from` into it to
    /// the same offset of `to`, and empties the set of `from`. The card of each slot that changed
    /// outside `to` is recorded for `to`. Returns how many slots changed. No memory.
    ///
    /// It copies no slot: [`Paused::copy`] the region first, or store what the copies refer to.
    /// Slots inside `from` stay as they are, and so may keep a clear of another region refused.
    ///
    /// Refused with [`Refusal::OtherHeap`] or [`Refusal::SameRegion`].
    pub fn redirect(&mut self, from: Region, to: Region) -> Result<u32, Refusal> {
        self.life.numbers.has(from.home)?;
        self.life.numbers.has(to.home)?;
        let (mut moved, handle) = (0, &mut self.life.handle);
        done(unsafe { g1_heap_redirect(handle, from.number, to.number, &mut moved) })?;
        Ok(moved)
    }

    /// Stores null into each slot of a region that is freed, also where it has data. Cards that are
    /// dirty stay dirty. No memory.
    ///
    /// Refused with [`Refusal::OtherHeap`].
    pub fn wipe(&mut self, region: Region) -> Result<(), Refusal> {
        self.life.numbers.has(region.home)?;
        done(unsafe { g1_heap_wipe(&mut self.life.handle, region.number) })
    }

    /// Removes the cards of a region from the remembered sets of all regions, once no slot of the
    /// region refers out of it, as after [`Paused::wipe`]. Cards that are dirty stay dirty. No
    /// memory.
    ///
    /// Refused with [`Refusal::OtherHeap`] or [`Refusal::StillReferenced`].
    pub fn forget(&mut self, region: Region) -> Result<(), Refusal> {
        self.life.numbers.has(region.home)?;
        done(unsafe { g1_heap_forget(&mut self.life.handle, region.number) })
    }

    /// The least slot that refers to something else than a runtime's memory does, for a debug build:
    /// one whose store was not reported, most often. `memory` is what that has in as many slots from
    /// `first` on. A slot with data refers to nothing. Time in the slots, no memory.
    ///
    /// Refused with [`Refusal::OtherHeap`], or [`Refusal::NoSlot`] if the range ends behind the last
    /// slot.
    pub fn first_differing(
        &mut self,
        first: Slot,
        memory: &[Option<Slot>],
    ) -> Result<Option<Slot>, Refusal> {
        let handle = &mut self.life.handle;
        let check = |first, memory: &[u32], differing: &mut u32| {
            let (given, length, mut missing) = (memory.as_ptr(), memory.len(), NULL);
            unsafe { g1_heap_verify(handle, first, 0, given, length, differing, &mut missing) }
        };
        self.life.numbers.first_differing(first, memory, check)
    }

    /// The least of `count` slots from `first` on that refers into another region while its card is
    /// neither dirty nor recorded for that region, for a debug build: no drain would return it.
    /// There is none if only the library has written to the heap's words. Time in the slots, no memory.
    ///
    /// Refused with [`Refusal::OtherHeap`], or [`Refusal::NoSlot`] if the range ends behind the last
    /// slot.
    pub fn first_missing(&mut self, first: Slot, count: u32) -> Result<Option<Slot>, Refusal> {
        self.life.numbers.has(first.home)?;
        let (mut differing, mut missing) = (NULL, NULL);
        let (handle, memory) = (&mut self.life.handle, [0; 0]);
        let (first, given) = (first.number, memory.as_ptr());
        done(unsafe {
            g1_heap_verify(handle, first, count, given, 0, &mut differing, &mut missing)
        })?;
        Ok(self.life.numbers.reference(missing))
    }
}

/// The cards of a region's remembered set at a pause, ascending ([`Paused::members_iter`]).
pub struct Members<'a> {
    heap: &'a mut Paused,
    region: Region,
    from: u32,
}

impl fmt::Debug for Members<'_> {
    fn fmt(&self, f: &mut fmt::Formatter<'_>) -> fmt::Result {
        let mut shown = f.debug_struct("Members");
        shown
            .field("region", &self.region.number)
            .field("from", &self.from)
            .finish_non_exhaustive()
    }
}

impl Iterator for Members<'_> {
    type Item = Card;

    fn next(&mut self) -> Option<Card> {
        let found = self.heap.next_member(self.region, self.from);
        let card = found.expect("a question of a paused heap is not refused")?;
        self.from = card.number + 1;
        Some(card)
    }
}
