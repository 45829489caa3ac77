//! What a mutator does by a racer, and a refinement thread by a sweeper.
use super::{Racer, Sweeper, Word};
use crate::answers::done;
use crate::library::{
    g1_race_compare_exchange, g1_race_compare_exchange_word, g1_race_refine, g1_race_store,
    g1_race_store_all, g1_race_store_data, g1_race_store_words, g1_race_swap, g1_race_swap_word,
    g1_race_take_log, g1_racer_counts, g1_sweeper_counts, DIFFERS, DONE, FULL, NULL,
};
use crate::numbers::Home;
use crate::{Card, Exchanged, Kind, Refusal, Slot, LOG};
use std::sync::atomic::Ordering::Acquire;

// SAFETY of each call below: the handle is open, `&mut self` has no other call use it, and an array
// is one of the wrapper's, of the length that is passed.
impl Racer {
    /// Stores a reference, or null, and never waits. A card that is logged is last in the log.
    ///
    /// Refused with [`Refusal::LogFull`] (the target is in another region, and the log is full) or
    /// [`Refusal::OtherHeap`]. Constant time, no memory.
    pub fn store(&mut self, slot: Slot, target: Option<Slot>) -> Result<Kind, Refusal> {
        let ((word, target), mut kind) = (self.seat.numbers.words_of(slot, target)?, 0);
        done(unsafe { g1_race_store(&mut self.seat.handle, word, target, &mut kind) })?;
        Kind::of(kind, slot.card())
    }

    /// Stores as [`Racer::store`] does, and also returns what the slot referred to before, `None`
    /// for null or data, for a collector that marks from a snapshot. It is read and written in one
    /// atomic step.
    ///
    /// Refused as the store is. Constant time, no memory.
    pub fn swap(
        &mut self,
        slot: Slot,
        target: Option<Slot>,
    ) -> Result<(Kind, Option<Slot>), Refusal> {
        let ((word, target), mut kind) = (self.seat.numbers.words_of(slot, target)?, 0);
        let (handle, mut old) = (&mut self.seat.handle, NULL);
        done(unsafe { g1_race_swap(handle, word, target, &mut old, &mut kind) })?;
        let kind = Kind::of(kind, slot.card())?;
        Ok((kind, self.seat.numbers.reference(old)))
    }

    /// Stores as [`Racer::store`] does, if the slot refers to the place that is expected, or has
    /// the null that is. One atomic step compares and writes.
    ///
    /// Refused as the store is. Constant time, no memory.
    pub fn compare_exchange(
        &mut self,
        slot: Slot,
        expected: Option<Slot>,
        target: Option<Slot>,
    ) -> Result<Exchanged, Refusal> {
        let (_, expected) = self.seat.numbers.words_of(slot, expected)?;
        let ((word, target), mut kind) = (self.seat.numbers.words_of(slot, target)?, 0);
        let (handle, mut found) = (&mut self.seat.handle, NULL);
        match unsafe {
            g1_race_compare_exchange(handle, word, expected, target, &mut found, &mut kind)
        } {
            DONE => Kind::of(kind, slot.card()).map(Exchanged::Stored),
            DIFFERS => Ok(Exchanged::Differs(self.seat.numbers.reference(found))),
            word => Err(Refusal::of(word)),
        }
    }

    /// Makes stores in order, each as [`Racer::store`] does, and returns how many it made. Those
    /// are all, or the ones before the log was full: take it, and go on from there. It takes no
    /// memory.
    ///
    /// Refused with [`Refusal::OtherHeap`] if any slot or target is another heap's.
    pub fn store_all(&mut self, stores: &[(Slot, Option<Slot>)]) -> Result<usize, Refusal> {
        let mut made = 0;
        for block in self.seat.numbers.blocks(stores)? {
            let (some, mut stored) = (block.stores(), 0);
            let (handle, given) = (&mut self.seat.handle, some.as_ptr());
            let word = unsafe { g1_race_store_all(handle, given, some.len(), &mut stored) };
            made += stored;
            match word {
                DONE => {}
                FULL => break,
                word => return Err(Refusal::of(word)),
            }
        }
        Ok(made)
    }

    /// Stores a row of words, in order, into as many slots from the first on, each as
    /// [`Racer::swap_word`] does. Returns how many it stored: all, or those before one that refers
    /// into another region while the log is full. Take the log, and go on with that one. It takes no
    /// memory.
    ///
    /// Refused with [`Refusal::OtherHeap`], [`Refusal::NoSlot`] if the row leaves the heap, or
    /// [`Refusal::BadWord`]: then it has stored nothing.
    pub fn store_words(&mut self, first: Slot, words: &[Word]) -> Result<usize, Refusal> {
        let (numbers, handle) = (self.seat.numbers, &mut self.seat.handle);
        Word::store_row(&numbers, first, words, |slot, row| {
            let mut stored = 0;
            let word = unsafe {
                g1_race_store_words(&mut *handle, slot, row.as_ptr(), row.len(), &mut stored)
            };
            match word {
                DONE | FULL => Ok(stored),
                word => Err(Refusal::of(word)),
            }
        })
    }

    /// Stores data, a word from [`DATA`](super::DATA) on, and returns what the slot had. It logs nothing, and
    /// never waits.
    ///
    /// Refused with [`Refusal::OtherHeap`] or [`Refusal::BadWord`]. Constant time, no memory.
    pub fn store_data(&mut self, slot: Slot, word: u64) -> Result<Word, Refusal> {
        self.seat.numbers.has(slot.home)?;
        let mut old = 0;
        done(unsafe { g1_race_store_data(&mut self.seat.handle, slot.number, word, &mut old) })?;
        Ok(Word::of(old, &self.seat.numbers))
    }

    /// Stores what a slot is to have, null, a reference or data, and returns what it had before. It
    /// is read and written in one atomic step. Data is stored as null is: it marks and logs nothing.
    ///
    /// Refused as a store is, or with [`Refusal::BadWord`] for data that is less than
    /// [`DATA`](super::DATA). Constant time, no memory.
    pub fn swap_word(&mut self, slot: Slot, word: Word) -> Result<(Kind, Word), Refusal> {
        let numbers = self.seat.numbers;
        numbers.has(slot.home)?;
        let (word, handle) = (word.number(&numbers)?, &mut self.seat.handle);
        let (mut old, mut kind) = (0, 0);
        done(unsafe { g1_race_swap_word(handle, slot.number, word, &mut old, &mut kind) })?;
        Ok((Kind::of(kind, slot.card())?, Word::of(old, &numbers)))
    }

    /// Stores as [`Racer::swap_word`] does, if the slot has what is expected: null, a reference or
    /// data, as for an atomic counter. One atomic step compares and writes.
    ///
    /// Refused as [`Racer::swap_word`] is, for either word. Constant time, no memory.
    pub fn compare_exchange_word(
        &mut self,
        slot: Slot,
        expected: Word,
        word: Word,
    ) -> Result<Exchanged<Word>, Refusal> {
        let numbers = self.seat.numbers;
        numbers.has(slot.home)?;
        let (expected, word) = (expected.number(&numbers)?, word.number(&numbers)?);
        let (number, handle) = (slot.number, &mut self.seat.handle);
        let (mut found, mut kind) = (0, 0);
        match unsafe {
            g1_race_compare_exchange_word(handle, number, expected, word, &mut found, &mut kind)
        } {
            DONE => Kind::of(kind, slot.card()).map(Exchanged::Stored),
            DIFFERS => Ok(Exchanged::Differs(Word::of(found, &numbers))),
            word => Err(Refusal::of(word)),
        }
    }

    /// What a slot has: one load, with the order acquire, so that what another thread wrote before
    /// it stored a reference is found behind it.
    ///
    /// Refused with [`Refusal::OtherHeap`].
    pub fn word(&self, slot: Slot) -> Result<Word, Refusal> {
        self.seat.numbers.has(slot.home)?;
        // SAFETY: the words are as many as the heap has slots, are written by atomic steps alone
        // while this racer is open, and stay until the heap is closed, which is after that.
        let word = unsafe { &*self.seat.words.0.add(slot.number as usize) };
        Ok(Word::of(word.load(Acquire), &self.seat.numbers))
    }

    /// The cards of the log, oldest first; the log is empty then. They stay dirty until a sweeper
    /// refines them, or the next pause. Allocates the list.
    pub fn take_log(&mut self) -> Result<Vec<Card>, Refusal> {
        let mut cards = [0; LOG];
        let count = self.take_cards(&mut cards)?;
        Ok(self.seat.numbers.cards_of(&cards, count))
    }

    /// How many stores it has made since its heap was opened, by kind. A resume hands out the racers
    /// with their counts in the order in which the pause took them. Constant time, no memory.
    pub fn store_counts(&mut self) -> Result<StoreCounts, Refusal> {
        let (mut counts, handle) = (StoreCounts::default(), &mut self.seat.handle);
        // SAFETY: the handle is open, and this call alone uses it.
        done(unsafe {
            g1_racer_counts(
                handle,
                &mut counts.null,
                &mut counts.same_region,
                &mut counts.already_dirty,
                &mut counts.logged,
            )
        })?;
        Ok(counts)
    }

    /// Its heap.
    pub(super) fn home(&self) -> Home {
        self.seat.numbers.home
    }

    /// The same into an array. Returns how many cards there are.
    pub(super) fn take_cards(&mut self, cards: &mut [u32; LOG]) -> Result<u32, Refusal> {
        let mut count = 0;
        let room = cards.as_mut_ptr();
        done(unsafe { g1_race_take_log(&mut self.seat.handle, room, LOG, &mut count) })?;
        Ok(count)
    }
}

/// How many stores a racer has made since its heap was opened, by kind, whatever pauses came
/// between. After [`u64::MAX`] a count goes on at 0.
#[derive(Clone, Copy, Debug, Default, PartialEq, Eq)]
pub struct StoreCounts {
    /// Stores of null or of data.
    pub null: u64,
    /// Stores of a place in the slot's own region.
    pub same_region: u64,
    /// Stores on a card that was dirty.
    pub already_dirty: u64,
    /// Stores that made their card dirty, and logged it.
    pub logged: u64,
}

/// What a sweeper has done since its heap was opened, whatever pauses came between. After
/// [`u64::MAX`] a count goes on at 0.
#[derive(Clone, Copy, Debug, Default, PartialEq, Eq)]
pub struct SweepCounts {
    /// Cards that it refined.
    pub refined: u64,
    /// Those of them that were dirty.
    pub cleaned: u64,
    /// References into another region that it read on them, each of which is recorded.
    pub references: u64,
}

impl Sweeper {
    /// Its heap.
    pub(super) fn home(&self) -> Home {
        self.seat.numbers.home
    }

    /// Cleans a card, and then records which regions its slots refer into, and never waits.
    ///
    /// Refused with [`Refusal::OtherHeap`]. Time in the slots of a card, no memory.
    pub fn refine(&mut self, card: Card) -> Result<(), Refusal> {
        self.seat.numbers.has(card.home)?;
        // SAFETY: the handle is open, and this call alone uses it.
        done(unsafe { g1_race_refine(&mut self.seat.handle, card.number) })
    }

    /// What it has done since its heap was opened. A resume hands out the sweepers with their
    /// counts in the order in which the pause took them. Constant time, no memory.
    pub fn sweep_counts(&mut self) -> Result<SweepCounts, Refusal> {
        let (mut counts, handle) = (SweepCounts::default(), &mut self.seat.handle);
        // SAFETY: the handle is open, and this call alone uses it.
        done(unsafe {
            g1_sweeper_counts(
                handle,
                &mut counts.refined,
                &mut counts.cleaned,
                &mut counts.references,
            )
        })?;
        Ok(counts)
    }
}
