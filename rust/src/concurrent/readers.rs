//! What several threads read at one pause.
use super::{row, Life, Paused, Seat, Word, RACERS, SWEEPERS};
use crate::answers::done;
use crate::library::{
    g1_heap_read, g1_heap_read_end, g1_reader_has, g1_reader_is_pending, g1_reader_next_member,
    g1_reader_target, g1_reader_word, ReaderHandle, DONE, NULL,
};
use crate::numbers::numbers_of;
use crate::{Card, Refusal, Region, Slot};
use std::ptr::null_mut;

const NO_READER: ReaderHandle = ReaderHandle { reader: null_mut() };

/// The readers of a pause ([`Paused::read`]). The reading ends when they are dropped.
///
/// If they are leaked, the heap is read for ever, and can neither go on nor be freed.
pub struct Readers<'a> {
    life: &'a mut Life,
}

/// A reader: a thread reads a pause by it, while others read it by theirs. It answers what the
/// pause has.
pub struct Reader<'a> {
    seat: &'a mut Seat<ReaderHandle>,
}

numbers_of!(Readers<'_>, life.numbers);
numbers_of!(Reader<'_>, seat.numbers);

impl Paused {
    /// Lets `count` threads read the pause at once, each by a reader of its own. No memory.
    ///
    /// Refused with [`Refusal::BadHandles`] for more readers than the heap has racers and sweepers.
    ///
    /// ```
    /// # use ninkoda::{concurrent::Paused, Counts};
    /// # use std::thread;
    /// # let mut heap = Paused::open(Counts { regions: 4, cards: 2, slots: 4 }, 2, 1)?;
    /// let slot = heap.slot(0)?;
    /// let mut readers = heap.read(2)?;
    /// thread::scope(|threads| {
    ///     for mut reader in readers.each() {
    ///         threads.spawn(move || assert_eq!(reader.target(slot), Ok(None)));
    ///     }
    /// });
    /// # Ok::<(), ninkoda::Refusal>(())
    /// ```
    pub fn read(&mut self, count: usize) -> Result<Readers<'_>, Refusal> {
        let life = &mut self.life;
        if count > life.racers + life.sweepers {
            return Err(Refusal::BadHandles);
        }
        let mut reading = [NO_READER; RACERS + SWEEPERS];
        let some = reading.as_mut_ptr();
        // SAFETY: the array has at least as many closed handles as the length says, and `&mut self`
        // has no other call use the heap.
        done(unsafe { g1_heap_read(&mut life.handle, some, count) })?;
        for handle in reading.iter().take(count) {
            let seat = life.seat(handle);
            life.readers.push(seat);
        }
        Ok(Readers { life })
    }
}

impl Readers<'_> {
    /// The readers, each for a thread.
    pub fn each(&mut self) -> impl Iterator<Item = Reader<'_>> {
        self.life.readers.iter_mut().map(|seat| Reader { seat })
    }
}

impl Drop for Readers<'_> {
    fn drop(&mut self) {
        let life = &mut *self.life;
        let handles = life.readers.iter().map(|seat| seat.handle);
        let mut reading: [_; RACERS + SWEEPERS] = row(NO_READER, handles);
        // SAFETY: these are all readers of the heap, and no thread has one of them any more.
        let word =
            unsafe { g1_heap_read_end(&mut life.handle, reading.as_mut_ptr(), life.readers.len()) };
        debug_assert_eq!(word, DONE, "the end of a reading is not refused");
        life.readers.clear();
    }
}

// SAFETY of each call below: the handle is open, and `&mut self` has no other call use it.
impl Reader<'_> {
    /// What a slot refers to: nothing if it has data. Constant time, no memory.
    ///
    /// Refused with [`Refusal::OtherHeap`].
    pub fn target(&mut self, slot: Slot) -> Result<Option<Slot>, Refusal> {
        self.seat.numbers.has(slot.home)?;
        let mut target = NULL;
        done(unsafe { g1_reader_target(&mut self.seat.handle, slot.number, &mut target) })?;
        Ok(self.seat.numbers.reference(target))
    }

    /// What a slot has. Constant time, no memory.
    ///
    /// Refused with [`Refusal::OtherHeap`].
    pub fn word(&mut self, slot: Slot) -> Result<Word, Refusal> {
        self.seat.numbers.has(slot.home)?;
        let mut word = 0;
        done(unsafe { g1_reader_word(&mut self.seat.handle, slot.number, &mut word) })?;
        Ok(Word::of(word, &self.seat.numbers))
    }

    /// Whether a card is dirty. Constant time, no memory.
    ///
    /// Refused with [`Refusal::OtherHeap`].
    pub fn is_pending(&mut self, card: Card) -> Result<bool, Refusal> {
        self.seat.numbers.has(card.home)?;
        let mut pending = 0;
        done(unsafe { g1_reader_is_pending(&mut self.seat.handle, card.number, &mut pending) })?;
        Ok(pending == 1)
    }

    /// Whether a card is recorded for a region. Constant time, no memory.
    ///
    /// Refused with [`Refusal::OtherHeap`].
    pub fn has(&mut self, card: Card, region: Region) -> Result<bool, Refusal> {
        self.seat.numbers.has(card.home)?;
        self.seat.numbers.has(region.home)?;
        let (handle, mut has) = (&mut self.seat.handle, 0);
        done(unsafe { g1_reader_has(handle, card.number, region.number, &mut has) })?;
        Ok(has == 1)
    }

    /// The remembered set of a region as it is recorded, ascending, as
    /// [`Paused::members_iter`] has it. No memory.
    ///
    /// Refused with [`Refusal::OtherHeap`].
    pub fn members(&mut self, region: Region) -> Result<impl Iterator<Item = Card> + '_, Refusal> {
        let home = self.seat.numbers.home;
        self.seat.numbers.has(region.home)?;
        let (handle, mut from) = (&mut self.seat.handle, 0);
        Ok(std::iter::from_fn(move || {
            let mut number = NULL;
            let word = unsafe { g1_reader_next_member(handle, region.number, from, &mut number) };
            assert_eq!(word, DONE, "a question of a reader is not refused");
            if number == NULL {
                return None;
            }
            from = number + 1;
            Some(Card { number, home })
        }))
    }
}
