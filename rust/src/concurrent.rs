//! A concurrent heap: mutators store by racers and refinement threads refine by sweepers, each in a
//! thread of its own, with no lock, and at a pause the collector has the heap.
//!
//! A heap begins as [`Paused`]. [`Paused::resume`] hands out a [`Racer`] for each mutator thread
//! and a [`Sweeper`] for each refinement thread, and leaves it [`Racing`]. Each thread owns its own,
//! so it may keep it for as long as it likes, pass it to another thread, or return it when it ends.
//! [`Racing::pause`] takes all of them back and gives the paused heap. Neither copies anything or
//! takes memory, and a number of the heap stays good through all of them. Several threads read one
//! pause at once by [`Paused::read`]. A [`Refiner`] has refinement threads with their queue.
//!
//! The members of a region are the cards of its remembered set.
//!
//! A runtime may have its fields in the heap's words, and read them by [`Racer::word`]. If it keeps
//! its references in memory of its own, it orders the stores to one slot, around both its own store
//! and the call, or tells the library again until it was told what memory holds:
//! `g1.h` has the loop. You begin no pause while a thread is between a store of its own and the
//! call that reports it.
//!
//! A thread that leaves for a system call, or blocks, returns its racer or sweeper before, as a
//! pause takes all of them in. If there may be more mutators than [`RACERS`], several share one in a
//! `Mutex`.
//!
//! ```
//! use ninkoda::{concurrent::Paused, Counts};
//! use std::{error::Error, thread};
//!
//! fn main() -> Result<(), Box<dyn Error + Send + Sync>> {
//!     let counts = Counts { regions: 4, cards: 2, slots: 4 };
//!     let heap = Paused::open(counts, 2, 1)?;
//!     let (slot, place) = (heap.slot(0)?, heap.slot(8)?);
//!     let (heap, mut racers, sweepers) = heap.resume();
//!     let mut racer = racers.pop().ok_or("two racers")?;
//!     let mutator = thread::spawn(move || racer.store(slot, Some(place)).map(|_| racer));
//!     racers.push(mutator.join().expect("it does not panic")?);
//!     let mut heap = heap.pause(racers, sweepers)?;
//!     let region = heap.region(1)?;
//!     println!("{:?}", heap.drain(region)?);
//!     Ok(())
//! }
//! ```
mod parties;
mod paused;
mod readers;
mod refiner;

pub use crate::numbers::CollectionSet;
pub use parties::{StoreCounts, SweepCounts};
pub use paused::Members;
pub use readers::{Reader, Readers};
pub use refiner::{Handled, Queue, Queued, Refiner};

use crate::library::{
    g1_heap_close, g1_heap_pause, HeapHandle, RacerHandle, ReaderHandle, SweeperHandle, DONE,
};
use crate::numbers::{numbers_of, Numbers};
use crate::{Refusal, Refused, Slot, LOG};
use std::ptr::null_mut;
use std::sync::atomic::AtomicU64;

/// The most racers that a heap has.
pub const RACERS: usize = 64;

/// The most sweepers that a heap has.
pub const SWEEPERS: usize = 64;

/// The least word that is data.
pub const DATA: u64 = 1 << 32;

/// What a slot has.
#[derive(Clone, Copy, Debug, PartialEq, Eq)]
pub enum Word {
    /// Null.
    Null,
    /// A reference to a place.
    Reference(Slot),
    /// Data, a word from [`DATA`] on, which refers to nothing.
    Data(u64),
}

impl Word {
    fn of(word: u64, numbers: &Numbers) -> Word {
        match u32::try_from(word) {
            Ok(0) => Word::Null,
            Ok(word) => Word::Reference(Slot {
                number: word - 1,
                home: numbers.home,
            }),
            Err(_) => Word::Data(word),
        }
    }

    /// The number by which the library knows it.
    ///
    /// Refused with [`Refusal::OtherHeap`] or [`Refusal::BadWord`].
    fn number(self, numbers: &Numbers) -> Result<u64, Refusal> {
        match self {
            Word::Null => Ok(0),
            Word::Reference(slot) => numbers.has(slot.home).map(|()| u64::from(slot.number) + 1),
            Word::Data(word) if word < DATA => Err(Refusal::BadWord),
            Word::Data(word) => Ok(word),
        }
    }

    /// Has a row of words stored from a slot on, by blocks that lie on the stack, until one is not
    /// stored whole. Returns how many words were stored. Before the first block it looks at all.
    ///
    /// Refused with [`Refusal::OtherHeap`], [`Refusal::NoSlot`] or [`Refusal::BadWord`].
    fn store_row(
        numbers: &Numbers,
        first: Slot,
        words: &[Word],
        mut store: impl FnMut(u32, &[u64]) -> Result<usize, Refusal>,
    ) -> Result<usize, Refusal> {
        numbers.has_row(first, words.len())?;
        for word in words {
            word.number(numbers)?;
        }
        let mut stored = 0;
        for block in words.chunks(LOG) {
            let mut room = [0; LOG];
            for (number, word) in room.iter_mut().zip(block) {
                *number = word.number(numbers)?;
            }
            let made = store(first.number + stored as u32, &room[..block.len()])?;
            stored += made;
            if made < block.len() {
                break;
            }
        }
        Ok(stored)
    }
}

/// Where the words of the slots are, from when the heap is opened until it is closed.
#[derive(Clone, Copy)]
struct Words(*const AtomicU64);

// SAFETY: the words are atomic.
unsafe impl Send for Words {}
unsafe impl Sync for Words {}

/// A heap's handle, whether it races or not.
///
/// The library refuses to close it while it races, so that its memory stays then.
struct Life {
    handle: HeapHandle,
    numbers: Numbers,
    words: Words,
    racers: usize,
    sweepers: usize,
    // The readers of a pause, with room for all that it may have, so that a reading takes no memory.
    readers: Vec<Seat<ReaderHandle>>,
}

impl Drop for Life {
    fn drop(&mut self) {
        // SAFETY: the handle is closed, or one that the library wrote.
        unsafe { g1_heap_close(&mut self.handle) };
    }
}

/// The handle of a racer, sweeper or reader, on a cache line of its own, since its calls write it.
#[repr(align(64))]
struct Seat<Handle> {
    handle: Handle,
    numbers: Numbers,
    words: Words,
}

/// A concurrent heap at a pause, which the collector has.
pub struct Paused {
    life: Life,
    // Empty, with room for all of them, so that a resume takes no memory.
    racers: Vec<Racer>,
    sweepers: Vec<Sweeper>,
}

/// A concurrent heap that races.
///
/// A racer or a sweeper that is dropped never comes back, so its heap cannot be paused. The memory
/// of a heap that is dropped while it races is not freed.
pub struct Racing {
    life: Life,
}

/// A racer: a mutator stores by it, and it has a log of [`LOG`] cards.
pub struct Racer {
    seat: Seat<RacerHandle>,
}

/// A sweeper: a refinement thread refines by it.
pub struct Sweeper {
    seat: Seat<SweeperHandle>,
}

numbers_of!(Paused, life.numbers);
numbers_of!(Racing, life.numbers);
numbers_of!(Racer, seat.numbers);
numbers_of!(Sweeper, seat.numbers);

const NO_RACER: RacerHandle = RacerHandle { racer: null_mut() };
const NO_SWEEPER: SweeperHandle = SweeperHandle {
    sweeper: null_mut(),
};

/// These handles, and closed ones behind them.
fn row<Handle: Copy, const MOST: usize>(
    closed: Handle,
    handles: impl Iterator<Item = Handle>,
) -> [Handle; MOST] {
    let mut row = [closed; MOST];
    for (place, handle) in row.iter_mut().zip(handles) {
        *place = handle;
    }
    row
}

impl Life {
    fn seat<Handle: Copy>(&self, handle: &Handle) -> Seat<Handle> {
        Seat {
            handle: *handle,
            numbers: self.numbers,
            words: self.words,
        }
    }
}

impl Racing {
    /// Begins a pause, with all racers and sweepers of the heap in any order. Their logs stay with
    /// the heap. No memory.
    ///
    /// Refused with [`Refusal::OtherHeap`] or [`Refusal::StillOut`]: the heap races on, and the
    /// error has them all. By `?` it goes into a `Box<dyn Error + Send + Sync>` like any other.
    #[allow(clippy::type_complexity)]
    pub fn pause(
        mut self,
        mut racers: Vec<Racer>,
        mut sweepers: Vec<Sweeper>,
    ) -> Result<Paused, Refused<(Racing, Vec<Racer>, Vec<Sweeper>)>> {
        let paused = self.take_in(&racers, &sweepers);
        if let Err(refusal) = paused {
            let value = (self, racers, sweepers);
            return Err(Refused { value, refusal });
        }
        racers.clear();
        sweepers.clear();
        Ok(Paused {
            life: self.life,
            racers,
            sweepers,
        })
    }

    fn take_in(&mut self, racers: &[Racer], sweepers: &[Sweeper]) -> Result<(), Refusal> {
        let life = &mut self.life;
        let homes = racers.iter().map(|racer| racer.seat.numbers.home);
        for home in homes.chain(sweepers.iter().map(|sweeper| sweeper.seat.numbers.home)) {
            life.numbers.has(home)?;
        }
        if (racers.len(), sweepers.len()) != (life.racers, life.sweepers) {
            return Err(Refusal::StillOut);
        }
        let mut racing: [_; RACERS] = row(NO_RACER, racers.iter().map(|it| it.seat.handle));
        let mut sweeping: [_; SWEEPERS] = row(NO_SWEEPER, sweepers.iter().map(|it| it.seat.handle));
        let (some, few) = (racing.as_mut_ptr(), sweeping.as_mut_ptr());
        // SAFETY: the arrays have at least as many handles as the lengths say. They are all of this
        // heap, as no other call of a pause is given them.
        let word =
            unsafe { g1_heap_pause(&mut life.handle, some, racers.len(), few, sweepers.len()) };
        match word {
            DONE => Ok(()),
            word => Err(Refusal::of(word)),
        }
    }
}
