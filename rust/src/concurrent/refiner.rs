//! Refinement threads with their queue.
use super::{Racer, Sweeper, Word, SWEEPERS};
use crate::numbers::Home;
use crate::{Card, Exchanged, Kind, Refusal, Refused, Slot, LOG};
use std::collections::VecDeque;
use std::fmt;
use std::io::{Error, ErrorKind};
use std::mem::take;
use std::sync::{Arc, Condvar, Mutex, MutexGuard, PoisonError};
use std::thread::{Builder, JoinHandle};

/// The queue of a refiner: lengths in logs. Its default is to begin with: 512, 256 and 64.
///
/// A card that waits stays dirty, so further stores on it are filtered, and it is refined once for
/// all of them. But what waits is left for the pause. With a `start` of 1 and a `stop` of 0 each log
/// is refined at once.
#[derive(Clone, Copy, Debug, PartialEq, Eq)]
pub struct Queue {
    /// How many logs it has room for: 1 or more.
    pub room: usize,
    /// The length at which refinement begins: 1 to the room.
    pub start: usize,
    /// The length at which it ends again: less than the start.
    pub stop: usize,
}

impl Default for Queue {
    fn default() -> Queue {
        Queue {
            room: 512,
            start: 256,
            stop: 64,
        }
    }
}

/// What a pause does with the logs that are queued.
#[derive(Clone, Copy, Debug, PartialEq, Eq)]
pub enum Queued {
    /// The threads refine them first: a longer stop, and less for the drain.
    Refine,
    /// They are dropped: the drain refines those of their cards that are dirty.
    Drop,
}

/// What a refiner did since it was opened, and what waits for it.
#[derive(Clone, Copy, Debug, Default, PartialEq, Eq)]
pub struct Handled {
    /// Logs that were put into the queue.
    pub queued: u64,
    /// Logs that were dropped: for want of room, or queued ones at a pause.
    pub dropped: u64,
    /// Cards that were refined.
    pub refined: u64,
    /// Logs that are in the queue now.
    pub length: usize,
    /// The most logs that were in the queue at once.
    pub longest: usize,
}

/// Refinement threads for a concurrent heap, with a bounded queue of logs.
///
/// It has one thread for each sweeper of a heap. Mutators hand on their full logs, as
/// [`Refiner::store`] does for them. The threads sleep until as many logs wait as the [`Queue`]
/// says, and then refine their cards until few are left. It goes round with the heap:
///
/// 1. [`Refiner::resume`] takes over the sweepers that [`Paused::resume`](super::Paused::resume)
///    gave out.
/// 2. For a pause you stop the mutators, and take their racers back.
/// 3. [`Refiner::pause`] gives the sweepers back, for [`Racing::pause`](super::Racing::pause).
///
/// Mutators share it, by `&Refiner` or in an `Arc`. Its calls take no memory, and wait for its lock
/// alone, which no thread has for longer than it takes to copy a log; only a pause waits for more.
/// Its drop ends the threads. Pause it before: a sweeper that is dropped never comes back.
pub struct Refiner {
    shared: Arc<Shared>,
    threads: Vec<JoinHandle<()>>,
}

struct Shared {
    state: Mutex<State>,
    /// For a log, a resume, a pause and the end.
    work: Condvar,
    /// Once the last thread has given its sweeper back.
    stopped: Condvar,
}

/// What the lock has.
struct State {
    logs: VecDeque<Log>,
    queue: Queue,
    /// `start` logs were queued, and more than `stop` still are.
    is_refining: bool,
    /// Those that no thread has.
    sweepers: Vec<Sweeper>,
    /// How many sweepers a thread is still to take since the resume.
    to_take: usize,
    /// How many threads have not given a sweeper back since the resume.
    running: usize,
    /// The heap that the sweepers are of, unless it is paused.
    home: Option<Home>,
    is_paused: bool,
    is_ending: bool,
    handled: Handled,
}

/// A log: the first cards of the array, by their numbers.
struct Log {
    cards: [u32; LOG],
    count: u32,
}

impl Refiner {
    /// A refiner that is paused, with a thread for each of this many sweepers (1 to [`SWEEPERS`]).
    /// Takes a kilobyte for each log that the queue has room for.
    ///
    /// Refused with an error of the kind `InvalidInput` for a number outside its limits, which its
    /// text names, or the one by which a thread was refused.
    pub fn open(queue: Queue, sweepers: usize) -> Result<Refiner, Error> {
        if sweepers == 0 || sweepers > SWEEPERS {
            let said = "a refiner has 1 to 64 sweepers";
            return Err(Error::new(ErrorKind::InvalidInput, said));
        }
        if queue.start == 0 || queue.start > queue.room || queue.stop >= queue.start {
            let said = "a queue starts at 1 log to its room, and stops below that";
            return Err(Error::new(ErrorKind::InvalidInput, said));
        }
        let mut refiner = Refiner {
            shared: Arc::new(Shared::new(queue)),
            threads: Vec::with_capacity(sweepers),
        };
        for _ in 0..sweepers {
            let shared = Arc::clone(&refiner.shared);
            let thread = Builder::new().name("refinement".into());
            refiner.threads.push(thread.spawn(move || shared.run())?);
        }
        Ok(refiner)
    }

    /// Lets refinement begin, with all sweepers of a heap, one for each thread.
    ///
    /// Refused with [`Refusal::StillOut`] if they are not as many, or if it is not paused, and
    /// with [`Refusal::OtherHeap`] if they are not of one heap.
    pub fn resume(&self, sweepers: Vec<Sweeper>) -> Result<(), Refused<Vec<Sweeper>>> {
        let mut state = self.shared.lock();
        let home = sweepers.first().map(Sweeper::home);
        let refusal = if !state.is_idle() || sweepers.len() != self.threads.len() {
            Refusal::StillOut
        } else if sweepers.iter().any(|it| Some(it.home()) != home) {
            Refusal::OtherHeap
        } else {
            state.begin(sweepers, home);
            self.shared.work.notify_all();
            return Ok(());
        };
        let value = sweepers;
        Err(Refused { value, refusal })
    }

    /// Ends refinement: waits until each thread has given its sweeper back, and returns them all.
    /// Each thread first ends the log that it has begun. The queue is empty afterwards. If the
    /// refiner is paused already, there is none to return.
    ///
    /// From the beginning of the call until the resume, logs that are handed on are dropped, so it
    /// waits for no mutator. Stop the mutators before it for more to be refined.
    pub fn pause(&self, queued: Queued) -> Vec<Sweeper> {
        let mut state = self.shared.lock();
        state.is_paused = true;
        state.home = None;
        if queued == Queued::Drop {
            state.handled.dropped += state.logs.len() as u64;
            state.logs.clear();
        }
        self.shared.work.notify_all();
        while state.running > 0 {
            state = wait(&self.shared.stopped, state);
        }
        state.is_refining = false;
        take(&mut state.sweepers)
    }

    /// Takes a racer's log, full or not, and puts it into the queue. A mutator calls this before it
    /// ends or blocks, and from time to time if its log seldom fills.
    ///
    /// If the queue is full or the refiner is paused, the log is dropped. Each of its cards stays
    /// dirty until it is refined, by the first drain at the pause at the latest. If pauses are too
    /// long and many logs are dropped, lengthen the queue; if it stays long, add sweepers.
    ///
    /// Refused with [`Refusal::OtherHeap`] if the racer is not of the heap that is refined.
    pub fn hand_on(&self, racer: &mut Racer) -> Result<(), Refusal> {
        let mut log = Log {
            cards: [0; LOG],
            count: 0,
        };
        let mut state = self.shared.lock();
        if state.home.is_some_and(|home| home != racer.home()) {
            return Err(Refusal::OtherHeap);
        }
        log.count = racer.take_cards(&mut log.cards)?;
        if log.count == 0 {
            return Ok(());
        }
        if state.is_paused || state.logs.len() == state.queue.room {
            state.handled.dropped += 1;
        } else {
            state.logs.push_back(log);
            state.handled.queued += 1;
            state.handled.longest = state.handled.longest.max(state.logs.len());
            self.shared.wake(&mut state);
        }
        Ok(())
    }

    /// Makes a store, and if the log is full, first hands it on.
    fn with_room<Stored>(
        &self,
        racer: &mut Racer,
        mut store: impl FnMut(&mut Racer) -> Result<Stored, Refusal>,
    ) -> Result<Stored, Refusal> {
        match store(racer) {
            Err(Refusal::LogFull) => {
                self.hand_on(racer)?;
                store(racer)
            }
            stored => stored,
        }
    }

    /// A mutator's store: [`Racer::store`], and if the log is full, first [`Refiner::hand_on`].
    ///
    /// Refused with [`Refusal::OtherHeap`].
    pub fn store(
        &self,
        racer: &mut Racer,
        slot: Slot,
        target: Option<Slot>,
    ) -> Result<Kind, Refusal> {
        self.with_room(racer, |racer| racer.store(slot, target))
    }

    /// The same of [`Racer::swap`].
    pub fn swap(
        &self,
        racer: &mut Racer,
        slot: Slot,
        target: Option<Slot>,
    ) -> Result<(Kind, Option<Slot>), Refusal> {
        self.with_room(racer, |racer| racer.swap(slot, target))
    }

    /// The same of [`Racer::compare_exchange`].
    pub fn compare_exchange(
        &self,
        racer: &mut Racer,
        slot: Slot,
        expected: Option<Slot>,
        target: Option<Slot>,
    ) -> Result<Exchanged, Refusal> {
        self.with_room(racer, |racer| {
            racer.compare_exchange(slot, expected, target)
        })
    }

    /// The same of [`Racer::swap_word`]. It may be refused with [`Refusal::BadWord`] too.
    pub fn swap_word(
        &self,
        racer: &mut Racer,
        slot: Slot,
        word: Word,
    ) -> Result<(Kind, Word), Refusal> {
        self.with_room(racer, |racer| racer.swap_word(slot, word))
    }

    /// The same of [`Racer::compare_exchange_word`]. It may be refused with [`Refusal::BadWord`]
    /// too.
    pub fn compare_exchange_word(
        &self,
        racer: &mut Racer,
        slot: Slot,
        expected: Word,
        word: Word,
    ) -> Result<Exchanged<Word>, Refusal> {
        self.with_room(racer, |racer| {
            racer.compare_exchange_word(slot, expected, word)
        })
    }

    /// Makes all of these stores in order, by [`Racer::store_all`] and [`Refiner::hand_on`].
    ///
    /// Refused with [`Refusal::OtherHeap`] if any slot or target, or the racer, is another heap's.
    pub fn store_all(
        &self,
        racer: &mut Racer,
        stores: &[(Slot, Option<Slot>)],
    ) -> Result<(), Refusal> {
        let mut made = racer.store_all(stores)?;
        while made < stores.len() {
            self.hand_on(racer)?;
            made += racer.store_all(&stores[made..])?;
        }
        Ok(())
    }

    /// Stores all words of this row, by [`Racer::store_words`] and [`Refiner::hand_on`].
    ///
    /// Refused as [`Racer::store_words`] is, or with [`Refusal::OtherHeap`] for the racer.
    pub fn store_words(
        &self,
        racer: &mut Racer,
        first: Slot,
        words: &[Word],
    ) -> Result<(), Refusal> {
        let mut stored = racer.store_words(first, words)?;
        while stored < words.len() {
            self.hand_on(racer)?;
            let next = racer.slot(first.number() + stored as u32)?;
            stored += racer.store_words(next, &words[stored..])?;
        }
        Ok(())
    }

    /// What it did since it was opened, and what waits for it now.
    pub fn handled(&self) -> Handled {
        let state = self.shared.lock();
        Handled {
            length: state.logs.len(),
            ..state.handled
        }
    }
}

impl Drop for Refiner {
    fn drop(&mut self) {
        self.shared.lock().is_ending = true;
        self.shared.work.notify_all();
        for thread in self.threads.drain(..) {
            // (a thread that has panicked has said so)
            let _ = thread.join();
        }
    }
}

impl fmt::Debug for Refiner {
    fn fmt(&self, f: &mut fmt::Formatter<'_>) -> fmt::Result {
        let mut shown = f.debug_struct("Refiner");
        shown
            .field("handled", &self.handled())
            .finish_non_exhaustive()
    }
}

fn wait<'a>(condition: &Condvar, state: MutexGuard<'a, State>) -> MutexGuard<'a, State> {
    let woken = condition.wait(state);
    woken.unwrap_or_else(PoisonError::into_inner)
}

impl State {
    /// Whether no thread has a sweeper, and none is to be given back.
    fn is_idle(&self) -> bool {
        self.is_paused && self.running == 0 && self.sweepers.is_empty()
    }

    fn begin(&mut self, sweepers: Vec<Sweeper>, home: Option<Home>) {
        self.to_take = sweepers.len();
        self.running = sweepers.len();
        self.sweepers = sweepers;
        self.home = home;
        self.is_paused = false;
    }

    /// A sweeper that a thread is to take.
    fn next_sweeper(&mut self) -> Option<Sweeper> {
        self.to_take = self.to_take.checked_sub(1)?;
        self.sweepers.pop()
    }
}

impl Shared {
    fn new(queue: Queue) -> Shared {
        let state = State {
            logs: VecDeque::with_capacity(queue.room),
            queue,
            is_refining: false,
            sweepers: Vec::new(),
            to_take: 0,
            running: 0,
            home: None,
            is_paused: true,
            is_ending: false,
            handled: Handled::default(),
        };
        Shared {
            state: Mutex::new(state),
            work: Condvar::new(),
            stopped: Condvar::new(),
        }
    }

    fn lock(&self) -> MutexGuard<'_, State> {
        self.state.lock().unwrap_or_else(PoisonError::into_inner)
    }

    /// Lets refinement begin, if enough logs are queued: one log needs one thread, and several that
    /// have waited are for all.
    fn wake(&self, state: &mut State) {
        let is_one = state.is_refining || state.queue.start == state.queue.stop + 1;
        state.is_refining |= state.logs.len() >= state.queue.start;
        if state.is_refining && is_one {
            self.work.notify_one();
        } else if state.is_refining {
            self.work.notify_all();
        }
    }

    /// What a refinement thread runs.
    fn run(&self) {
        let mut state = self.lock();
        while !state.is_ending {
            let Some(mut sweeper) = state.next_sweeper() else {
                state = wait(&self.work, state);
                continue;
            };
            state = self.refine(state, &mut sweeper);
            // (the list has room: the sweeper was in it)
            state.sweepers.push(sweeper);
            state.running -= 1;
            if state.running == 0 {
                self.stopped.notify_all();
            }
        }
    }

    /// Refines logs until the thread is to stop. It has the lock, but not while it refines.
    fn refine<'a>(
        &'a self,
        mut state: MutexGuard<'a, State>,
        sweeper: &mut Sweeper,
    ) -> MutexGuard<'a, State> {
        while !state.is_ending {
            if !state.is_refining && !state.is_paused {
                state = wait(&self.work, state);
                continue;
            }
            let Some(log) = state.logs.pop_front() else {
                break;
            };
            state.is_refining &= state.logs.len() > state.queue.stop;
            drop(state);
            let refined = log.refine_by(sweeper);
            state = self.lock();
            state.handled.refined += refined;
        }
        state
    }
}

impl Log {
    /// Refines its cards, and returns how many these are. They are of the sweeper's heap, so none
    /// is refused.
    fn refine_by(&self, sweeper: &mut Sweeper) -> u64 {
        let home = sweeper.home();
        let numbers = self.cards.iter().take(self.count as usize);
        let cards = numbers.map(|&number| Card { number, home });
        let refined = cards.map_while(|card| sweeper.refine(card).ok());
        refined.count() as u64
    }
}
