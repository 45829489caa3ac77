//! A small runtime over the crate, with an evacuation at each pause: `runtime [PAUSES]`.
//!
//! Mutators change trees of objects beside refinement threads. The fields of objects are the heap's
//! words. The heap is a ring of regions: new objects fill one after the other, and a pause
//! evacuates the oldest. References into these are roots, or on drained cards: a scan of all fields
//! checks that, and a full trace the evacuation.
use ninkoda::concurrent::{Paused, Queue, Queued, Racer, Racing, Refiner, Word};
use ninkoda::{Cleared, Counts, Refusal, Slot};
use std::error::Error;
use std::sync::atomic::{AtomicU32, Ordering::SeqCst};
use std::sync::mpsc::{channel, Receiver, Sender};
use std::thread::{scope, Scope};

type Result<T, E = Box<dyn Error + Send + Sync>> = std::result::Result<T, E>;

const COUNTS: Counts = Counts {
    regions: 64,
    cards: 32,
    slots: 16,
};
const REGION: u32 = COUNTS.cards * COUNTS.slots;
const SLOTS: u32 = COUNTS.regions * REGION;
const MUTATORS: usize = 8;
const SWEEPERS: usize = 2;
/// Logs that may wait for a refinement thread.
const QUEUE: Queue = Queue {
    room: 16,
    start: 1,
    stop: 0,
};
/// Fields of an object.
const FIELDS: u32 = 2;
/// The height of a mutator's tree.
const HEIGHT: u32 = 9;
/// The heights of trees that are replaced there.
const CHANGE: u32 = 4;
/// Regions that a pause evacuates.
const SET: u32 = 8;
/// Regions in use when a pause is due. It may fill `SET` more, and before it each mutator one.
const DUE: u32 = COUNTS.regions - SET - MUTATORS as u32;
/// Null, in a field.
const NULL: u32 = u32::MAX;
/// Marks a header that has the address of the object's copy.
const FORWARDED: u32 = 1 << 31;

/// What all threads share. An object's address is the number of its first field, and [`NULL`] is
/// none. A header has the object's value.
struct Runtime {
    headers: Vec<AtomicU32>,
    /// The mutators' trees.
    roots: [AtomicU32; MUTATORS],
    /// Regions that were taken since the start.
    taken: AtomicU32,
    /// Regions of these that pauses freed.
    freed: AtomicU32,
    refiner: Refiner,
}

impl Runtime {
    fn new() -> Result<Runtime> {
        Ok(Runtime {
            headers: (0..SLOTS / FIELDS).map(|_| AtomicU32::new(0)).collect(),
            roots: Default::default(),
            taken: AtomicU32::new(0),
            freed: AtomicU32::new(0),
            refiner: Refiner::open(QUEUE, SWEEPERS)?,
        })
    }

    fn header(&self, object: u32) -> &AtomicU32 {
        &self.headers[(object / FIELDS) as usize]
    }

    /// A new object at the top of a region. Its fields are null.
    fn allocate(&self, top: &mut u32, header: u32) -> u32 {
        if *top % REGION == 0 {
            *top = self.taken.fetch_add(1, SeqCst) % COUNTS.regions * REGION;
        }
        let object = *top;
        *top += FIELDS;
        self.header(object).store(header, SeqCst);
        object
    }

    /// The numbers of the regions of the collection set, which are the oldest.
    fn set(&self) -> impl Iterator<Item = u32> {
        let freed = self.freed.load(SeqCst);
        (freed..freed + SET).map(|region| region % COUNTS.regions)
    }

    /// The bit of a place in the collection set, and 0 of any other.
    fn bit_of(&self, place: u32) -> u32 {
        let age = (place / REGION).wrapping_sub(self.freed.load(SeqCst)) % COUNTS.regions;
        if place == NULL || age >= SET {
            0
        } else {
            1 << age
        }
    }
}

/// The read barrier: what a field refers to, which another mutator may store to at once.
fn field(racer: &Racer, slot: u32) -> u32 {
    let slot = racer.slot(slot).expect("a slot of the heap");
    match racer.word(slot) {
        Ok(Word::Reference(place)) => place.number(),
        _ => NULL,
    }
}

/// Numbers that look random.
struct Numbers(u64);

impl Numbers {
    fn below(&mut self, most: u32) -> u32 {
        self.0 ^= self.0 << 13;
        self.0 ^= self.0 >> 7;
        self.0 ^= self.0 << 17;
        ((self.0 >> 33) % u64::from(most)) as u32
    }
}

struct Mutator<'a> {
    runtime: &'a Runtime,
    number: usize,
    numbers: Numbers,
    /// Where it allocates.
    top: u32,
}

impl Mutator<'_> {
    /// The write barrier, which is the store.
    fn store(&self, racer: &mut Racer, slot: u32, target: u32) -> Result<(), Refusal> {
        let slot = racer.slot(slot)?;
        let target = (target != NULL).then(|| racer.slot(target)).transpose()?;
        self.runtime.refiner.store(racer, slot, target).map(drop)
    }

    fn grow(&mut self, racer: &mut Racer, height: u32) -> Result<u32, Refusal> {
        let value = self.numbers.below(FORWARDED);
        let object = self.runtime.allocate(&mut self.top, value);
        if height > 0 {
            for slot in object..object + FIELDS {
                let target = self.grow(racer, height - 1)?;
                self.store(racer, slot, target)?;
            }
        }
        Ok(object)
    }

    /// A field of a mutator's tree, at random, that refers to a tree of this height.
    fn pick(&mut self, racer: &Racer, owner: usize, height: u32) -> u32 {
        let mut slot = self.runtime.roots[owner].load(SeqCst) + self.numbers.below(FIELDS);
        for _ in height + 1..HEIGHT {
            slot = field(racer, slot) + self.numbers.below(FIELDS);
        }
        slot
    }

    /// Replaces a tree in the mutator's own by a new one, or by one that it then shares with
    /// another mutator, or a leaf by null. Takes one region at most, and keeps no address.
    fn change(&mut self, racer: &mut Racer) -> Result<(), Refusal> {
        let height = self.numbers.below(CHANGE);
        let target = match self.numbers.below(4) {
            0 | 1 => self.grow(racer, height)?,
            2 if height == 0 => NULL,
            _ => {
                let owner = self.numbers.below(MUTATORS as u32) as usize;
                field(racer, self.pick(racer, owner, height))
            }
        };
        let slot = self.pick(racer, self.number, height);
        self.store(racer, slot, target)
    }

    /// Runs in a race until a pause is due.
    fn race(&mut self, racer: &mut Racer) -> Result<(), Refusal> {
        self.top = 0; // its region may have been freed
        let (taken, freed) = (&self.runtime.taken, self.runtime.freed.load(SeqCst));
        let mut changes = 0_u64;
        while taken.load(SeqCst) - freed < DUE {
            self.change(racer)?;
            changes += 1;
            if changes % 64 == 0 {
                self.runtime.refiner.hand_on(racer)?; // between two pauses a log seldom fills
            }
        }
        Ok(())
    }
}

/// A pause.
struct Pause<'a> {
    runtime: &'a Runtime,
    heap: Paused,
    /// Of each card a bit for each region of the collection set whose drain returned it.
    drained: Vec<u32>,
    /// Where objects are copied to.
    survivors: u32,
    /// Objects that were live at the last trace.
    live: usize,
}

impl Pause<'_> {
    fn drain(&mut self, number: u32) -> Result<()> {
        let region = self.heap.region(number)?;
        for card in self.heap.drain(region)? {
            self.drained[card.number() as usize] |= self.runtime.bit_of(number * REGION);
        }
        Ok(())
    }

    fn slot(&self, number: u32) -> Slot {
        self.heap.slot(number).expect("a slot of the heap")
    }

    fn field(&mut self, slot: u32) -> Result<u32, Refusal> {
        let target = self.heap.target(self.slot(slot))?;
        Ok(target.map_or(NULL, |place| place.number()))
    }

    fn set(&mut self, slot: u32, target: u32) -> Result<(), Refusal> {
        let (slot, target) = (self.slot(slot), self.slot(target));
        self.heap.store(slot, Some(target)).map(drop)
    }

    /// The address of an object's copy. The object is copied when it is first met.
    fn evacuate(&mut self, object: u32) -> Result<u32, Refusal> {
        let header = self.runtime.header(object);
        let word = header.load(SeqCst);
        if word & FORWARDED != 0 {
            return Ok(word & !FORWARDED);
        }
        let copy = self.runtime.allocate(&mut self.survivors, word);
        let (from, to) = (self.slot(object), self.slot(copy));
        self.heap.copy(from, to, FIELDS)?;
        header.store(FORWARDED | copy, SeqCst);
        Ok(copy)
    }

    fn scan(&mut self, first: u32, length: u32) -> Result<(), Refusal> {
        for slot in first..first + length {
            let target = self.field(slot)?;
            if self.runtime.bit_of(target) != 0 {
                let copy = self.evacuate(target)?;
                self.set(slot, copy)?;
            }
        }
        Ok(())
    }

    /// Copies what roots and objects outside the set refer to, and what the copies do. An object
    /// that is dead, but not in the set, still keeps what it refers to.
    fn evacuate_set(&mut self) -> Result<(), Refusal> {
        let mut copy = self.runtime.taken.load(SeqCst) % COUNTS.regions * REGION;
        self.survivors = copy;
        for root in &self.runtime.roots {
            let object = root.load(SeqCst);
            if self.runtime.bit_of(object) != 0 {
                root.store(self.evacuate(object)?, SeqCst);
            }
        }
        for card in 0..SLOTS / COUNTS.slots {
            let first = card * COUNTS.slots;
            if self.drained[card as usize] != 0 && self.runtime.bit_of(first) == 0 {
                self.scan(first, COUNTS.slots)?;
            }
        }
        while copy != self.survivors % SLOTS {
            self.scan(copy, FIELDS)?;
            copy = (copy + FIELDS) % SLOTS;
        }
        Ok(())
    }

    /// Counts references into the set that a drain missed.
    fn scan_all(&mut self) -> Result<usize, Refusal> {
        let mut wrong = 0;
        for slot in 0..SLOTS {
            let target = self.field(slot)?;
            let drained = self.drained[(slot / COUNTS.slots) as usize] | self.runtime.bit_of(slot);
            wrong += usize::from(self.runtime.bit_of(target) & !drained != 0);
        }
        Ok(wrong)
    }

    /// Evacuates the set, and frees it. Returns how much was wrong.
    fn collect(&mut self) -> Result<usize> {
        let runtime = self.runtime;
        runtime.set().try_for_each(|region| self.drain(region))?;
        let mut wrong = self.scan_all()?;
        let before = Trace::of(self)?;
        self.evacuate_set()?;
        let after = Trace::of(self)?;
        self.live = after.met.len();
        wrong += usize::from(after.sum != before.sum);
        let heap = &mut self.heap;
        let set: Vec<_> = runtime.set().filter_map(|n| heap.region(n).ok()).collect();
        for region in &set {
            heap.wipe(*region)?; // the fields of a new object are null
        }
        heap.refine()?; // nothing may be pending at a free
        let set = heap.collection_set(&set)?;
        wrong += usize::from(heap.free(&set)? != Cleared::Cleared);
        runtime.freed.fetch_add(SET, SeqCst);
        Ok(wrong)
    }
}

/// A full trace from the roots.
struct Trace {
    /// The objects in the order in which they are met.
    met: Vec<u32>,
    /// Of each object its number in that order, from 1 on.
    numbers: Vec<usize>,
    /// A sum over the values, and over what refers to what.
    sum: u64,
}

impl Trace {
    fn of(pause: &mut Pause) -> Result<Trace, Refusal> {
        let runtime = pause.runtime;
        let mut trace = Trace {
            met: Vec::new(),
            numbers: vec![0; runtime.headers.len()],
            sum: 0,
        };
        for root in &runtime.roots {
            trace.meet(root.load(SeqCst));
        }
        let mut done = 0;
        while let Some(&object) = trace.met.get(done) {
            trace.add(u64::from(runtime.header(object).load(SeqCst)));
            for slot in object..object + FIELDS {
                trace.meet(pause.field(slot)?);
            }
            done += 1;
        }
        Ok(trace)
    }

    fn add(&mut self, word: u64) {
        let product = self.sum.wrapping_mul(6_364_136_223_846_793_005);
        self.sum = product.wrapping_add(word);
    }

    /// Adds the number of an object, and 0 for null.
    fn meet(&mut self, object: u32) {
        if object == NULL {
            return self.add(0);
        }
        let number = &mut self.numbers[(object / FIELDS) as usize];
        if *number == 0 {
            self.met.push(object);
            *number = self.met.len();
        }
        let number = *number as u64;
        self.add(number);
    }
}

/// A thread that works with each racer or sweeper that it is given, and then returns it.
struct Worker<Seat> {
    give: Sender<Seat>,
    back: Receiver<Seat>,
}

impl<'scope, Seat: Send + 'scope> Worker<Seat> {
    fn start<Work>(scope: &'scope Scope<'scope, '_>, mut work: Work) -> Worker<Seat>
    where
        Work: FnMut(&mut Seat) -> Result<(), Refusal> + Send + 'scope,
    {
        let (give, seats) = channel();
        let (returns, back) = channel();
        scope.spawn(move || {
            for mut seat in seats {
                work(&mut seat).expect("nothing is refused here");
                let _ = returns.send(seat);
            }
        });
        Worker { give, back }
    }
}

/// Gives each mutator a tree, by its racer, and starts the threads.
fn start<'scope>(
    scope: &'scope Scope<'scope, '_>,
    runtime: &'scope Runtime,
    racers: &mut [Racer],
) -> Result<Vec<Worker<Racer>>> {
    let mut mutators = Vec::new();
    for (number, racer) in racers.iter_mut().enumerate() {
        let mut mutator = Mutator {
            runtime,
            number,
            numbers: Numbers(88_172_645_463_325_252 + number as u64 * 1_000_003),
            top: 0,
        };
        runtime.roots[number].store(mutator.grow(racer, HEIGHT)?, SeqCst);
        mutators.push(Worker::start(scope, move |racer| mutator.race(racer)));
    }
    Ok(mutators)
}

/// Lets the heap race until all mutators have stopped for a pause.
fn race(
    runtime: &Runtime,
    heap: Racing,
    mutators: &[Worker<Racer>],
    mut racers: Vec<Racer>,
) -> Result<Paused> {
    for (mutator, racer) in mutators.iter().zip(racers.drain(..)) {
        mutator.give.send(racer)?;
    }
    for mutator in mutators {
        racers.push(mutator.back.recv()?);
    }
    let sweepers = runtime.refiner.pause(Queued::Refine);
    Ok(heap.pause(racers, sweepers)?)
}

/// Ends a pause.
fn resume(runtime: &Runtime, heap: Paused) -> Result<(Racing, Vec<Racer>)> {
    let (heap, racers, sweepers) = heap.resume();
    runtime.refiner.resume(sweepers)?;
    Ok((heap, racers))
}

/// Makes pauses until something is wrong. Returns how much was, and how many objects are live.
fn run(runtime: &Runtime, pauses: u32) -> Result<(usize, usize)> {
    let heap = Paused::open(COUNTS, MUTATORS, SWEEPERS)?;
    let (mut heap, mut racers) = resume(runtime, heap)?;
    scope(|scope| {
        let mutators = start(scope, runtime, &mut racers)?;
        let (mut wrong, mut live) = (0, 0);
        for _ in 0..pauses {
            let mut pause = Pause {
                runtime,
                heap: race(runtime, heap, &mutators, racers)?,
                drained: vec![0; (SLOTS / COUNTS.slots) as usize],
                survivors: 0,
                live: 0,
            };
            wrong = pause.collect()?;
            live = pause.live;
            (heap, racers) = resume(runtime, pause.heap)?;
            if wrong > 0 {
                break;
            }
        }
        let sweepers = runtime.refiner.pause(Queued::Drop);
        heap.pause(racers, sweepers)?;
        Ok((wrong, live))
    })
}

fn main() -> Result<()> {
    let mut words = std::env::args().skip(1).map(|word| word.parse());
    let pauses = words.next().unwrap_or(Ok(100))?;
    let runtime = Runtime::new()?;
    let (wrong, live) = run(&runtime, pauses)?;
    let refined = runtime.refiner.handled().refined;
    let freed = runtime.freed.load(SeqCst);
    println!(
        "{} pauses, {refined} cards refined in races, {live} objects live at the end, \
         {wrong} wrong",
        freed / SET
    );
    let holds = wrong == 0 && freed > COUNTS.regions && refined > 0;
    println!("{} passed, {} failed", u32::from(holds), u32::from(!holds));
    if holds {
        Ok(())
    } else {
        Err("an evacuation went wrong".into())
    }
}
