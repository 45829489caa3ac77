//! Mutators that store with no lock beside refinement threads: `concurrent [STORES [CYCLES]]`.
//!
//! The threads outlive the pauses. From each pause on a mutator has its racer, and before the next
//! one it returns it. It hands its logs on to a refiner, which has the sweepers between the pauses.
//! At a pause the drain of each region is compared with a scan of all slots, and one region is
//! redirected into the next.
use ninkoda::concurrent::{Paused, Queue, Queued, Racer, Refiner};
use ninkoda::{Counts, Refusal, Slot};
use std::collections::BTreeSet;
use std::error::Error;
use std::sync::mpsc::{channel, Receiver, Sender};
use std::sync::Arc;
use std::thread::{self, JoinHandle};

const COUNTS: Counts = Counts {
    regions: 64,
    cards: 16,
    slots: 8,
};
const SLOTS: u32 = COUNTS.regions * COUNTS.cards * COUNTS.slots;
const MUTATORS: usize = 4;
const SWEEPERS: usize = 2;
/// Logs that may wait for a refinement thread, and do so until there are 8.
const QUEUE: Queue = Queue {
    room: 64,
    start: 8,
    stop: 2,
};

type Result<T, E = Box<dyn Error + Send + Sync>> = std::result::Result<T, E>;

/// Numbers that look random.
struct Numbers(u64);

impl Numbers {
    fn below(&mut self, most: u32) -> u32 {
        self.0 ^= self.0 << 13;
        self.0 ^= self.0 >> 7;
        self.0 ^= self.0 << 17;
        ((self.0 >> 33) % u64::from(most)) as u32
    }
}

/// A mutator: a thread that stores by each racer that it is given, and then returns it.
struct Mutator {
    give: Sender<Racer>,
    back: Receiver<Racer>,
    thread: JoinHandle<Result<(), Refusal>>,
}

impl Mutator {
    fn start(number: u64, slots: Arc<Vec<Slot>>, stores: u32, refiner: Arc<Refiner>) -> Mutator {
        let mut numbers = Numbers(88_172_645_463_325_252 + number * 1_000_003);
        let (give, racers) = channel();
        let (returns, back) = channel();
        let thread = thread::spawn(move || {
            for mut racer in racers {
                mutate(&mut racer, &mut numbers, &slots, stores, &refiner)?;
                let _ = returns.send(racer);
            }
            Ok(())
        });
        Mutator { give, back, thread }
    }

    /// Ends the thread.
    fn end(self) -> Result<(), Refusal> {
        drop(self.give);
        self.thread.join().expect("a thread does not panic")
    }
}

/// Stores random references into the slots.
fn mutate(
    racer: &mut Racer,
    numbers: &mut Numbers,
    slots: &[Slot],
    stores: u32,
    refiner: &Refiner,
) -> Result<(), Refusal> {
    for _ in 0..stores {
        let slot = slots[numbers.below(SLOTS) as usize];
        let target = (numbers.below(8) != 0).then(|| slots[numbers.below(SLOTS) as usize]);
        refiner.store(racer, slot, target)?;
    }
    refiner.hand_on(racer)
}

/// Lets the mutators race to the end of their stores, from one pause to the next.
fn run(heap: Paused, mutators: &[Mutator], refiner: &Refiner) -> Result<Paused> {
    let (heap, mut racers, sweepers) = heap.resume();
    refiner.resume(sweepers)?;
    for (mutator, racer) in mutators.iter().zip(racers.drain(..)) {
        mutator.give.send(racer)?;
    }
    for mutator in mutators {
        racers.push(mutator.back.recv()?);
    }
    let sweepers = refiner.pause(Queued::Refine);
    Ok(heap.pause(racers, sweepers)?)
}

/// The cards outside a region that refer into it, by a scan of all slots.
fn scan(heap: &mut Paused, slots: &[Slot], region: u32) -> Result<BTreeSet<u32>, Refusal> {
    let (region, mut cards) = (heap.region(region)?, BTreeSet::new());
    for slot in slots {
        let target = heap.target(*slot)?;
        let enters = target.is_some_and(|place| place.region() == region);
        if enters && slot.region() != region {
            cards.insert(slot.card().number());
        }
    }
    Ok(cards)
}

/// Drains each region. Returns how many cards there were, and how many were missed or wrong.
fn drains(heap: &mut Paused, slots: &[Slot]) -> Result<(usize, usize)> {
    let (mut all, mut wrong) = (0, 0);
    for number in 0..COUNTS.regions {
        let region = heap.region(number)?;
        let members = heap.drain(region)?;
        all += members.len();
        wrong += members.iter().filter(|it| it.region() == region).count();
        let members: BTreeSet<u32> = members.iter().map(|card| card.number()).collect();
        wrong += scan(heap, slots, number)?.difference(&members).count();
    }
    Ok((all, wrong))
}

/// Moves what refers into one region into the next one.
fn redirect(heap: &mut Paused, from: u32) -> Result<u32, Refusal> {
    let region = |number| heap.region(number % COUNTS.regions);
    let (from, to) = (region(from)?, region(from + 1)?);
    heap.redirect(from, to)
}

fn main() -> Result<()> {
    let mut words = std::env::args().skip(1).map(|word| word.parse());
    let stores = words.next().unwrap_or(Ok(20_000))?;
    let cycles = words.next().unwrap_or(Ok(10))?;
    let (mut all, mut wrong, mut moved) = (0, 0, 0);
    let mut heap = Paused::open(COUNTS, MUTATORS, SWEEPERS)?;
    let slots: Result<Vec<Slot>, Refusal> = (0..SLOTS).map(|n| heap.slot(n)).collect();
    let (slots, refiner) = (Arc::new(slots?), Arc::new(Refiner::open(QUEUE, SWEEPERS)?));
    let start = |number| Mutator::start(number, slots.clone(), stores, refiner.clone());
    let mutators: Vec<Mutator> = (0..MUTATORS as u64).map(start).collect();
    for cycle in 0..cycles {
        heap = run(heap, &mutators, &refiner)?;
        let found = drains(&mut heap, &slots)?;
        all += found.0;
        wrong += found.1;
        moved += redirect(&mut heap, cycle % COUNTS.regions)?;
    }
    mutators.into_iter().try_for_each(Mutator::end)?;
    println!(
        "{cycles} cycles of {MUTATORS} racers with {stores} stores: {all} members, \
         {moved} slots moved, {wrong} wrong"
    );
    let holds = wrong == 0 && all > 0 && moved > 0;
    println!("{} passed, {} failed", u32::from(holds), u32::from(!holds));
    if holds {
        Ok(())
    } else {
        Err("a card was missed".into())
    }
}
