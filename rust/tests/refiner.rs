//! What each call of a refiner returns, and what becomes of the logs that are handed on.
use ninkoda::concurrent::{
    Handled, Paused, Queue, Queued, Racer, Racing, Refiner, Sweeper, Word, SWEEPERS,
};
use ninkoda::{Counts, Exchanged, Kind, Refusal, Slot, LOG};
use std::io::ErrorKind;
use std::thread;
use std::time::Duration;

/// Slot n lies on card n.
const COUNTS: Counts = Counts {
    regions: 4,
    cards: 512,
    slots: 1,
};

/// A queue of so much room, whose logs are refined at once.
fn eager(room: usize) -> Queue {
    Queue {
        room,
        start: 1,
        stop: 0,
    }
}

fn race() -> (Racing, Vec<Racer>, Vec<Sweeper>) {
    let heap = Paused::open(COUNTS, 1, 2).expect("a heap");
    heap.resume()
}

/// A slot, and the place of its number in the next region.
fn reference(racer: &Racer, number: u32) -> (Slot, Option<Slot>) {
    let slot = racer.slot(number).expect("a slot");
    let next = racer.slot((number + COUNTS.cards) % (COUNTS.regions * COUNTS.cards));
    (slot, Some(next.expect("a slot")))
}

/// Stores references into the next region, and hands the card of each that is logged on as a log of
/// its own. Returns how many cards were clean.
fn hand_on_each(refiner: &Refiner, racer: &mut Racer, numbers: std::ops::Range<u32>) -> u64 {
    let mut logged = 0;
    for number in numbers {
        let (slot, target) = reference(racer, number);
        match refiner.store(racer, slot, target).expect("a store") {
            Kind::Logged(card) => {
                assert_eq!(card, slot.card());
                logged += 1;
            }
            kind => assert_eq!(kind, Kind::Dirty),
        }
        assert_eq!(refiner.hand_on(racer), Ok(()));
    }
    logged
}

fn resumed(refiner: &Refiner, sweepers: Vec<Sweeper>) {
    assert!(refiner.resume(sweepers).is_ok());
}

#[test]
fn is_opened_within_its_limits() {
    let queue = |room, start, stop| Queue { room, start, stop };
    for (queue, sweepers) in [
        (queue(0, 1, 0), 1),
        (queue(1, 0, 0), 1),
        (queue(1, 2, 0), 1),
        (queue(2, 2, 2), 1),
        (queue(1, 1, 0), 0),
        (queue(1, 1, 0), SWEEPERS + 1),
    ] {
        let refused = Refiner::open(queue, sweepers).expect_err("a limit");
        assert_eq!(refused.kind(), ErrorKind::InvalidInput);
    }
    assert!(Refiner::open(Queue::default(), 1).is_ok());
    let refiner = Refiner::open(eager(1), SWEEPERS).expect("a refiner");
    assert_eq!(refiner.handled(), Handled::default());
    assert!(refiner.pause(Queued::Refine).is_empty());
}

#[test]
fn takes_all_sweepers_of_one_heap_at_a_pause() {
    let refiner = Refiner::open(eager(3), 2).expect("a refiner");
    let (heap, mut racers, mut sweepers) = race();
    let (other, mut others, mut other_sweepers) = race();
    let few = refiner.resume(vec![sweepers.remove(0)]).expect_err("one");
    assert_eq!(few.refusal, Refusal::StillOut);
    sweepers.extend(few.value);
    std::mem::swap(&mut sweepers[0], &mut other_sweepers[0]);
    let mixed = refiner.resume(sweepers).expect_err("sweepers of two heaps");
    assert_eq!(mixed.refusal, Refusal::OtherHeap);
    sweepers = mixed.value;
    std::mem::swap(&mut sweepers[0], &mut other_sweepers[0]);
    resumed(&refiner, sweepers);
    let twice = refiner
        .resume(other_sweepers)
        .expect_err("it is not paused");
    assert_eq!(twice.refusal, Refusal::StillOut);
    let (slot, target) = reference(&others[0], 0);
    assert!(refiner.store(&mut others[0], slot, target).is_ok());
    assert_eq!(refiner.hand_on(&mut others[0]), Err(Refusal::OtherHeap));
    assert_eq!(others[0].take_log().map(|log| log.len()), Ok(1));
    assert_eq!(hand_on_each(&refiner, &mut racers[0], 0..1), 1);
    let sweepers = refiner.pause(Queued::Refine);
    assert_eq!(sweepers.len(), 2);
    assert_eq!(refiner.handled().refined, 1);
    assert!(heap.pause(racers, sweepers).is_ok());
    assert!(other.pause(others, twice.value).is_ok());
}

#[test]
fn refines_or_drops_each_log() {
    let refiner = Refiner::open(eager(3), 2).expect("a refiner");
    let (heap, mut racers, mut sweepers) = race();
    let racer = &mut racers[0];
    let mut logs = hand_on_each(&refiner, racer, 2047..2048);
    assert_eq!(refiner.handled().dropped, 1, "a paused refiner drops a log");
    for round in 0..100 {
        let before = refiner.handled();
        let numbers = round * 10..(round + 1) * 10;
        resumed(&refiner, sweepers);
        assert_eq!(hand_on_each(&refiner, racer, numbers.clone()), 10);
        logs += 10;
        let is_whole = round % 2 == 0;
        sweepers = refiner.pause(if is_whole {
            Queued::Refine
        } else {
            Queued::Drop
        });
        let after = refiner.handled();
        assert_eq!(sweepers.len(), 2);
        assert_eq!(after.refined + after.dropped, logs, "each log");
        assert_eq!(after.length, 0, "the queue is empty");
        assert!((1..=3).contains(&after.longest));
        let refined = after.refined - before.refined;
        assert!(refined == after.queued - before.queued || !is_whole);
        // (the refined cards are clean, and no others)
        assert_eq!(hand_on_each(&refiner, racer, numbers), refined);
        logs += refined;
    }
    assert!(refiner.handled().refined > 0);
    let mut heap = heap.pause(racers, sweepers).expect("all are in");
    let mut all: Vec<u32> = Vec::new();
    for number in 0..COUNTS.regions {
        let region = heap.region(number).expect("a region");
        all.extend(
            heap.drain(region)
                .expect("a drain")
                .iter()
                .map(|card| card.number()),
        );
    }
    all.sort_unstable();
    assert!(
        all.into_iter().eq((0..1000).chain(2047..2048)),
        "no card is lost"
    );
}

#[test]
fn hands_a_full_log_on_by_the_next_store() {
    let refiner = Refiner::open(eager(1), 2).expect("a refiner");
    let (heap, mut racers, sweepers) = race();
    resumed(&refiner, sweepers);
    for number in 0..=LOG as u32 {
        let (slot, target) = reference(&racers[0], number);
        let kind = refiner.store(&mut racers[0], slot, target);
        assert_eq!(kind, Ok(Kind::Logged(slot.card())));
    }
    let sweepers = refiner.pause(Queued::Refine);
    assert_eq!(refiner.handled().refined, LOG as u64);
    assert_eq!(racers[0].take_log().map(|log| log.len()), Ok(1));
    assert!(heap.pause(racers, sweepers).is_ok());
}

/// Waits until this many cards are refined, or for long, and returns what was handled then.
fn wait_for(refiner: &Refiner, refined: u64) -> Handled {
    for _ in 0..1000 {
        if refiner.handled().refined >= refined {
            break;
        }
        thread::sleep(Duration::from_millis(10));
    }
    refiner.handled()
}

#[test]
fn refines_from_the_start_to_the_stop() {
    let queue = Queue {
        room: 4,
        start: 3,
        stop: 1,
    };
    let refiner = Refiner::open(queue, 2).expect("a refiner");
    let (heap, mut racers, sweepers) = race();
    resumed(&refiner, sweepers);
    for (round, below) in [(0, 0..2), (1, 3..4), (2, 5..6)] {
        let last = below.end;
        hand_on_each(&refiner, &mut racers[0], below);
        thread::sleep(Duration::from_millis(50));
        let handled = refiner.handled();
        assert_eq!(
            (handled.refined, handled.length),
            (2 * round, 2),
            "it waits"
        );
        hand_on_each(&refiner, &mut racers[0], last..last + 1);
        wait_for(&refiner, 2 * round + 2);
        thread::sleep(Duration::from_millis(50));
        let handled = refiner.handled();
        assert_eq!(
            (handled.refined, handled.length),
            (2 * round + 2, 1),
            "one is left"
        );
    }
    let sweepers = refiner.pause(Queued::Refine);
    assert_eq!(refiner.handled().refined, 7);
    assert!(heap.pause(racers, sweepers).is_ok());
}

#[test]
fn makes_each_store_after_a_full_log() {
    let refiner = Refiner::open(eager(8), 2).expect("a refiner");
    let (heap, mut racers, sweepers) = race();
    let racer = &mut racers[0];
    resumed(&refiner, sweepers);
    let (slot, target) = reference(racer, 0);
    let other = racer.slot(COUNTS.cards + 1).expect("a slot");
    let word = |target: Option<Slot>| target.map_or(Word::Null, Word::Reference);
    for way in 0..4 {
        // (on cards that are clean)
        let mut numbers = 300 * way + 1..;
        let is_full = |number| {
            let (slot, target) = reference(racer, number);
            racer.store(slot, target) == Err(Refusal::LogFull)
        };
        assert!(numbers.any(is_full));
        assert_eq!(racer.store(slot, target), Err(Refusal::LogFull));
        let handled = refiner.handled();
        match way {
            0 => assert!(refiner.swap(racer, slot, target).is_ok()),
            1 => assert!(matches!(
                refiner.compare_exchange(racer, slot, target, Some(other)),
                Ok(Exchanged::Stored(_))
            )),
            2 => assert_eq!(
                refiner.swap_word(racer, slot, word(target)).map(|it| it.1),
                Ok(word(Some(other)))
            ),
            _ => assert!(matches!(
                refiner.compare_exchange_word(racer, slot, word(target), word(Some(other))),
                Ok(Exchanged::Stored(_))
            )),
        }
        let after = refiner.handled();
        assert_eq!(
            after.queued + after.dropped,
            handled.queued + handled.dropped + 1
        );
        racer.take_log().expect("a log");
    }
    let all: Vec<_> = (1024..2000)
        .map(|number| reference(racer, number))
        .collect();
    assert_eq!(refiner.store_all(racer, &all), Ok(()));
    assert_eq!(racer.word(all[975].0), Ok(word(all[975].1)));
    let row: Vec<_> = all.iter().rev().map(|(_, target)| word(*target)).collect();
    assert_eq!(refiner.store_words(racer, all[0].0, &row), Ok(()));
    assert_eq!(racer.word(all[975].0), Ok(row[975]));
    let sweepers = refiner.pause(Queued::Refine);
    assert!(heap.pause(racers, sweepers).is_ok());
}

#[test]
fn wakes_for_a_log() {
    let refiner = Refiner::open(eager(1), 2).expect("a refiner");
    let (heap, mut racers, sweepers) = race();
    resumed(&refiner, sweepers);
    thread::sleep(Duration::from_millis(50));
    assert_eq!(hand_on_each(&refiner, &mut racers[0], 0..1), 1);
    let refined = wait_for(&refiner, 1).refined;
    assert_eq!(refined, 1, "no thread has refined it");
    let sweepers = refiner.pause(Queued::Refine);
    assert!(heap.pause(racers, sweepers).is_ok());
}

#[test]
fn ends_while_it_refines() {
    let refiner = Refiner::open(eager(1), 2).expect("a refiner");
    let (heap, racers, sweepers) = race();
    resumed(&refiner, sweepers);
    drop(refiner);
    // (its sweepers never come back)
    let refused = heap.pause(racers, Vec::new()).expect_err("no sweeper");
    assert_eq!(refused.refusal, Refusal::StillOut);
}
