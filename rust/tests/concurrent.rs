//! A concurrent heap: its racers and sweepers handed out, taken in, missing, and of another heap.
use ninkoda::concurrent::{
    Paused, Racer, Racing, StoreCounts, SweepCounts, Sweeper, Word, DATA, RACERS, SWEEPERS,
};
use ninkoda::{Cleared, Counts, Exchanged, Kind, Refusal, Slot, LOG};
use std::error::Error;
use std::sync::mpsc::channel;
use std::thread;

const COUNTS: Counts = Counts {
    regions: 4,
    cards: 256,
    slots: 1,
};

fn heap() -> Paused {
    Paused::open(COUNTS, 2, 1).expect("a heap")
}

fn race() -> (Racing, Vec<Racer>, Vec<Sweeper>) {
    heap().resume()
}

fn slot(heap: &Paused, number: u32) -> Slot {
    heap.slot(number).expect("a slot of the heap")
}

#[test]
fn has_as_many_members_as_it_was_opened_with() {
    let many = [
        (0, 1),
        (1, 0),
        (RACERS + 1, 1),
        (1, SWEEPERS + 1),
        (usize::MAX, usize::MAX),
    ];
    for (racers, sweepers) in many {
        let refused = Paused::open(COUNTS, racers, sweepers).err();
        assert_eq!(refused, Some(Refusal::BadHandles));
    }
    let none = Counts {
        regions: 0,
        ..COUNTS
    };
    assert_eq!(Paused::open(none, 1, 1).err(), Some(Refusal::BadLayout));
    let all = Paused::open(COUNTS, RACERS, SWEEPERS).expect("a heap");
    let (heap, racers, sweepers) = all.resume();
    assert_eq!((racers.len(), sweepers.len()), (RACERS, SWEEPERS));
    assert!(heap.pause(racers, sweepers).is_ok());
}

#[test]
fn a_walk_meets_the_members_of_a_region() {
    let mut heap = heap();
    for number in [1023, 700, 5] {
        let (from, to) = (slot(&heap, number), slot(&heap, 300));
        heap.store(from, Some(to)).expect("a store");
    }
    let region = heap.region(1).expect("a region");
    assert_eq!(heap.members_iter(region).expect("a walk").count(), 0);
    heap.refine().expect("a refinement");
    let walked: Vec<_> = heap.members_iter(region).expect("a walk").collect();
    let cards = [5, 700, 1023].map(|card| heap.card(card).expect("a card"));
    assert_eq!(walked, cards);
    assert_eq!(heap.members(region).expect("a list"), cards);
    // Between its steps, a reference on a card that is not recorded, and null on one that is.
    let (mut met, mut from) = (Vec::new(), 0);
    while let Some(card) = heap.next_member(region, from).expect("a step") {
        let (ahead, last, to) = (slot(&heap, 701), slot(&heap, 1023), slot(&heap, 300));
        heap.store(ahead, Some(to)).expect("a store");
        heap.store(last, None).expect("a store");
        met.push(card);
        from = card.number() + 1;
    }
    assert_eq!(met, cards);
    // For several regions each card once, and none that lies in one of them.
    let regions = [1, 3].map(|number| heap.region(number).expect("a region"));
    let set = heap.collection_set(&regions).expect("a set");
    (met, from) = (Vec::new(), 0);
    while let Some(card) = heap.next_into(&set, from).expect("a step") {
        met.push(card);
        from = card.number() + 1;
    }
    assert_eq!(met, cards[..2]);
    let dirty = heap.card(701).expect("a card");
    assert_eq!(heap.next_dirty(0), Ok(Some(dirty)));
    let mut foreign = self::heap();
    let other = foreign.region(1).expect("a region");
    assert_eq!(
        heap.collection_set(&[region, other]),
        Err(Refusal::OtherHeap)
    );
    assert_eq!(foreign.next_into(&set, 0), Err(Refusal::OtherHeap));
    assert_eq!(heap.members_iter(other).err(), Some(Refusal::OtherHeap));
    assert_eq!(heap.next_member(other, 0), Err(Refusal::OtherHeap));
}

#[test]
fn several_threads_read_a_pause() {
    let mut heap = heap();
    let places: Vec<_> = (0..1024).map(|number| slot(&heap, number)).collect();
    for place in &places {
        heap.store(*place, Some(places[1023])).expect("a store");
    }
    let (heap, last) = (&heap, Some(places[1023]));
    thread::scope(|scope| {
        for part in places.chunks(256) {
            scope.spawn(move || {
                for place in part {
                    assert_eq!(heap.target(*place), Ok(last));
                }
            });
        }
    });
}

#[test]
fn is_read_by_readers_at_once_and_goes_on() {
    let mut heap = heap();
    let (from, to) = (slot(&heap, 700), slot(&heap, 300));
    heap.store(from, Some(to)).expect("a store");
    heap.refine().expect("a refinement");
    heap.store_data(slot(&heap, 5), DATA + 5).expect("data");
    let (region, other) = (to.region(), Paused::open(COUNTS, 1, 1).expect("a heap"));
    assert_eq!(heap.read(4).err(), Some(Refusal::BadHandles));
    for count in [3, 0, 1] {
        let mut readers = heap.read(count).expect("a reading");
        assert_eq!(readers.each().count(), count);
        thread::scope(|threads| {
            for mut reader in readers.each() {
                let foreign = slot(&other, 5);
                threads.spawn(move || {
                    assert_eq!(reader.target(from), Ok(Some(to)));
                    let data = reader.slot(5).expect("a slot");
                    assert_eq!(reader.word(data), Ok(Word::Data(DATA + 5)));
                    assert_eq!(reader.target(foreign), Err(Refusal::OtherHeap));
                    assert_eq!(reader.is_pending(from.card()), Ok(false));
                    assert_eq!(reader.has(from.card(), region), Ok(true));
                    assert_eq!(reader.has(to.card(), region), Ok(false));
                    let recorded: Vec<_> = reader.members(region).expect("a set").collect();
                    assert_eq!(recorded, [from.card()]);
                });
            }
        });
    }
    assert_eq!(heap.target(from), Ok(Some(to)));
    let (heap, racers, sweepers) = heap.resume();
    assert!(heap.pause(racers, sweepers).is_ok());
}

#[test]
fn counts_what_members_do_over_pauses() {
    let (heap, mut racers, mut sweepers) = race();
    let slot = heap.slot(0).expect("a slot");
    let place = heap.slot(512).expect("a slot");
    assert_eq!(sweepers[0].sweep_counts(), Ok(SweepCounts::default()));
    assert_eq!(racers[0].store_counts(), Ok(StoreCounts::default()));
    racers[0].store(slot, None).expect("a store");
    racers[0].store(slot, Some(slot)).expect("a store");
    for _ in 0..2 {
        for _ in 0..3 {
            racers[0].store(slot, Some(place)).expect("a store");
        }
        sweepers[0].refine(slot.card()).expect("a refinement");
    }
    sweepers[0].refine(slot.card()).expect("of a clean card");
    let counts = SweepCounts {
        refined: 3,
        cleaned: 2,
        references: 3,
    };
    let stores = StoreCounts {
        null: 1,
        same_region: 1,
        already_dirty: 4,
        logged: 2,
    };
    let heap = heap.pause(racers, sweepers).expect("all are in");
    let (_heap, mut racers, mut sweepers) = heap.resume();
    assert_eq!(sweepers[0].sweep_counts(), Ok(counts));
    assert_eq!(racers[0].store_counts(), Ok(stores));
}

#[test]
fn is_not_paused_while_a_member_is_out() {
    let (heap, mut racers, sweepers) = race();
    let racer = racers.pop().expect("a racer");
    let refused = heap.pause(racers, sweepers).expect_err("a racer is out");
    assert_eq!(refused.refusal, Refusal::StillOut);
    let (heap, mut racers, mut sweepers) = refused.value;
    racers.push(racer);
    sweepers.clear();
    let refused = heap.pause(racers, sweepers).expect_err("no sweeper");
    assert_eq!(refused.refusal, Refusal::StillOut);
}

#[test]
fn takes_no_member_and_no_number_of_another_heap() {
    let far = slot(&heap(), 512);
    let (one, mut racers, mut sweepers) = race();
    let (other, mut others, other_sweepers) = race();
    let near = one.slot(0).expect("a slot");
    assert_eq!(racers[0].store(near, Some(far)), Err(Refusal::OtherHeap));
    assert_eq!(racers[0].word(far), Err(Refusal::OtherHeap));
    let swapped = racers[0].compare_exchange(near, Some(far), None);
    assert_eq!(swapped, Err(Refusal::OtherHeap));
    assert_eq!(racers[0].store_all(&[(far, None)]), Err(Refusal::OtherHeap));
    let card = other.card(0).expect("a card");
    assert_eq!(sweepers[0].refine(card), Err(Refusal::OtherHeap));
    std::mem::swap(&mut racers[1], &mut others[0]);
    let refused = one.pause(racers, sweepers).expect_err("it is another's");
    assert_eq!(refused.refusal, Refusal::OtherHeap);
    let (one, mut racers, sweepers) = refused.value;
    std::mem::swap(&mut racers[1], &mut others[0]);
    assert!(one.pause(racers, sweepers).is_ok());
    let other = other.pause(others, other_sweepers).expect("all are in");
    assert_eq!(other.target(near), Err(Refusal::OtherHeap));
}

/// Gives a member to a thread, and pauses without it.
fn pause_without_a_racer() -> Result<Paused, Box<dyn Error + Send + Sync>> {
    let (heap, mut racers, sweepers) = Paused::open(COUNTS, 2, 1)?.resume();
    let (give, _members) = channel();
    give.send(racers.pop().ok_or("a racer")?)?;
    Ok(heap.pause(racers, sweepers)?)
}

#[test]
fn has_errors_that_go_into_a_box() {
    let error = pause_without_a_racer().expect_err("a racer is out");
    assert_eq!(error.to_string(), Refusal::StillOut.to_string());
    let (give, members) = channel();
    drop(members);
    let (_heap, mut racers, _sweepers) = race();
    let lost = give.send(racers.pop().expect("a racer"));
    let lost: Box<dyn Error + Send + Sync> = lost.expect_err("no one has it").into();
    assert!(lost.to_string().contains("closed"));
}

#[test]
fn is_read_by_several_threads_at_once() {
    let (heap, mut racers, sweepers) = race();
    let (near, far) = (
        heap.slot(0).expect("a slot"),
        heap.slot(512).expect("a slot"),
    );
    let racer = &mut racers[0];
    assert!(racer.store(near, Some(far)).is_ok());
    let racer = &*racer;
    thread::scope(|scope| {
        let reads: Vec<_> = (0..4).map(|_| scope.spawn(|| racer.word(near))).collect();
        for read in reads {
            let word = read.join().expect("it does not panic");
            assert_eq!(word, Ok(Word::Reference(far)));
        }
    });
    assert!(heap.pause(racers, sweepers).is_ok());
}

#[test]
fn says_when_a_log_is_full() {
    let (heap, mut racers, sweepers) = race();
    let (racer, far) = (&mut racers[0], heap.slot(512).ok());
    let near = |number| heap.slot(number).expect("a slot");
    for number in 0..LOG as u32 {
        let card = heap.card(number).expect("a card");
        assert_eq!(racer.store(near(number), far), Ok(Kind::Logged(card)));
    }
    let last = near(LOG as u32);
    assert_eq!(racer.store(last, far), Err(Refusal::LogFull));
    assert_eq!(racer.store_all(&[(last, None), (last, far)]), Ok(1));
    let beside = near(LOG as u32 + 1);
    assert_eq!(racer.store(last, Some(beside)), Ok(Kind::SameRegion));
    assert_eq!(racer.store(last, None), Ok(Kind::Null));
    assert_eq!(racer.store_data(last, DATA), Ok(Word::Null));
    let log = racer.take_log().expect("a log");
    assert_eq!(log.len(), LOG);
    let card = heap.card(LOG as u32).expect("a card");
    assert_eq!(racer.store(last, far), Ok(Kind::Logged(card)));
    assert!(heap.pause(racers, sweepers).is_ok());
}

#[test]
fn makes_more_stores_than_a_block() {
    let (heap, mut racers, sweepers) = race();
    let (racer, far) = (&mut racers[0], heap.slot(512).ok());
    let near = |number| heap.slot(number).expect("a slot");
    let nulls = (0..200).map(|number| (near(number), None));
    let stores: Vec<_> = nulls.chain((0..300).map(|n| (near(n), far))).collect();
    let mut foreign = stores.clone();
    foreign.push((slot(&self::heap(), 0), None));
    assert_eq!(racer.store_all(&foreign), Err(Refusal::OtherHeap));
    assert_eq!(racer.word(near(0)), Ok(Word::Null));
    // (the log is full behind 200 stores of null and as many references as it has room for)
    assert_eq!(racer.store_all(&stores), Ok(200 + LOG));
    assert_eq!(racer.word(near(LOG as u32)), Ok(Word::Null));
    assert_eq!(racer.take_log().map(|log| log.len()), Ok(LOG));
    assert_eq!(racer.store_all(&stores[200 + LOG..]), Ok(300 - LOG));
    let mut heap = heap.pause(racers, sweepers).expect("all are in");
    let last = slot(&heap, 299);
    assert_eq!(heap.target(last), Ok(far));
    let back: Vec<_> = (0..300).map(|number| (slot(&heap, number), None)).collect();
    assert_eq!(heap.store_all(&back), Ok(()));
    assert_eq!(heap.target(last), Ok(None));
}

#[test]
fn swaps_and_compares() {
    let (heap, mut racers, sweepers) = race();
    let racer = &mut racers[0];
    let near = heap.slot(0).expect("a slot");
    let (some, other) = (heap.slot(512).ok(), heap.slot(513).ok());
    let logged = Kind::Logged(heap.card(0).expect("a card"));
    assert_eq!(racer.swap(near, some), Ok((logged, None)));
    let differs = Ok(Exchanged::Differs(some));
    assert_eq!(racer.compare_exchange(near, None, other), differs);
    let stored = Ok(Exchanged::Stored(Kind::Dirty));
    assert_eq!(racer.compare_exchange(near, some, other), stored);
    assert_eq!(racer.swap(near, None), Ok((Kind::Null, other)));
    assert_eq!(racer.store_data(near, DATA), Ok(Word::Null));
    // (data is not the null that is expected)
    let differs = Ok(Exchanged::Differs(None));
    assert_eq!(racer.compare_exchange(near, None, other), differs);
    assert_eq!(racer.word(near), Ok(Word::Data(DATA)));
    assert_eq!(racer.store_all(&[(near, some), (near, other)]), Ok(2));
    assert_eq!(
        racer.word(near),
        other.map(Word::Reference).ok_or(Refusal::NoSlot)
    );
    assert!(heap.pause(racers, sweepers).is_ok());
}

#[test]
fn stores_rows_of_words() {
    let (heap, mut racers, sweepers) = race();
    let racer = &mut racers[0];
    let near = |number| heap.slot(number).expect("a slot");
    let far = Word::Reference(near(512));
    let row = [Word::Data(DATA), far, Word::Null, Word::Reference(near(1))];
    assert_eq!(racer.store_words(near(0), &row), Ok(4));
    for (number, word) in row.into_iter().enumerate() {
        assert_eq!(racer.word(near(number as u32)), Ok(word));
    }
    let bad = [Word::Null, Word::Data(DATA - 1)];
    assert_eq!(racer.store_words(near(0), &bad), Err(Refusal::BadWord));
    assert_eq!(racer.store_words(near(1023), &row), Err(Refusal::NoSlot));
    let foreign = [Word::Null, Word::Reference(slot(&self::heap(), 0))];
    assert_eq!(
        racer.store_words(near(0), &foreign),
        Err(Refusal::OtherHeap)
    );
    assert_eq!(racer.word(near(0)), Ok(row[0]));
    assert_eq!(racer.take_log().map(|log| log.len()), Ok(1));
    // (the card of slot 1 is dirty already)
    let long = [far; 300];
    assert_eq!(racer.store_words(near(0), &long), Ok(LOG + 1));
    assert_eq!(racer.take_log().map(|log| log.len()), Ok(LOG));
    let rest = near(LOG as u32 + 1);
    assert_eq!(racer.store_words(rest, &long[LOG + 1..]), Ok(299 - LOG));
    let mut heap = heap.pause(racers, sweepers).expect("all are in");
    let (first, last) = (slot(&heap, 0), slot(&heap, 1023));
    assert_eq!(heap.store_words(first, &[Word::Null; 300]), Ok(()));
    assert_eq!(heap.target(slot(&heap, 299)), Ok(None));
    assert_eq!(heap.store_words(last, &[far; 2]), Err(Refusal::NoSlot));
    assert_eq!(
        heap.store_words(last, &[Word::Null, far]),
        Err(Refusal::NoSlot)
    );
}

#[test]
fn swaps_and_compares_words() {
    let (heap, mut racers, sweepers) = race();
    let racer = &mut racers[0];
    let near = heap.slot(0).expect("a slot");
    let far = Word::Reference(heap.slot(512).expect("a slot"));
    let logged = Kind::Logged(heap.card(0).expect("a card"));
    let (one, two) = (Word::Data(DATA + 1), Word::Data(DATA + 2));
    assert_eq!(racer.swap_word(near, one), Ok((Kind::Null, Word::Null)));
    let differs = Ok(Exchanged::Differs(one));
    assert_eq!(racer.compare_exchange_word(near, Word::Null, far), differs);
    let stored = Ok(Exchanged::Stored(Kind::Null));
    assert_eq!(racer.compare_exchange_word(near, one, two), stored);
    assert_eq!(racer.swap_word(near, far), Ok((logged, two)));
    assert_eq!(racer.compare_exchange_word(near, far, Word::Null), stored);
    let low = Word::Data(DATA - 1);
    assert_eq!(racer.swap_word(near, low), Err(Refusal::BadWord));
    let refused = racer.compare_exchange_word(near, low, one);
    assert_eq!(refused, Err(Refusal::BadWord));
    let (other, _, _) = race();
    let foreign = Word::Reference(other.slot(0).expect("a slot"));
    assert_eq!(racer.swap_word(near, foreign), Err(Refusal::OtherHeap));
    assert_eq!(racer.word(near), Ok(Word::Null));
    assert!(heap.pause(racers, sweepers).is_ok());
}

#[test]
fn finds_what_memory_has_otherwise() {
    let mut heap = heap();
    let (first, near, far) = (slot(&heap, 0), slot(&heap, 300), slot(&heap, 700));
    assert!(heap.store(near, Some(far)).is_ok());
    assert_eq!(heap.store_data(first, DATA), Ok(()));
    let mut memory = vec![None; 1024];
    assert_eq!(heap.first_differing(first, &memory), Ok(Some(near)));
    memory[300] = Some(far);
    assert_eq!(heap.first_differing(first, &memory), Ok(None));
    assert_eq!(heap.first_differing(far, &memory), Err(Refusal::NoSlot));
    memory[1023] = Some(near);
    let last = slot(&heap, 1023);
    assert_eq!(heap.first_differing(first, &memory), Ok(Some(last)));
    assert_eq!(heap.first_differing(last, &memory[..1]), Ok(None));
    memory[512] = Some(slot(&Paused::open(COUNTS, 1, 1).expect("a heap"), 0));
    assert_eq!(
        heap.first_differing(first, &memory),
        Err(Refusal::OtherHeap)
    );
    assert_eq!(heap.first_missing(first, 1024), Ok(None));
    assert_eq!(heap.first_missing(near, 1024), Err(Refusal::NoSlot));
}

#[test]
fn copies_at_a_pause_of_another_thread() {
    let mut heap = heap();
    let numbers: Vec<Slot> = (0..4).map(|number| slot(&heap, number)).collect();
    let (last, far) = (slot(&heap, 1023), slot(&heap, 512));
    assert_eq!(heap.store(numbers[0], Some(far)).map(|_| ()), Ok(()));
    assert_eq!(heap.store_data(numbers[1], DATA), Ok(()));
    let copied = thread::spawn(move || heap.copy(numbers[0], numbers[1], 3).map(|_| heap));
    let mut heap = copied.join().expect("it does not panic").expect("a copy");
    let words: Vec<_> = (0..4).map(|n| heap.word(slot(&heap, n))).collect();
    let reference = Ok(Word::Reference(far));
    assert_eq!(
        words,
        [reference, reference, Ok(Word::Data(DATA)), Ok(Word::Null)]
    );
    let dirty = heap.card(1).expect("a card");
    assert_eq!(heap.is_pending(dirty), Ok(true));
    assert_eq!(heap.copy(last, far, 1), Ok(()));
    assert_eq!(heap.copy(last, far, 2), Err(Refusal::NoSlot));
}

#[test]
fn keeps_its_numbers_and_its_words_through_a_pause() {
    let mut heap = heap();
    let (near, far) = (slot(&heap, 0), slot(&heap, 512));
    let place = |number| heap.region(number).expect("a region");
    let (first, entered) = (place(0), place(2));
    for turn in 0..3 {
        let (race, mut racers, sweepers) = heap.resume();
        let mut racer = racers.pop().expect("a racer");
        let mutator = thread::spawn(move || racer.store(near, Some(far)).map(|_| racer));
        racers.push(mutator.join().expect("it does not panic").expect("a store"));
        assert_eq!(racers[0].word(near), Ok(Word::Reference(far)));
        heap = race.pause(racers, sweepers).expect("all are in");
        assert_eq!(heap.word(near), Ok(Word::Reference(far)));
        assert_eq!(heap.drain(entered).map(|cards| cards.len()), Ok(1));
        assert_eq!(heap.clear(entered), Ok(Cleared::StillReferenced(near)));
        assert_eq!(heap.forget(first), Err(Refusal::StillReferenced));
        assert_eq!(heap.store_data(near, 7), Err(Refusal::BadWord));
        assert_eq!(heap.store_data(near, DATA + turn), Ok(()));
        assert_eq!(heap.target(near), Ok(None));
        assert_eq!(heap.word(near), Ok(Word::Data(DATA + turn)));
        assert_eq!(heap.wipe(first), Ok(()));
        assert_eq!(heap.forget(first), Ok(()));
        assert_eq!(heap.members(entered), Ok(Vec::new()));
    }
}

#[test]
fn stores_and_moves_references_at_a_pause() {
    let mut heap = heap();
    let (near, far) = (slot(&heap, 0), slot(&heap, 512));
    let card = heap.card(0).expect("a card");
    let place = |number| heap.region(number).expect("a region");
    let (from, to) = (place(2), place(3));
    assert_eq!(heap.store(near, Some(far)), Ok(Kind::Logged(card)));
    assert_eq!(heap.is_pending(card), Ok(true));
    assert_eq!(heap.clear(from), Ok(Cleared::Pending(1)));
    assert_eq!(heap.refine(), Ok(()));
    assert_eq!(heap.status().map(|totals| totals.recorded), Ok(1));
    assert_eq!(heap.redirect(from, from), Err(Refusal::SameRegion));
    assert_eq!(heap.redirect(from, to), Ok(1));
    assert_eq!(heap.target(near), Ok(heap.slot(768).ok()));
    assert_eq!(heap.members(to), Ok(vec![card]));
    assert_eq!(heap.store_all(&[(near, None), (far, None)]), Ok(()));
    assert_eq!(heap.clear(to), Ok(Cleared::Cleared));
}

#[test]
fn frees_regions_together() {
    let mut heap = heap();
    let (kept, data) = (slot(&heap, 257), slot(&heap, 258));
    let (first, second, outside) = (slot(&heap, 300), slot(&heap, 600), slot(&heap, 5));
    heap.store_data(data, DATA).expect("data");
    for (from, to) in [
        (first, second),
        (second, first),
        (kept, data),
        (outside, second),
    ] {
        heap.store(from, Some(to)).expect("a store");
    }
    heap.store(first, Some(outside)).expect("a store");
    let set = heap.collection_set(&[first.region(), second.region()]);
    let set = set.expect("a set");
    assert_eq!(heap.free(&set), Ok(Cleared::Pending(3)));
    assert_eq!(heap.refine(), Ok(()));
    assert_eq!(heap.free(&set), Ok(Cleared::StillReferenced(outside)));
    assert_eq!(heap.target(first), Ok(Some(outside)));
    heap.store(outside, None).expect("a store");
    assert_eq!(heap.free(&set), Ok(Cleared::Cleared));
    assert_eq!(heap.target(first), Ok(None));
    assert_eq!(heap.target(second), Ok(None));
    assert_eq!(heap.target(kept), Ok(Some(data)));
    assert_eq!(heap.word(data), Ok(Word::Data(DATA)));
    assert_eq!(heap.status().map(|totals| totals.recorded), Ok(0));
    let none = heap.collection_set(&[]).expect("a set");
    assert_eq!(heap.free(&none), Ok(Cleared::Cleared));
    assert_eq!(self::heap().free(&set), Err(Refusal::OtherHeap));
}
