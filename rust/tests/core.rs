//! What a caller can still get wrong at a core is refused, and changes nothing.
use ninkoda::{Card, Cleared, Core, Counts, Drained, Kind, Refusal, Region, Slot, LOG};
use std::sync::Mutex;
use std::thread;

const COUNTS: Counts = Counts {
    regions: 4,
    cards: 2,
    slots: 4,
};

fn core() -> Core {
    Core::open(COUNTS, 4, 8).expect("a core")
}

fn slot(core: &Core, number: u32) -> Slot {
    core.slot(number).expect("a slot of the heap")
}

fn card(core: &Core, number: u32) -> Card {
    core.card(number).expect("a card of the heap")
}

#[test]
fn runs_with_the_library_of_its_version() {
    assert_eq!(ninkoda::version(), env!("CARGO_PKG_VERSION"));
}

#[test]
fn has_its_numbers_and_no_further() {
    let core = core();
    assert_eq!(core.slot(31).map(Slot::number), Ok(31));
    assert_eq!(core.slot(32), Err(Refusal::NoSlot));
    assert_eq!(core.slot(u32::MAX), Err(Refusal::NoSlot));
    assert_eq!(core.card(7).map(Card::number), Ok(7));
    assert_eq!(core.card(8), Err(Refusal::NoCard));
    assert_eq!(core.region(3).map(Region::number), Ok(3));
    assert_eq!(core.region(4), Err(Refusal::NoRegion));
    assert_eq!(core.counts(), COUNTS);
}

#[test]
fn knows_where_its_numbers_lie() {
    let core = core();
    for number in 0..32 {
        let slot = slot(&core, number);
        assert_eq!(slot.card().number(), number / 4);
        assert_eq!(slot.region().number(), number / 8);
        assert_eq!(slot.card().region(), slot.region());
        assert_eq!(slot.card().slots().nth(number as usize % 4), Some(slot));
    }
    let last = core.region(3).expect("region 3");
    let cards: Vec<u32> = last.cards().map(Card::number).collect();
    assert_eq!(cards, [6, 7]);
    let slots = last.cards().flat_map(Card::slots).map(Slot::number);
    assert!(slots.eq(24..32));
    assert_eq!(last.cards().len() + card(&core, 0).slots().len(), 2 + 4);
}

/// Four threads store by one core under a lock, each from its own region into the next one.
#[test]
fn serves_several_threads_in_a_mutex() {
    let shared = Mutex::new(core());
    thread::scope(|scope| {
        for number in 0..4 {
            let shared = &shared;
            scope.spawn(move || {
                let mut core = shared.lock().expect("no thread panics");
                let (from, to) = (8 * number, 8 * ((number + 1) % 4));
                let (from, to) = (slot(&core, from), slot(&core, to));
                let logged = Ok(Kind::Logged(from.card()));
                assert_eq!(core.store(from, Some(to)), logged);
                assert!(core.refine(&[from.card()]).is_ok());
            });
        }
    });
    let mut core = shared.into_inner().expect("no thread panics");
    for number in 0..4 {
        let region = core.region((number + 1) % 4).expect("a region");
        let card = card(&core, 2 * number);
        assert_eq!(core.members(region), Ok(vec![card]));
    }
}

#[test]
fn is_opened_within_the_limits() {
    let none = Counts {
        regions: 0,
        ..COUNTS
    };
    assert_eq!(Core::open(none, 4, 8).err(), Some(Refusal::BadLayout));
    assert_eq!(Core::open(COUNTS, 4, 0).err(), Some(Refusal::BadSettings));
}

#[test]
fn refuses_numbers_of_another_heap() {
    let (mut one, mut other) = (core(), core());
    let (near, far) = (slot(&one, 0), slot(&other, 8));
    let (first, elsewhere) = (card(&one, 0), other.region(1).expect("region 1"));
    assert_eq!(one.store(near, Some(far)), Err(Refusal::OtherHeap));
    assert_eq!(other.store(near, Some(far)), Err(Refusal::OtherHeap));
    assert_eq!(other.refine(&[first]), Err(Refusal::OtherHeap));
    assert_eq!(one.drain(elsewhere), Err(Refusal::OtherHeap));
    let stores = [(near, Some(slot(&one, 8))), (near, Some(far))];
    assert_eq!(one.store_all(&stores), Err(Refusal::OtherHeap));
    assert_eq!(one.target(near), Ok(None));
    assert_eq!(one.is_pending(first), Ok(false));
}

#[test]
fn refuses_more_cards_than_a_queue_has_and_a_region_twice() {
    let mut core = core();
    let (card, region) = (card(&core, 0), core.region(1).expect("region 1"));
    let many = [card; LOG + 1];
    assert_eq!(core.refine(&many), Err(Refusal::TooManyCards));
    let moved = core.redirect(region, region);
    assert_eq!(moved, Err(Refusal::SameRegion));
}

#[test]
fn makes_more_stores_at_once_than_a_queue_has_cards() {
    let mut core = core();
    let place = Some(slot(&core, 8));
    let stores: Vec<_> = (0..300).map(|n| (slot(&core, n % 32), place)).collect();
    let logged = core.store_all(&stores).expect("stores of the heap");
    // (all but the cards of region 1, where slot 8 lies)
    let numbers: Vec<u32> = logged.into_iter().map(Card::number).collect();
    assert_eq!(numbers, [0, 1, 4, 5, 6, 7]);
    assert!((0..32).all(|n| core.target(slot(&core, n)) == Ok(place)));
}

#[test]
fn goes_to_another_thread() {
    let mut core = core();
    let (near, far) = (slot(&core, 0), slot(&core, 8));
    let (first, region) = (near.card(), far.region());
    assert_eq!(core.store(near, Some(far)), Ok(Kind::Logged(first)));
    assert_eq!(core.clear(region), Ok(Cleared::Pending(1)));
    let drained = thread::spawn(move || (core.drain(region), core.clear(region)));
    let (drained, cleared) = drained.join().expect("it does not panic");
    let (members, refined) = (vec![first], vec![first]);
    assert_eq!(drained, Ok(Drained::Cards { members, refined }));
    assert_eq!(cleared, Ok(Cleared::StillReferenced(near)));
}

#[test]
fn copies_slots_and_finds_what_memory_has_otherwise() {
    let mut core = core();
    let (first, far) = (slot(&core, 0), slot(&core, 16));
    let last = slot(&core, 31);
    assert!(core.store(first, Some(far)).is_ok());
    assert_eq!(core.copy(first, slot(&core, 1), 2), Ok(()));
    assert_eq!(core.copy(first, slot(&core, 12), 2), Ok(()));
    let pending = card(&core, 3);
    assert_eq!(core.is_pending(pending), Ok(true));
    assert_eq!(core.copy(last, first, 2), Err(Refusal::NoSlot));
    let mut memory = vec![None; 32];
    for number in [0, 1, 12, 13] {
        memory[number] = Some(far);
    }
    assert_eq!(core.first_differing(first, &memory), Ok(None));
    assert_eq!(core.first_differing(last, &memory), Err(Refusal::NoSlot));
    memory[13] = None;
    let differing = slot(&core, 13);
    assert_eq!(core.first_differing(first, &memory), Ok(Some(differing)));
    assert_eq!(core.first_missing(first, 32), Ok(None));
    assert_eq!(core.first_missing(last, 2), Err(Refusal::NoSlot));
}
