//! Stores a reference into region 1, and asks at a pause which cards have to be scanned.
use ninkoda::{Core, Counts, Drained, Kind, Refusal, LOG};

fn main() -> Result<(), Refusal> {
    // a card is hot from 4 refinements on, and the ring holds 1,024 hot cards
    let counts = Counts {
        regions: 4,
        cards: 2,
        slots: 4,
    };
    let mut core = Core::open(counts, 4, 1024)?;

    // a thread's dirty card queue
    let mut queue = Vec::with_capacity(LOG);
    let (slot, place) = (core.slot(0)?, core.slot(8)?);
    if let Kind::Logged(card) = core.store(slot, Some(place))? {
        queue.push(card);
    }
    if queue.len() == LOG {
        core.refine(&queue)?;
        queue.clear();
    }

    let region = core.region(1)?;
    match core.drain(region)? {
        Drained::Cards { members, .. } => {
            for card in members {
                println!("scan card {}", card.number());
            }
        }
        Drained::Short { .. } => println!("out of memory: drain again"),
    }
    Ok(())
}
