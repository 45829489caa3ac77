//! error[E0308]
use ninkoda::{Counts, Heap};

fn main() {
    let mut heap = Heap::open(
        Counts {
            regions: 4,
            cards: 2,
            slots: 4,
        },
        4,
        8,
    )
    .unwrap();
    let card = heap.card(0).unwrap();
    let _ = heap.target(card);
}
