//! error[E0499]
use ninkoda::{Counts, Heap};

fn main() {
    let mut heap = Heap::open(
        Counts {
            regions: 4,
            cards: 2,
            slots: 4,
        },
        4,
        8,
    )
    .unwrap();
    let slot = heap.slot(0).unwrap();
    std::thread::scope(|scope| {
        scope.spawn(|| heap.store(slot, None));
        scope.spawn(|| heap.store(slot, None));
    });
}
