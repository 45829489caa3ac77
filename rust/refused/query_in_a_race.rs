//! error[E0599]
use ninkoda::concurrent::Paused;
use ninkoda::Counts;

fn main() {
    let counts = Counts {
        regions: 4,
        cards: 2,
        slots: 4,
    };
    let (mut heap, _racers, _sweepers) = Paused::open(counts, 1, 1).unwrap().resume();
    let _ = heap.status();
}
