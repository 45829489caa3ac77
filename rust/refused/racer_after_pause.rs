//! error[E0382]
use ninkoda::concurrent::Paused;
use ninkoda::Counts;

fn main() {
    let counts = Counts {
        regions: 4,
        cards: 2,
        slots: 4,
    };
    let (heap, mut racers, sweepers) = Paused::open(counts, 1, 1).unwrap().resume();
    let _paused = heap.pause(racers, sweepers);
    let _ = racers[0].take_log();
}
