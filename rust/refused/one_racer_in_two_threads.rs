//! error[E0382]
use ninkoda::concurrent::Paused;
use ninkoda::Counts;

fn main() {
    let counts = Counts {
        regions: 4,
        cards: 2,
        slots: 4,
    };
    let (_heap, mut racers, _sweepers) = Paused::open(counts, 1, 1).unwrap().resume();
    let mut racer = racers.pop().unwrap();
    std::thread::spawn(move || racer.take_log().is_ok());
    std::thread::spawn(move || racer.take_log().is_ok());
}
