//! error[E0599]
use ninkoda::{Core, Counts};

fn main() {
    let core = Core::open(
        Counts {
            regions: 4,
            cards: 2,
            slots: 4,
        },
        4,
        8,
    )
    .unwrap();
    let _copy = core.clone();
}
