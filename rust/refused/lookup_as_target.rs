//! error[E0308]
use ninkoda::{Core, Counts};

fn main() {
    let mut core = Core::open(
        Counts {
            regions: 4,
            cards: 2,
            slots: 4,
        },
        4,
        8,
    )
    .unwrap();
    let slot = core.slot(0).unwrap();
    let _ = core.store(slot, core.slot(800));
}
