//! error[E0382]
use ninkoda::{Core, Counts};

fn main() {
    let core = Core::open(
        Counts {
            regions: 4,
            cards: 2,
            slots: 4,
        },
        4,
        8,
    )
    .unwrap();
    drop(core);
    drop(core);
}
