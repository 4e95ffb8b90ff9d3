//! Sheets: blanking, writing, clearing and reading, also on a day, on both
//! programs.

mod bits;
mod blanking;
mod buffers;
mod dated;
mod edges;
mod faults;
mod fences;
mod lists;
mod marks;
mod pointing;
mod serials;

use differential::both::Both;
use differential::lent::Place;
use differential::random::seed;

fn both(test: &str) -> Both {
    Both::new(Place::Guarded, &format!("{test}, seed {:#x}", seed()))
}

/// Slots that are n or more, among them those that a narrower count, or a
/// place computed from them by wrapping, would take for small ones.
const FAR_SLOTS: [usize; 9] = [
    256,
    257,
    65_535,
    65_536,
    1 << 32,
    1 << 60,
    (1 << 60) + 1,
    usize::MAX / 208 + 1,
    usize::MAX,
];
