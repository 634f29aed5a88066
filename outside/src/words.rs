//! The words that the proved code's exports work in, lent by the caller and made once: what they hold before a call is free.

use crate::unfolding::{MAX_NODES, MAX_PLACES};
use crate::verdict::MAX_STEPS;
use crate::workload::MAX_LINES;

/// Eight words to a line and to the row of a place, 64 to a node of either table of the graph, four to a step of a walk.
pub struct Words {
    pub state: [u64; 424],
    pub lines: [u64; 8 * MAX_LINES],
    pub places: [u64; MAX_PLACES],
    pub rows: [u64; 8 * MAX_PLACES],
    pub work: [u64; 8 * MAX_PLACES],
    pub forwards: [u64; MAX_NODES * MAX_NODES],
    pub backs: [u64; MAX_NODES * MAX_NODES],
    pub walk: [u64; 4 * MAX_STEPS],
}

impl Words {
    pub fn new() -> Words {
        Words {
            state: [0; 424],
            lines: [0; 8 * MAX_LINES],
            places: [0; MAX_PLACES],
            rows: [0; 8 * MAX_PLACES],
            work: [0; 8 * MAX_PLACES],
            forwards: [0; MAX_NODES * MAX_NODES],
            backs: [0; MAX_NODES * MAX_NODES],
            walk: [0; 4 * MAX_STEPS],
        }
    }
}
