//! The serial run (docs/MODEL.md), which takes a lock as a read, and the search for a serial order among all orders.

use crate::schedule::*;

/// An order of all transactions in which the serial run takes every read from the same writes and every tuple ends
/// alike; nothing where no order does.
pub fn serial_order(schedule: &Schedule) -> Option<Vec<usize>> {
    let lists = vec![Vec::new(); schedule.versions.len()];
    let mut order = Vec::new();
    if extend(schedule, &lists, &mut order) { Some(order) } else { None }
}

/// Tries every transaction next. What a transaction reads hangs on those before it alone, so a wrong read ends a try.
fn extend(schedule: &Schedule, lists: &[Vec<Written>], order: &mut Vec<usize>) -> bool {
    if order.len() == schedule.transactions.len() {
        return ends_alike(schedule, lists);
    }
    for next in 0..schedule.transactions.len() {
        if !order.contains(&next) {
            let mut then = lists.to_vec();
            if runs_alike(schedule, next, &mut then) {
                order.push(next);
                if extend(schedule, &then, order) {
                    return true;
                }
                order.pop();
            }
        }
    }
    false
}

/// Runs one transaction whole; whether each read takes what it took in the schedule.
fn runs_alike(schedule: &Schedule, own: usize, lists: &mut [Vec<Written>]) -> bool {
    for (number, operation) in schedule.transactions[own].iter().enumerate() {
        let alike = match operation {
            Operation::Read { tuple, reads, took, .. } => {
                let mut takes = Vec::new();
                sources(&lists[*tuple], *reads, &mut takes);
                takes == *took
            }
            Operation::Predicate { rel, tests, took } => predicate(schedule, lists, *rel, *tests) == *took,
            Operation::Change { tuple, sort, attributes } => {
                lists[*tuple].push(Written { by: (own, number), sort: *sort, attributes: *attributes });
                true
            }
            Operation::Commit => true,
        };
        if !alike {
            return false;
        }
    }
    true
}

fn predicate(schedule: &Schedule, lists: &[Vec<Written>], rel: u8, tests: u64) -> Vec<Source> {
    let mut takes = Vec::new();
    for tuple in (0..lists.len()).filter(|&tuple| schedule.ground.rel[tuple] == rel) {
        takes.push(existence(&lists[tuple]));
        sources(&lists[tuple], tests, &mut takes);
    }
    takes
}

/// Each attribute of each tuple, and its existence, ends with the same last write.
fn ends_alike(schedule: &Schedule, lists: &[Vec<Written>]) -> bool {
    (0..lists.len()).all(|tuple| {
        let (mut serial, mut own) = (Vec::new(), Vec::new());
        let set = schedule.ground.sets[schedule.ground.rel[tuple] as usize];
        sources(&lists[tuple], set, &mut serial);
        sources(&schedule.versions[tuple], set, &mut own);
        serial == own && existence(&lists[tuple]) == existence(&schedule.versions[tuple])
    })
}
