//! The walk checker: is this list of steps a lawful dangerous closed walk of at most 65 steps? It goes by the
//! edge rules alone and uses nothing of the verdict's search.

use crate::edges::*;
use crate::unfolding::*;
use crate::verdict::{Step, MAX_STEPS};
use crate::workload::*;

/// Nothing if the walk is lawful, else what is wrong with it.
pub fn fault_of_walk(unfoldings: &Unfoldings, spots: &[Spot], walk: &[Step]) -> Option<String> {
    if walk.is_empty() || walk.len() > MAX_STEPS {
        return Some(format!("a walk of {} steps", walk.len()));
    }
    for at in 0..walk.len() {
        if !is_edge(unfoldings, spots, &walk[at], &walk[(at + 1) % walk.len()]) {
            return Some(format!("step {at} is no edge"));
        }
    }
    if !walk.iter().any(|step| step.flow == b'f') {
        return Some("no forward edge".to_string());
    }
    let pair = |at: usize| is_dangerous_pair(unfoldings, spots, &walk[at], &walk[(at + 1) % walk.len()]);
    if !(0..walk.len()).any(pair) {
        return Some("no dangerous pair".to_string());
    }
    None
}

/// The spot at a place of a node, if there is one.
fn spot<'a>(unfoldings: &Unfoldings, spots: &'a [Spot], node: u8, place: u16) -> Option<&'a Spot> {
    let node = unfoldings.all().get(node as usize)?;
    if place < node.length { Some(&spots[(node.start + place) as usize]) } else { None }
}

fn is_edge(unfoldings: &Unfoldings, spots: &[Spot], step: &Step, next: &Step) -> bool {
    let Some(p) = spot(unfoldings, spots, step.node, step.leaves) else { return false };
    let Some(q) = spot(unfoldings, spots, next.node, step.enters) else { return false };
    match step.flow {
        b'f' => forward_letter(p, q) != NO_LETTER,
        b'b' => back_letter(p, q) != NO_LETTER,
        _ => false,
    }
}

fn is_dangerous_pair(unfoldings: &Unfoldings, spots: &[Spot], e: &Step, c: &Step) -> bool {
    let Some(p) = spot(unfoldings, spots, e.node, e.leaves) else { return false };
    c.flow == b'b' && (e.flow == b'b' || c.leaves < e.enters || matches!(p.kind, KS | PS | PU | PD))
}
