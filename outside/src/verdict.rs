//! The verdict (docs/MODEL.md, "The dangerous walk"): counts, robust or danger, and for danger the first dangerous walk
//! (Req 01).

use crate::edges::*;
use crate::first_walk::first_walk;
use crate::graph::*;
use crate::unfolding::*;
use crate::workload::*;

pub const MAX_STEPS: usize = 65;

#[derive(Clone, Copy, PartialEq, Eq, Debug)]
pub struct Step {
    pub node: u8,
    pub leaves: u16,
    pub enters: u16,
    pub flow: u8, // b'f' or b'b'
}

pub const EMPTY_STEP: Step = Step { node: 0, leaves: 0, enters: 0, flow: b'f' };

#[derive(Clone, Copy, PartialEq, Eq, Debug)]
pub struct Verdict {
    pub programs: usize,
    pub nodes: usize,
    pub edges: usize,
    pub back: usize,
    /// 0 for robust.
    pub steps: usize,
}

/// The verdict, or nothing for refusal 22. `walk` is written for danger only.
pub fn judge(workload: &Workload, walk: &mut [Step; MAX_STEPS]) -> Option<Verdict> {
    let mut unfoldings = Unfoldings::empty();
    if !unfold(workload, &mut unfoldings) {
        return None;
    }
    let spots = spots(workload, &unfoldings);
    Some(judge_graph(workload.programs(), &unfoldings, &spots, walk))
}

pub fn judge_graph(programs: usize, unfoldings: &Unfoldings, spots: &[Spot], walk: &mut [Step; MAX_STEPS]) -> Verdict {
    judge_in(&mut Room::default(), programs, unfoldings, spots, walk)
}

/// What a graph is made in: one serves many.
#[derive(Default)]
pub struct Room {
    places: QuickPlaces,
    marks: Marks,
}

/// The same in a room that is lent.
pub fn judge_in(room: &mut Room, programs: usize, unfoldings: &Unfoldings, spots: &[Spot], walk: &mut [Step; MAX_STEPS]) -> Verdict {
    room.places.take(unfoldings, spots);
    let graph = Graph::of(&room.places, &mut room.marks, unfoldings.all().iter().map(|node| node.length as usize));
    let steps = first_walk(&graph, u64::MAX, walk);
    Verdict { programs, nodes: graph.nodes, edges: graph.edges, back: graph.back, steps }
}
