//! This side's stages from the text on, with results as one number, as `rattle.rs` has them for the proved code: what the stage
//! counts, or bit 31 with a refusal's number << 16 and line.

use crate::edges::*;
use crate::groups::Groups;
use crate::reader::*;
use crate::unfolding::*;
use crate::verdict::*;
use crate::words::Words;
use crate::workload::*;
use std::hint::black_box;

/// The most edges that a workload has.
pub const MOST_EDGES: usize = 2 * MAX_PLACES * MAX_PLACES;

pub fn refused(number: u8, line: usize) -> u32 {
    1 << 31 | (number as u32) << 16 | line as u32
}

/// What the stages work in, lent by the caller and never cleared: who judges many texts makes it once.
pub struct Desk {
    workload: Workload,
    shape: Shape,
    unfoldings: Unfoldings,
    spots: Vec<Spot>,
    groups: Groups,
    room: Room,
    walk: [Step; MAX_STEPS],
    /// What the proved code's exports work in.
    pub words: Words,
}

impl Desk {
    pub fn new() -> Box<Desk> {
        Box::new(Desk {
            workload: Workload::empty(),
            shape: Shape::empty(),
            unfoldings: Unfoldings::empty(),
            spots: Vec::new(),
            groups: Groups::default(),
            room: Room::default(),
            walk: [EMPTY_STEP; MAX_STEPS],
            words: Words::new(),
        })
    }

    fn read(&mut self, text: &[u8]) -> Result<(), u32> {
        read_into(text, &mut self.workload).map_err(|refusal| refused(refusal.number, refusal.line))
    }

    fn unfold(&mut self, text: &[u8]) -> Result<(), u32> {
        self.read(text)?;
        if unfold_by(&self.workload, &mut self.shape, &mut self.unfoldings) { Ok(()) } else { Err(refused(22, 0)) }
    }

    fn place(&mut self, text: &[u8]) -> Result<(), u32> {
        self.unfold(text)?;
        spots_into(&self.workload, &self.unfoldings, &mut self.spots);
        Ok(())
    }
}

/// The answer of a stage that may have refused before its end.
fn told(answer: Result<u32, u32>) -> u32 {
    answer.unwrap_or_else(|refusal| refusal)
}

/// Lines read, with the values of the line in the middle, so that no side can leave the value unbuilt.
pub fn read_stage(text: &[u8], desk: &mut Desk, _: &mut [Edge]) -> u32 {
    told(desk.read(text).map(|()| middle(black_box(&desk.workload)) << 16 | desk.workload.count as u32))
}

fn middle(workload: &Workload) -> u32 {
    if workload.count == 0 {
        return 0;
    }
    let line = &workload.lines[workload.count / 2];
    let sets = line.reads % 4096 + line.writes % 4096 + line.tests % 4096;
    line.id as u32 + line.rel as u32 + line.to as u32 + sets as u32
}

/// Nodes and places.
pub fn unfold_stage(text: &[u8], desk: &mut Desk, _: &mut [Edge]) -> u32 {
    told(desk.unfold(text).map(|()| (black_box(&desk.unfoldings).nodes as u32) << 16 | desk.unfoldings.places as u32))
}

/// How many edges were put into the area.
pub fn edges_stage(text: &[u8], desk: &mut Desk, area: &mut [Edge]) -> u32 {
    told(desk.place(text).map(|()| {
        desk.groups.sort(&desk.unfoldings, &desk.spots);
        fill(&desk.unfoldings, &desk.spots, &desk.groups, area).map_or(refused(20, 0), |edges| edges as u32)
    }))
}

/// The number of edges, with bit 30 for danger.
pub fn verdict_stage(text: &[u8], desk: &mut Desk, _: &mut [Edge]) -> u32 {
    told(desk.place(text).map(|()| {
        let verdict = judge_in(&mut desk.room, desk.workload.programs(), &desk.unfoldings, &desk.spots, &mut desk.walk);
        ((verdict.steps > 0) as u32) << 30 | verdict.edges as u32
    }))
}
