//! Unfoldings, the nodes of the graph (docs/MODEL.md, "Unfoldings"): counted first, then written one after the other.
//!
//! How many unfoldings a run has from a line on is kept for each line; number k of a run is then found by
//! division, leftmost choice first, so that nothing is listed twice and nothing is allocated.

use crate::workload::*;

pub const MAX_NODES: usize = 64;
pub const MAX_PLACES: usize = 512;

/// One place of an unfolding: the line of its statement, its turn in each loop around it (bit i: the i-th
/// outermost loop, turn 0 or 1), and how many loops are around it.
#[derive(Clone, Copy, PartialEq, Eq, Debug)]
pub struct Place {
    pub line: u16,
    pub turns: u8,
    pub loops: u8,
}

#[derive(Clone, Copy, PartialEq, Eq, Debug)]
pub struct Node {
    pub program: u8,
    pub start: u16,
    pub length: u16,
}

/// All unfoldings: nodes in order, their places one after the other.
pub struct Unfoldings {
    pub nodes: usize,
    pub node: [Node; MAX_NODES],
    pub places: usize,
    pub place: [Place; MAX_PLACES],
}

impl Unfoldings {
    pub fn empty() -> Unfoldings {
        Unfoldings {
            nodes: 0,
            node: [Node { program: 0, start: 0, length: 0 }; MAX_NODES],
            places: 0,
            place: [Place { line: 0, turns: 0, loops: 0 }; MAX_PLACES],
        }
    }

    pub fn all(&self) -> &[Node] {
        &self.node[..self.nodes]
    }

    pub fn places_of(&self, node: usize) -> &[Place] {
        let node = &self.node[node];
        &self.place[node.start as usize..][..node.length as usize]
    }
}

/// Counts stop here: far above every bound, and products of two still fit.
const CAP: u64 = 1 << 31;

/// How many unfoldings, and how many statements in all of them together.
#[derive(Clone, Copy)]
struct Count {
    unfoldings: u64,
    statements: u64,
}

const ONE: Count = Count { unfoldings: 1, statements: 0 };

fn capped(unfoldings: u64, statements: u64) -> Count {
    Count { unfoldings: unfoldings.min(CAP), statements: statements.min(CAP) }
}

fn either(a: Count, b: Count) -> Count {
    capped(a.unfoldings + b.unfoldings, a.statements + b.statements)
}

fn one_after_the_other(a: Count, b: Count) -> Count {
    capped(a.unfoldings * b.unfoldings, a.statements * b.unfoldings + b.statements * a.unfoldings)
}

/// For each line: the count of its run from it on; for a block's opener and for `el`, the line of the partner. Only what stands at the lines that
/// are there is looked at, so that one shape serves many workloads and is never cleared.
pub struct Shape {
    rest: [Count; MAX_LINES + 1],
    partner: [u16; MAX_LINES],
}

impl Shape {
    pub fn empty() -> Shape {
        Shape { rest: [ONE; MAX_LINES + 1], partner: [0; MAX_LINES] }
    }
}

/// The unfoldings, or nothing where there are over 64 or over 512 statements in them (refusal 22).
pub fn unfold(workload: &Workload, out: &mut Unfoldings) -> bool {
    unfold_by(workload, &mut Shape::empty(), out)
}

/// The same with a shape that is lent.
pub fn unfold_by(workload: &Workload, shape: &mut Shape, out: &mut Unfoldings) -> bool {
    out.nodes = 0;
    out.places = 0;
    let total = measure(workload.taken(), shape);
    if total.unfoldings > MAX_NODES as u64 || total.statements > MAX_PLACES as u64 {
        return false;
    }
    let mut program = 0;
    for (at, line) in workload.taken().iter().enumerate() {
        if line.kind == PR {
            for k in 0..shape.rest[at + 1].unfoldings {
                write_node(workload.taken(), shape, program, at + 1, k, out);
            }
            program += 1;
        }
    }
    true
}

/// A program's pr among the lines, how many unfoldings it has and how many statements stand in them, both stopped at 2^31.
pub struct ProgramCounts {
    pub begins: usize,
    pub unfoldings: u64,
    pub statements: u64,
}

/// The counts of each program, also where they are too many to be unfolded.
pub fn counts_by_program(workload: &Workload) -> Vec<ProgramCounts> {
    let mut shape = Shape::empty();
    measure(workload.taken(), &mut shape);
    let begins = (0..workload.count).filter(|&at| workload.lines[at].kind == PR);
    begins
        .map(|begins| {
            let Count { unfoldings, statements } = shape.rest[begins + 1];
            ProgramCounts { begins, unfoldings, statements }
        })
        .collect()
}

/// Counts from the last line to the first, each program's blocks from the inside out.
fn measure(lines: &[Line], shape: &mut Shape) -> Count {
    let mut total = Count { unfoldings: 0, statements: 0 };
    let mut open = [0usize; 2 * MAX_DEPTH];
    let mut depth = 0;
    shape.rest[lines.len()] = ONE;
    for at in (0..lines.len()).rev() {
        let after = shape.rest[at + 1];
        shape.rest[at] = match lines[at].kind {
            EN | EL => {
                open[depth] = at;
                depth += 1;
                ONE
            }
            LO => {
                depth -= 1;
                let end = open[depth];
                shape.partner[at] = end as u16;
                let twice = one_after_the_other(after, after);
                one_after_the_other(either(ONE, either(after, twice)), shape.rest[end + 1])
            }
            BR => {
                depth -= 2;
                let (end, middle) = (open[depth], open[depth + 1]);
                shape.partner[at] = middle as u16;
                shape.partner[middle] = end as u16;
                one_after_the_other(either(after, shape.rest[middle + 1]), shape.rest[end + 1])
            }
            PR => {
                total = either(total, after);
                ONE
            }
            kind if is_statement(kind) => one_after_the_other(Count { unfoldings: 1, statements: 1 }, after),
            _ => ONE,
        };
    }
    total
}

fn write_node(lines: &[Line], shape: &Shape, program: u8, from: usize, k: u64, out: &mut Unfoldings) {
    let start = out.places;
    write_run(lines, shape, from, k, 0, 0, out);
    out.node[out.nodes] = Node { program, start: start as u16, length: (out.places - start) as u16 };
    out.nodes += 1;
}

/// Unfolding number k of the run that goes on at line `at`: the first item's choice changes slowest.
fn write_run(lines: &[Line], shape: &Shape, at: usize, k: u64, turns: u8, loops: u8, out: &mut Unfoldings) {
    let (mut at, mut k) = (at, k);
    while at < lines.len() {
        let kind = lines[at].kind;
        if is_statement(kind) {
            out.place[out.places] = Place { line: at as u16, turns, loops };
            out.places += 1;
            at += 1;
        } else if kind == LO || kind == BR {
            let end = end_of(shape, kind, at);
            let after = shape.rest[end + 1].unfoldings;
            if kind == LO {
                write_loop(lines, shape, at + 1, k / after, turns, loops, out);
            } else {
                write_branch(lines, shape, at, k / after, turns, loops, out);
            }
            k %= after;
            at = end + 1;
        } else {
            return;
        }
    }
}

fn end_of(shape: &Shape, kind: u8, at: usize) -> usize {
    let partner = shape.partner[at] as usize;
    if kind == LO { partner } else { shape.partner[partner] as usize }
}

fn write_loop(lines: &[Line], shape: &Shape, body: usize, k: u64, turns: u8, loops: u8, out: &mut Unfoldings) {
    let each = shape.rest[body].unfoldings;
    let second = turns | 1 << loops;
    if k == 0 {
        return;
    }
    if k <= each {
        write_run(lines, shape, body, k - 1, turns, loops + 1, out);
    } else {
        let k = k - 1 - each;
        write_run(lines, shape, body, k / each, turns, loops + 1, out);
        write_run(lines, shape, body, k % each, second, loops + 1, out);
    }
}

fn write_branch(lines: &[Line], shape: &Shape, at: usize, k: u64, turns: u8, loops: u8, out: &mut Unfoldings) {
    let first = shape.rest[at + 1].unfoldings;
    if k < first {
        write_run(lines, shape, at + 1, k, turns, loops, out);
    } else {
        write_run(lines, shape, shape.partner[at] as usize + 1, k - first, turns, loops, out);
    }
}
