//! Part of a workload (Req 06): the programs that a word chooses, as lines and as a text; the nodes without those that take an arm; and
//! what becomes of nodes, edges and walks where nodes are taken out of a graph.

use crate::edges::Edge;
use crate::first_walk::bits;
use crate::lines::text_of;
use crate::unfolding::*;
use crate::verdict::Step;
use crate::workload::*;

// ---- some of the programs

/// The lines of each program, its `pr` first.
pub fn programs_of(lines: &[Line]) -> impl Iterator<Item = &[Line]> {
    lines.chunk_by(|_, next| next.kind != PR).filter(|run| run[0].kind == PR)
}

/// The word of all programs.
pub fn all_programs(lines: &[Line]) -> u16 {
    programs_of(lines).fold(0, |word, program| word | 1 << program[0].id)
}

/// Relations and keys, then the programs whose bits stand in the word, in order and numbered anew. Nothing else of a program names a program, so its
/// other lines stay as they are.
pub fn part_lines(lines: &[Line], group: u16) -> Vec<Line> {
    let mut part: Vec<Line> = lines.iter().copied().take_while(|line| line.kind != PR).collect();
    let chosen = programs_of(lines).filter(|program| group >> program[0].id & 1 == 1);
    for (number, program) in chosen.enumerate() {
        part.push(Line { id: number as u8, ..program[0] });
        part.extend_from_slice(&program[1..]);
    }
    part
}

pub fn part_text(lines: &[Line], group: u16) -> Vec<u8> {
    text_of(&part_lines(lines, group))
}

/// The nodes of the chosen programs, as a word.
pub fn nodes_of_group(unfoldings: &Unfoldings, group: u16) -> u64 {
    word_of(unfoldings.all(), |node| group >> node.program & 1 == 1)
}

// ---- without an arm

/// An arm of a branch, by the program and the place of its `br` in it, from 0 after `pr`.
#[derive(Clone, Copy, PartialEq, Eq, Debug)]
pub struct Arm {
    pub program: usize,
    pub place: usize,
    pub second: bool,
}

/// The arms that an unfolding takes in at least one turn: a word for first and one for second arms, bit k for the branch at place k.
type Arms = [u64; 2];

/// An unfolding's program, and what it takes there. Places alone would not tell: an arm may be empty, and two arms may be equal.
#[derive(Clone, Copy, PartialEq, Eq, Debug)]
pub struct Taken {
    program: usize,
    arms: Arms,
}

impl Taken {
    pub fn takes(&self, arm: &Arm) -> bool {
        self.program == arm.program && self.arms[arm.second as usize] >> arm.place & 1 == 1
    }
}

/// Each branch's two arms, in the order of the text.
pub fn arms_of(lines: &[Line]) -> Vec<Arm> {
    let places = |own: &[Line]| (0..own.len()).filter(|&place| own[place].kind == BR).collect::<Vec<_>>();
    let branches = programs_of(lines).enumerate().flat_map(|(program, run)| places(&run[1..]).into_iter().map(move |place| (program, place)));
    branches.flat_map(|(program, place)| [false, true].map(|second| Arm { program, place, second })).collect()
}

/// What each node takes, in the order of the nodes; of a workload that 22 does not refuse.
pub fn taken_by_nodes(lines: &[Line]) -> Vec<Taken> {
    let runs = programs_of(lines).enumerate();
    runs.flat_map(|(program, run)| taken_by_run(&run[1..], &mut 0).into_iter().map(move |arms| Taken { program, arms })).collect()
}

/// For each unfolding of the run that goes on at `at`; that is moved past the line that ends the run.
fn taken_by_run(own: &[Line], at: &mut usize) -> Vec<Arms> {
    let mut all = vec![[0, 0]];
    while *at < own.len() && !matches!(own[*at].kind, EL | EN | LI) {
        let place = *at;
        *at += 1;
        let item = match own[place].kind {
            LO => taken_by_turns(taken_by_run(own, at)),
            BR => {
                let first = with_arm([1 << place, 0], taken_by_run(own, at));
                [first, with_arm([0, 1 << place], taken_by_run(own, at))].concat()
            }
            _ => continue,
        };
        all = one_after_the_other(&all, &item);
    }
    *at += 1;
    all
}

/// No turn, one, two.
fn taken_by_turns(turn: Vec<Arms>) -> Vec<Arms> {
    let twice = one_after_the_other(&turn, &turn);
    [vec![[0, 0]], turn, twice].concat()
}

fn with_arm(arm: Arms, run: Vec<Arms>) -> Vec<Arms> {
    one_after_the_other(&[arm], &run)
}

fn one_after_the_other(first: &[Arms], then: &[Arms]) -> Vec<Arms> {
    first.iter().flat_map(|a| then.iter().map(move |b| [a[0] | b[0], a[1] | b[1]])).collect()
}

/// The nodes that do not take the arm, as a word.
pub fn nodes_without(nodes: &[Taken], arm: &Arm) -> u64 {
    word_of(nodes, |node| !node.takes(arm))
}

// ---- what is left of a graph

fn word_of<T>(nodes: &[T], stays: impl Fn(&T) -> bool) -> u64 {
    nodes.iter().enumerate().fold(0, |word, (number, node)| word | (stays(node) as u64) << number)
}

/// The unfoldings that are kept, as the nodes of a graph of their own.
pub fn kept_unfoldings(whole: &Unfoldings, kept: u64) -> Unfoldings {
    let mut part = Unfoldings::empty();
    for node in bits(kept) {
        let places = whole.places_of(node);
        part.node[part.nodes] = Node { start: part.places as u16, ..whole.node[node] };
        part.place[part.places..][..places.len()].copy_from_slice(places);
        part.nodes += 1;
        part.places += places.len();
    }
    part
}

/// The edges between nodes that are kept, by their numbers among these.
pub fn kept_edges(edges: &[Edge], kept: u64) -> Vec<Edge> {
    let stays = |node: u64| kept >> node & 1 == 1;
    let number = |node: u64| (kept & ((1 << node) - 1)).count_ones() as u64;
    let between = edges.iter().filter(|edge| stays(edge.node) && stays(edge.into));
    between.map(|edge| Edge { node: number(edge.node), into: number(edge.into), ..*edge }).collect()
}

/// A walk over the nodes that are kept, in the whole graph's numbers.
pub fn in_whole_numbers(walk: &[Step], kept: u64) -> Vec<Step> {
    let nodes: Vec<usize> = bits(kept).collect();
    walk.iter().map(|step| Step { node: nodes[step.node as usize] as u8, ..*step }).collect()
}
