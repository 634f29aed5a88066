//! The summary graph as the verdict asks for it: how many edges there are, and for each place words of nodes, bit n for node n.

use crate::edges::*;
use crate::groups::Groups;
use crate::unfolding::*;
use crate::workload::*;
use std::ops::Range;

/// What a graph is made from: places, numbered one node after the other, and the edges between them. Each back edge has a forward
/// twin between the same places and leaves a loose place, as the rules give it.
pub trait Places {
    /// A ks, ps, pu or pd: an edge that leaves it makes a dangerous pair with any back edge after it.
    fn is_loose(&self, place: usize) -> bool;
    /// Whether a forward and whether a back edge stands.
    fn stands(&self, p: usize, q: usize) -> (bool, bool);
    /// All edges, row by row in any order, rows without edges left out. `start`: where each node's places start, and where the last one's end.
    fn rows(&self, start: &[u16], mut take: impl FnMut(Row)) {
        let of = |node: usize| start[node] as usize..start[node + 1] as usize;
        for m in 0..start.len() - 1 {
            for n in 0..start.len() - 1 {
                for leaves in of(m) {
                    let mut row = Row { node: m, leaves, into: n, forward: 0, back: 0, last: 0 };
                    for q in of(n) {
                        let (forward, back) = self.stands(leaves, q);
                        row.forward += forward as usize;
                        row.back += back as usize;
                        row.last = if forward { q } else { row.last };
                    }
                    if row.forward > 0 {
                        take(row);
                    }
                }
            }
        }
    }
}

/// The edges from a place to the places of a node: how many there are, and the last place that a forward one enters.
pub struct Row {
    node: usize,
    leaves: usize,
    into: usize,
    forward: usize,
    back: usize,
    last: usize,
}

/// Words of nodes for each place, lent to a graph: one serves many.
#[derive(Default)]
pub struct Marks {
    forward: Vec<u64>,
    turned: Vec<u64>,
    openers: Vec<u64>,
    /// The nodes from which some row of edges enters this place last.
    entered: Vec<u64>,
}

pub struct Graph<'a, P: Places> {
    pub places: &'a P,
    pub nodes: usize,
    pub edges: usize,
    pub back: usize,
    /// Where each node's places start; after the last node, where they end.
    start: [u16; MAX_NODES + 1],
    /// The nodes that forward edges from this place enter, and those that back edges enter.
    pub forward: &'a [u64],
    pub turned: &'a [u64],
    /// The nodes from which a forward edge opens this place: it leaves a loose place, or enters a later place of this node. With a
    /// back edge that leaves here it is a dangerous pair.
    pub openers: &'a [u64],
}

impl<'a, P: Places> Graph<'a, P> {
    /// The graph of nodes with so many places each.
    pub fn of(places: &'a P, marks: &'a mut Marks, lengths: impl Iterator<Item = usize>) -> Graph<'a, P> {
        let mut graph = Graph { places, nodes: 0, edges: 0, back: 0, start: [0; MAX_NODES + 1], forward: &[], turned: &[], openers: &[] };
        for length in lengths {
            graph.start[graph.nodes + 1] = graph.start[graph.nodes] + length as u16;
            graph.nodes += 1;
        }
        marks.clear(graph.start[graph.nodes] as usize);
        graph.add_edges(marks);
        (graph.forward, graph.turned, graph.openers) = (&marks.forward, &marks.turned, &marks.openers);
        graph
    }

    pub fn places_of(&self, node: usize) -> Range<usize> {
        self.start[node] as usize..self.start[node + 1] as usize
    }

    pub fn all_nodes(&self) -> u64 {
        if self.nodes == 64 { u64::MAX } else { (1 << self.nodes) - 1 }
    }

    fn add_edges(&mut self, marks: &mut Marks) {
        // for each node: those from which a loose edge enters it
        let mut loose = [0u64; MAX_NODES];
        self.places.rows(&self.start[..=self.nodes], |row| {
            self.edges += row.forward + row.back;
            self.back += row.back;
            marks.forward[row.leaves] |= 1 << row.into;
            marks.turned[row.leaves] |= ((row.back > 0) as u64) << row.into;
            marks.entered[row.last] |= 1 << row.node;
            loose[row.into] |= (self.places.is_loose(row.leaves) as u64) << row.node;
        });
        for (n, loose) in loose.into_iter().enumerate().take(self.nodes) {
            let mut later = loose;
            for q in self.places_of(n).rev() {
                marks.openers[q] = later;
                later |= marks.entered[q];
            }
        }
    }
}

impl Marks {
    fn clear(&mut self, places: usize) {
        for words in [&mut self.forward, &mut self.turned, &mut self.openers, &mut self.entered] {
            words.clear();
            words.resize(places, 0);
        }
    }
}

// ---- the places of a workload

/// A place with the rules' tests on kinds turned into words, so that a pair of places takes a few operations; 64 bytes.
#[derive(Clone, Copy)]
struct Quick {
    rel: u8,
    place: u16,
    loose: bool,        // ks, ps, pu or pd
    select: bool,       // ks or ps
    asks: u8,           // bit 0: has tests; bit 1: is, kd or pd
    answers: u8,        // the same two, exchanged: places meet in bit 0 as E, in bit 1 as C
    near: u32,
    far: u32,
    leaves_writes: u64, // writes, unless a delete (A, B)
    enters_writes: u64, // writes, unless an insert (A, D)
    touched: u64,       // what A or B ask of the place entered
    writes: u64,
    reads: u64,
    tests: u64,
}

fn quick(place: u16, spot: &Spot) -> Quick {
    let (tested, existence) = (has_tests(spot.kind) as u8, matches!(spot.kind, IS | KD | PD) as u8);
    let enters_writes = if spot.kind == IS { 0 } else { spot.writes };
    Quick {
        rel: spot.rel,
        place,
        loose: matches!(spot.kind, KS | PS | PU | PD),
        select: matches!(spot.kind, KS | PS),
        asks: tested | existence << 1,
        answers: existence | tested << 1,
        near: spot.near,
        far: spot.far,
        leaves_writes: if is_delete(spot.kind) { 0 } else { spot.writes },
        enters_writes,
        touched: enters_writes | spot.reads,
        writes: spot.writes,
        reads: spot.reads,
        tests: spot.tests,
    }
}

/// Whether a forward and whether a back edge stands between two places over one relation. A back edge leaves a loose place.
#[inline(always)]
fn stands(p: &Quick, q: &Quick) -> (bool, bool) {
    let exists = p.asks & q.answers;
    let d = p.reads & q.enters_writes;
    let e = p.tests & q.writes;
    let forward = p.leaves_writes & q.touched | p.writes & q.tests | d | e | exists as u64 != 0;
    let back = p.loose && (e | (exists & 1) as u64 != 0) | (p.select & (d != 0) & (p.near & q.far == 0));
    (forward, back)
}

/// The edges from a place to some others over its relation: how many are forward and back, and where the last forward one ends.
#[inline(always)]
fn row(p: &Quick, far: &[Quick]) -> (usize, usize, usize) {
    let (mut forward, mut back, mut last) = (0, 0, 0);
    for (at, q) in far.iter().enumerate() {
        let (f, b) = stands(p, q);
        forward += f as usize;
        back += b as usize;
        last = if f { at } else { last };
    }
    (forward, back, last)
}

/// The places of a workload, in the order of their groups. One serves many texts.
#[derive(Default)]
pub struct QuickPlaces {
    groups: Groups,
    table: Vec<Quick>,
    /// Where each place stands in the table.
    at: Vec<u16>,
}

impl QuickPlaces {
    pub fn of(unfoldings: &Unfoldings, spots: &[Spot]) -> QuickPlaces {
        let mut places = QuickPlaces::default();
        places.take(unfoldings, spots);
        places
    }

    pub fn take(&mut self, unfoldings: &Unfoldings, spots: &[Spot]) {
        self.groups.sort(unfoldings, spots);
        self.table.clear();
        self.table.extend(self.groups.order.iter().zip(&self.groups.spots).map(|(&place, spot)| quick(place, spot)));
        self.at.resize(spots.len(), 0);
        for (at, &place) in self.groups.order.iter().enumerate() {
            self.at[place as usize] = at as u16;
        }
    }

    fn quick(&self, place: usize) -> &Quick {
        &self.table[self.at[place] as usize]
    }
}

impl Places for QuickPlaces {
    fn is_loose(&self, place: usize) -> bool {
        self.quick(place).loose
    }

    fn stands(&self, p: usize, q: usize) -> (bool, bool) {
        let (p, q) = (self.quick(p), self.quick(q));
        if p.rel == q.rel { stands(p, q) } else { (false, false) }
    }

    fn rows(&self, _: &[u16], mut take: impl FnMut(Row)) {
        for rel in 0..self.groups.relations {
            let runs = self.groups.runs(rel);
            for from in runs {
                for p in &self.table[from.range()] {
                    for to in runs {
                        let far = &self.table[to.range()];
                        let (forward, back, last) = row(p, far);
                        if forward > 0 {
                            let (node, leaves, into, last) = (from.node as usize, p.place as usize, to.node as usize, far[last].place as usize);
                            take(Row { node, leaves, into, forward, back, last });
                        }
                    }
                }
            }
        }
    }
}
