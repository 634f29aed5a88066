//! The edges of the summary graph (docs/MODEL.md, "Edges"; the shield as Req 02 changed it, kl as Req 03 says): the letters A to E
//! literally, and the list of records in order.

use crate::groups::Groups;
use crate::unfolding::*;
use crate::workload::*;

/// What the edge rules ask of one place: its statement and the keys by which it is shielded.
#[derive(Clone, Copy, PartialEq, Eq, Debug)]
pub struct Spot {
    pub kind: u8,
    pub rel: u8,
    pub reads: u64,
    pub writes: u64,
    pub tests: u64,
    /// Bit f: the place is linked by key f to a parent of kind is, ku, kd or kl that stands before it.
    pub near: u32,
    /// The same with the parent anywhere in the node, the place itself included.
    pub far: u32,
}

pub const EMPTY_SPOT: Spot = Spot { kind: IS, rel: 0, reads: 0, writes: 0, tests: 0, near: 0, far: 0 };

pub const NO_LETTER: u8 = 0;
pub const NO_ATTRIBUTE: u8 = 64;

/// An edge record, laid out as the proved implementation's, so that one list serves both and timings compare like with like.
#[derive(Clone, Copy, PartialEq, Eq, Debug)]
#[repr(C)]
pub struct Edge {
    pub node: u64,
    pub leaves: u64,
    pub into: u64,
    pub enters: u64,
    pub sharing: u32,
    pub lowest: u32,
    pub flow: u8,   // b'f' or b'b'
    pub letter: u8, // b'A' to b'E'
}

pub const EMPTY_EDGE: Edge = Edge { node: 0, leaves: 0, into: 0, enters: 0, sharing: 0, lowest: 0, flow: 0, letter: 0 };

// ---- the letters

pub fn writes_something(kind: u8) -> bool {
    matches!(kind, IS | KU | PU | KD | PD)
}

pub fn is_delete(kind: u8) -> bool {
    matches!(kind, KD | PD)
}

pub fn has_tests(kind: u8) -> bool {
    matches!(kind, PS | PU | PD)
}

fn changes_existence(kind: u8) -> bool {
    matches!(kind, IS | KD | PD)
}

/// The two sets that a letter compares, as their meeting.
#[inline(always)]
pub fn meeting(letter: u8, p: &Spot, q: &Spot) -> u64 {
    match letter {
        b'A' => p.writes & q.writes,
        b'B' => p.writes & q.reads,
        b'C' => p.writes & q.tests,
        b'D' => p.reads & q.writes,
        _ => p.tests & q.writes,
    }
}

/// Whether a letter holds between two places of one relation. A set that the kind lacks is 0.
#[inline(always)]
pub fn holds(letter: u8, p: &Spot, q: &Spot) -> bool {
    let meets = meeting(letter, p, q) != 0;
    match letter {
        b'A' => writes_something(p.kind) && writes_something(q.kind) && !is_delete(p.kind) && q.kind != IS && meets,
        b'B' => writes_something(p.kind) && !is_delete(p.kind) && meets,
        b'C' => has_tests(q.kind) && (changes_existence(p.kind) || meets),
        b'D' => writes_something(q.kind) && q.kind != IS && meets,
        _ => has_tests(p.kind) && (changes_existence(q.kind) || meets),
    }
}

/// The letter of a forward edge, or `NO_LETTER`.
pub fn forward_letter(p: &Spot, q: &Spot) -> u8 {
    if p.rel != q.rel {
        return NO_LETTER;
    }
    if holds(b'A', p, q) {
        b'A'
    } else if holds(b'B', p, q) {
        b'B'
    } else if holds(b'C', p, q) {
        b'C'
    } else if holds(b'D', p, q) {
        b'D'
    } else if holds(b'E', p, q) {
        b'E'
    } else {
        NO_LETTER
    }
}

/// The letter of a back edge, or `NO_LETTER`.
pub fn back_letter(p: &Spot, q: &Spot) -> u8 {
    if p.rel != q.rel {
        NO_LETTER
    } else if holds(b'E', p, q) {
        b'E'
    } else if matches!(p.kind, KS | PS) && holds(b'D', p, q) && p.near & q.far == 0 {
        b'D'
    } else {
        NO_LETTER
    }
}

// ---- the places with their shields

/// The spots of all places, in the order of the unfoldings.
pub fn spots(workload: &Workload, unfoldings: &Unfoldings) -> Vec<Spot> {
    let mut out = Vec::new();
    spots_into(workload, unfoldings, &mut out);
    out
}

/// The same into a list that is lent.
pub fn spots_into(workload: &Workload, unfoldings: &Unfoldings, out: &mut Vec<Spot>) {
    out.clear();
    let links = Links::of(workload);
    let mut twins = Twins { last: [NO_PLACE; MAX_STATEMENTS], before: [NO_PLACE; MAX_PLACES] };
    for (m, node) in unfoldings.all().iter().enumerate() {
        let (places, start) = (unfoldings.places_of(m), out.len());
        out.extend(places.iter().map(|place| {
            let &Line { kind, rel, reads, writes, tests, .. } = &workload.lines[place.line as usize];
            Spot { kind, rel, reads, writes, tests, near: 0, far: 0 }
        }));
        let links = &workload.lines[links.first[node.program as usize] as usize..links.end[node.program as usize] as usize];
        if !links.is_empty() {
            twins.chain(workload, places);
            links.iter().for_each(|link| shield(link, &twins, places, &mut out[start..]));
        }
    }
}

/// Where each program's links and first statements lie among the lines.
struct Links {
    first: [u16; MAX_PROGRAMS],
    end: [u16; MAX_PROGRAMS],
}

impl Links {
    fn of(workload: &Workload) -> Links {
        let mut links = Links { first: [0; MAX_PROGRAMS], end: [0; MAX_PROGRAMS] };
        let mut program = usize::MAX;
        for (at, line) in workload.taken().iter().enumerate() {
            match line.kind {
                PR => {
                    program = program.wrapping_add(1);
                    links.first[program] = at as u16 + 1;
                    links.end[program] = at as u16 + 1;
                }
                LI => links.end[program] = at as u16 + 1,
                _ if program != usize::MAX => {
                    links.first[program] = at as u16 + 1;
                    links.end[program] = at as u16 + 1;
                }
                _ => {}
            }
        }
        links
    }
}

const NO_PLACE: u16 = u16::MAX;

/// The places of each statement of a node, which are several in loops: the last one, and for each place the one before it.
struct Twins {
    last: [u16; MAX_STATEMENTS],
    before: [u16; MAX_PLACES],
}

impl Twins {
    fn chain(&mut self, workload: &Workload, places: &[Place]) {
        self.last = [NO_PLACE; MAX_STATEMENTS];
        for (at, place) in places.iter().enumerate() {
            let last = &mut self.last[workload.lines[place.line as usize].id as usize];
            self.before[at] = *last;
            *last = at as u16;
        }
    }

    fn of(&self, id: u8) -> impl Iterator<Item = usize> + '_ {
        let place = |at: u16| if at == NO_PLACE { None } else { Some(at as usize) };
        std::iter::successors(place(self.last[id as usize]), move |&at| place(self.before[at]))
    }
}

/// A link gives its key to each place of its child with a writing or locking parent, within the turn of each loop around the parent: one before it,
/// and one anywhere in the node.
fn shield(link: &Line, twins: &Twins, places: &[Place], spots: &mut [Spot]) {
    for parent in twins.of(link.to) {
        if !matches!(spots[parent].kind, IS | KU | KD | KL) {
            return;
        }
        let Place { turns, loops, .. } = places[parent];
        let mask = ((1u16 << loops) - 1) as u8;
        for child in twins.of(link.rel).filter(|&child| places[child].turns & mask == turns) {
            spots[child].near |= ((parent < child) as u32) << link.id;
            spots[child].far |= 1 << link.id;
        }
    }
}

// ---- the list of records

/// How many edges of both flows there are, and how many are back.
pub fn count(unfoldings: &Unfoldings, spots: &[Spot]) -> (usize, usize) {
    let places = &spots[..unfoldings.places];
    let (mut edges, mut back) = (0, 0);
    for p in places {
        for q in places {
            let turned = (back_letter(p, q) != NO_LETTER) as usize;
            edges += (forward_letter(p, q) != NO_LETTER) as usize + turned;
            back += turned;
        }
    }
    (edges, back)
}

/// Puts the edges into `out`, ordered by node and place left, node and place entered, forward first; gives their
/// number, or nothing (and `out` untouched) where `out` is too short.
pub fn fill(unfoldings: &Unfoldings, spots: &[Spot], groups: &Groups, out: &mut [Edge]) -> Option<usize> {
    if out.len() < 2 * unfoldings.places * unfoldings.places && out.len() < count(unfoldings, spots).0 {
        return None;
    }
    let mut filled = 0;
    for (m, from) in unfoldings.all().iter().enumerate() {
        for i in 0..from.length {
            let p = &spots[(from.start + i) as usize];
            for run in groups.runs(p.rel as usize) {
                let start = unfoldings.node[run.node as usize].start;
                for (q, place) in groups.spots[run.range()].iter().zip(&groups.order[run.range()]) {
                    let ends = Edge { node: m as u64, leaves: i as u64, into: run.node as u64, enters: (place - start) as u64, ..EMPTY_EDGE };
                    filled += put(p, q, ends, &mut out[filled..]);
                }
            }
        }
    }
    Some(filled)
}

/// The same as a list of their own.
pub fn list(unfoldings: &Unfoldings, spots: &[Spot]) -> Vec<Edge> {
    let mut edges = vec![EMPTY_EDGE; count(unfoldings, spots).0];
    fill(unfoldings, spots, &Groups::of(unfoldings, spots), &mut edges).expect("as long as the count");
    edges
}

/// The forward and the back edge between two places, as far as they stand.
fn put(p: &Spot, q: &Spot, ends: Edge, out: &mut [Edge]) -> usize {
    let mut filled = 0;
    let forward = forward_letter(p, q);
    if forward != NO_LETTER {
        out[filled] = record(p, q, ends, b'f', forward);
        filled += 1;
    }
    let back = back_letter(p, q);
    if back != NO_LETTER {
        out[filled] = record(p, q, ends, b'b', back);
        filled += 1;
    }
    filled
}

fn record(p: &Spot, q: &Spot, ends: Edge, flow: u8, letter: u8) -> Edge {
    let shared = meeting(letter, p, q);
    Edge { flow, letter, sharing: shared.count_ones(), lowest: shared.trailing_zeros(), ..ends }
}
