//! The first dangerous walk (Req 01), fast: fewest steps, then the smallest list of node, place left, place entered and
//! flow, forward before back; the list may begin anywhere on the walk. `plain_walk` finds it by the definition alone.
//!
//! Why it has one back step: take a dangerous pair e, c of any dangerous walk and put the forward twin of every other back step
//! in its place. The pair stays dangerous (a back e leaves a loose place, and so does its twin), there is a forward step, since one
//! step cannot have both flows, and no step's key has grown. So the first walk is a forward e from u, a back c that it opens, into w,
//! and forward steps from w to u; the fewest are two more than the least distance from w to u. A list of steps tells its edges (a step
//! enters the node that the next one names), so the smallest list is found step by step: the least place left, place
//! entered and flow, then the least node entered, from which the walk can still be closed in the steps that are left.

use crate::graph::*;
use crate::unfolding::MAX_NODES;
use crate::verdict::{Step, MAX_STEPS};

/// Words of nodes by how many steps are left.
type Layers = [u64; MAX_STEPS + 1];

/// The first walk among the nodes that count, in the whole graph's numbers; its steps, or 0 where there is none.
pub fn first_walk<P: Places>(graph: &Graph<P>, counted: u64, walk: &mut [Step; MAX_STEPS]) -> usize {
    let part = Part::of(graph, counted & graph.all_nodes());
    let closers = part.closers();
    let Some(distance) = part.shortest(&closers) else { return 0 };
    let start = part.least_start(&closers, distance);
    let steps = distance + 2;
    Ways::of(&part, start, steps).write(&mut walk[..steps]);
    steps
}

/// The numbers of a word's bits.
pub fn bits(mut word: u64) -> impl Iterator<Item = usize> {
    std::iter::from_fn(move || {
        let bit = word.trailing_zeros() as usize;
        word &= word.wrapping_sub(1);
        if bit < 64 { Some(bit) } else { None }
    })
}

fn union(rows: &[u64; MAX_NODES], of: u64) -> u64 {
    bits(of).fold(0, |all, node| all | rows[node])
}

// ---- how many steps, and where to begin

/// The graph on the nodes that count: forward edges by the node left and by the node entered.
struct Part<'a, P: Places> {
    graph: &'a Graph<'a, P>,
    counted: u64,
    to: [u64; MAX_NODES],
    from: [u64; MAX_NODES],
}

impl<'a, P: Places> Part<'a, P> {
    fn of(graph: &'a Graph<'a, P>, counted: u64) -> Part<'a, P> {
        let mut part = Part { graph, counted, to: [0; MAX_NODES], from: [0; MAX_NODES] };
        for m in bits(counted) {
            part.to[m] = graph.places_of(m).fold(0, |all, p| all | graph.forward[p]) & counted;
            bits(part.to[m]).for_each(|n| part.from[n] |= 1 << m);
        }
        part
    }

    /// For each back edge from v into w that leaves v first: v, w and the nodes from which an edge opens it. Fewer open a later one.
    fn each_turn(&self, mut take: impl FnMut(usize, usize, u64)) {
        for v in bits(self.counted) {
            let mut left = self.counted;
            for p in self.graph.places_of(v) {
                bits(self.graph.turned[p] & left).for_each(|w| take(v, w, self.graph.openers[p] & self.counted));
                left &= !self.graph.turned[p];
            }
        }
    }

    /// For each w: the nodes from which the two steps of a dangerous pair lead into w.
    fn closers(&self) -> [u64; MAX_NODES] {
        let mut closers = [0; MAX_NODES];
        self.each_turn(|_, w, openers| closers[w] |= openers);
        closers
    }

    /// The least distance from any w to one of its closers.
    fn shortest(&self, closers: &[u64; MAX_NODES]) -> Option<usize> {
        let mut best = usize::MAX;
        for w in bits(self.counted).filter(|&w| closers[w] != 0) {
            let (mut layer, mut seen, mut distance) = (1 << w, 1 << w, 0);
            while layer != 0 && distance < best {
                if layer & closers[w] != 0 {
                    best = distance;
                }
                layer = union(&self.to, layer) & !seen;
                seen |= layer;
                distance += 1;
            }
        }
        if best == usize::MAX { None } else { Some(best) }
    }

    /// The least node on a dangerous walk with the fewest steps: a node v of a pair, or one on the way from w to a closer.
    fn least_start(&self, closers: &[u64; MAX_NODES], distance: usize) -> usize {
        let mut ends = [0; MAX_NODES];
        let mut found = 0;
        for w in bits(self.counted).filter(|&w| closers[w] != 0) {
            let mut layers = [0; MAX_NODES];
            let mut seen = 1 << w;
            layers[0] = seen;
            for at in 0..distance {
                layers[at + 1] = union(&self.to, layers[at]) & !seen;
                seen |= layers[at + 1];
            }
            ends[w] = layers[distance] & closers[w];
            let mut on_the_way = ends[w];
            found |= on_the_way;
            for at in (0..distance).rev() {
                on_the_way = layers[at] & union(&self.from, on_the_way);
                found |= on_the_way;
            }
        }
        self.each_turn(|v, w, openers| found |= ((openers & ends[w] != 0) as u64) << v);
        found.trailing_zeros() as usize
    }
}

// ---- step by step

/// Which ways lead to the start in exactly so many steps.
struct Ways<'a, P: Places> {
    part: &'a Part<'a, P>,
    start: usize,
    steps: usize,
    /// By forward steps alone.
    home: Layers,
    /// By forward steps and one back step, the pair e, c among them.
    pair: Layers,
    /// Where the first step is back: the place that it leaves, which the last step has to open.
    owed: Option<usize>,
}

/// What came before a step.
#[derive(Clone, Copy)]
enum Before {
    Nothing,
    /// A forward edge that left a loose place or not, and the place that it entered, counted in the node; no back edge yet.
    Forward { loose: bool, entered: usize },
    /// The back edge, at once or before.
    Back,
}

/// An edge to go on with: place left and entered, counted in their nodes, flow, node entered.
#[derive(Clone, Copy)]
struct Choice {
    leaves: usize,
    enters: usize,
    back: bool,
    into: usize,
}

impl<'a, P: Places> Ways<'a, P> {
    fn of(part: &'a Part<'a, P>, start: usize, steps: usize) -> Ways<'a, P> {
        let mut ways = Ways { part, start, steps, home: [0; MAX_STEPS + 1], pair: [0; MAX_STEPS + 1], owed: None };
        ways.home[0] = 1 << start;
        for left in 1..=steps {
            ways.home[left] = union(&part.from, ways.home[left - 1]);
        }
        for left in 2..=steps {
            ways.pair[left] = union(&part.from, ways.pair[left - 1]);
            for node in bits(part.counted) {
                if let Some(turn) = ways.first_turn(node, left - 1) {
                    ways.pair[left] |= part.graph.openers[turn] & part.counted;
                }
            }
        }
        ways
    }

    /// The first place of a node at which a back edge leaves it from whose end the start is so many steps away, less this one.
    fn first_turn(&self, node: usize, left: usize) -> Option<usize> {
        if left == 0 {
            return None;
        }
        self.part.graph.places_of(node).find(|&p| self.part.graph.turned[p] & self.home[left - 1] != 0)
    }

    /// The ways home of a walk that begins with a back edge: its last step has to open it, so it leaves one of these nodes.
    fn opening_ways(&self, openers: u64) -> Layers {
        let mut layers = [0; MAX_STEPS + 1];
        layers[0] = 1 << self.start;
        layers[1] = openers;
        for left in 2..self.steps {
            layers[left] = union(&self.part.from, layers[left - 1]);
        }
        layers
    }

    fn write(&mut self, walk: &mut [Step]) {
        let (mut node, mut before) = (self.start, Before::Nothing);
        for at in 0..self.steps {
            let left = self.steps - at - 1;
            let choice = match before {
                Before::Nothing => self.first_choice(left),
                _ => self.choice(node, left, before),
            };
            let Choice { leaves, enters, back, into } = choice;
            let flow = if back { b'b' } else { b'f' };
            walk[at] = Step { node: node as u8, leaves: leaves as u16, enters: enters as u16, flow };
            before = match before {
                Before::Back => Before::Back,
                _ if back => Before::Back,
                _ => Before::Forward { loose: self.is_loose(node, leaves), entered: enters },
            };
            node = into;
        }
    }

    fn is_loose(&self, node: usize, leaves: usize) -> bool {
        self.part.graph.places.is_loose(self.part.graph.places_of(node).start + leaves)
    }

    /// The first step. Where it is back, the ways home are from now on those whose last step opens it.
    fn first_choice(&mut self, left: usize) -> Choice {
        let graph = self.part.graph;
        // the ways hang on the openers alone, which many places share
        let (mut openers, mut opening) = (0, [0; MAX_STEPS + 1]);
        for (leaves, p) in graph.places_of(self.start).enumerate() {
            if graph.turned[p] != 0 && graph.openers[p] & self.part.counted != openers {
                openers = graph.openers[p] & self.part.counted;
                opening = self.opening_ways(openers);
            }
            let back = graph.turned[p] & opening[left];
            if let Some(choice) = self.choice_at(p, leaves, left, Before::Nothing, back) {
                if choice.back {
                    (self.home, self.owed) = (opening, Some(leaves));
                }
                return choice;
            }
        }
        unreachable!("a dangerous walk begins at the start")
    }

    fn choice(&self, node: usize, left: usize, before: Before) -> Choice {
        let graph = self.part.graph;
        for (leaves, p) in graph.places_of(node).enumerate() {
            let opened = match before {
                Before::Forward { loose, entered } => loose || leaves < entered,
                _ => false,
            };
            let back = if opened { graph.turned[p] & self.home[left] } else { 0 };
            if let Some(choice) = self.choice_at(p, leaves, left, before, back) {
                return choice;
            }
        }
        unreachable!("the step before was chosen so that the walk can be closed")
    }

    /// The least edge that leaves this place and after which the walk can be closed; back edges into these nodes are such.
    fn choice_at(&self, p: usize, leaves: usize, left: usize, before: Before, back: u64) -> Option<Choice> {
        let mut best: Option<Choice> = None;
        let mut take = |enters: Option<usize>, back: bool, into: usize| {
            if let Some(enters) = enters {
                if best.is_none_or(|other| (enters, back, into) < (other.enters, other.back, other.into)) {
                    best = Some(Choice { leaves, enters, back, into });
                }
            }
        };
        let graph = self.part.graph;
        let entered = |into: usize, from: usize, stands: &dyn Fn(usize) -> bool| {
            let places = graph.places_of(into);
            (from..places.len()).find(|enters| stands(places.start + enters))
        };
        for into in bits(graph.forward[p] & self.part.counted) {
            if let Some(from) = self.entered_from(p, into, left, before) {
                take(entered(into, from, &|q| graph.places.stands(p, q).0), false, into);
            }
        }
        for into in bits(back) {
            take(entered(into, 0, &|q| graph.places.stands(p, q).1), true, into);
        }
        best
    }

    /// From which place of this node on a forward edge that leaves p may enter it, so that the walk can be closed.
    fn entered_from(&self, p: usize, into: usize, left: usize, before: Before) -> Option<usize> {
        let within = |layers: &Layers| layers[left] >> into & 1 == 1;
        let opened = match before {
            Before::Back if !within(&self.home) => return None,
            Before::Back if left == 0 => self.owed,
            Before::Back => None,
            _ if within(&self.pair) => None,
            _ => Some(self.first_turn(into, left)? - self.part.graph.places_of(into).start),
        };
        let loose = self.part.graph.places.is_loose(p);
        Some(if loose { 0 } else { opened.map_or(0, |place| place + 1) })
    }
}
