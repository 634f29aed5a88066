//! The first dangerous walk by the definition alone, slowly, in two ways: all step lists in order, by increasing length; and, for
//! longer walks, by asking of each edge and each number of steps left whether the walk can still be closed. Neither knows anything of
//! where back steps may stand. `first_walk` is the fast one.

use crate::verdict::Step;

/// An edge of any graph, with what the rules on walks ask of it. Ordered by its fields: as steps are, and then by the node entered, which
/// is the first thing that the next step tells. So lists of edges come in the order of their lists of steps.
#[derive(Clone, Copy, PartialEq, Eq, PartialOrd, Ord, Debug)]
pub struct PlainEdge {
    pub node: usize,
    pub leaves: usize,
    pub enters: usize,
    pub back: bool,
    pub into: usize,
    /// It leaves a ks, ps, pu or pd.
    pub loose: bool,
}

impl PlainEdge {
    pub fn step(&self) -> Step {
        let flow = if self.back { b'b' } else { b'f' };
        Step { node: self.node as u8, leaves: self.leaves as u16, enters: self.enters as u16, flow }
    }
}

/// Whether e and then c are a dangerous pair.
pub fn is_pair(e: &PlainEdge, c: &PlainEdge) -> bool {
    c.back && (e.back || c.leaves < e.enters || e.loose)
}

/// Whether a list of edges, each leaving the node that the one before enters, is a dangerous walk.
fn is_dangerous(walk: &[PlainEdge]) -> bool {
    let next = |at: usize| &walk[(at + 1) % walk.len()];
    let closed = (0..walk.len()).all(|at| walk[at].into == next(at).node);
    closed && walk.iter().any(|edge| !edge.back) && (0..walk.len()).any(|at| is_pair(&walk[at], next(at)))
}

// ---- all lists in order

/// A search over all lists of so many edges, as they come in order.
struct Lists<'a> {
    edges: &'a [PlainEdge],
    /// Between any two nodes the fewest edges.
    distance: [[usize; 64]; 64],
    /// How many lists may still be begun.
    budget: usize,
}

/// What a search found: the walk's edges, none, or that there were too many lists.
pub enum Found {
    Walk(Vec<PlainEdge>),
    Nothing,
    GivenUp,
}

/// The first dangerous walk of at most so many steps among sorted edges. The one thing left out are lists that cannot come back to
/// where they began in the steps that are left.
pub fn first_by_lists(edges: &[PlainEdge], most: usize, budget: usize) -> Found {
    let mut lists = Lists { edges, distance: distances(edges), budget };
    for steps in 1..=most {
        let mut walk = Vec::new();
        if lists.extend(&mut walk, steps) {
            return Found::Walk(walk);
        }
        if lists.budget == 0 {
            return Found::GivenUp;
        }
    }
    Found::Nothing
}

impl Lists<'_> {
    /// Whether the list can be made a dangerous walk by so many edges more; if so it is the first such.
    fn extend(&mut self, walk: &mut Vec<PlainEdge>, left: usize) -> bool {
        if left == 0 {
            return is_dangerous(walk);
        }
        for at in 0..self.edges.len() {
            let edge = self.edges[at];
            let follows = walk.last().is_none_or(|last| last.into == edge.node);
            let home = walk.first().map_or(edge.node, |first| first.node);
            if self.budget == 0 || !follows || self.distance[edge.into][home] > left - 1 {
                continue;
            }
            self.budget -= 1;
            walk.push(edge);
            if self.extend(walk, left - 1) {
                return true;
            }
            walk.pop();
        }
        false
    }
}

fn distances(edges: &[PlainEdge]) -> [[usize; 64]; 64] {
    let mut distance = [[1000; 64]; 64];
    edges.iter().for_each(|edge| distance[edge.node][edge.into] = 1);
    for via in 0..64 {
        for from in 0..64 {
            for to in 0..64 {
                distance[from][to] = distance[from][to].min(distance[from][via] + distance[via][to]);
            }
        }
    }
    (0..64).for_each(|node| distance[node][node] = 0);
    distance
}

// ---- by what can still be closed

/// What a list has: bit 0 a forward edge, bit 1 a dangerous pair.
type Has = usize;

/// For a first edge: in closes[left][k] bit h says that a list which ends with edge k and has h can be made a dangerous walk by so
/// many edges more.
type Closes = Vec<Vec<u8>>;

/// The first dangerous walk of at most so many steps among sorted edges.
pub fn first_by_states(edges: &[PlainEdge], most: usize) -> Option<Vec<PlainEdge>> {
    let after: Vec<Vec<usize>> = edges.iter().map(|e| (0..edges.len()).filter(|&k| edges[k].node == e.into).collect()).collect();
    let mut best: Option<(usize, usize, Closes)> = None;
    for first in 0..edges.len() {
        // a later first edge is of use only with fewer steps
        let most = best.as_ref().map_or(most, |(steps, _, _)| steps - 1);
        if let Some((steps, closes)) = fewest(edges, &after, first, most) {
            best = Some((steps, first, closes));
        }
    }
    let (steps, first, closes) = best?;
    let (mut walk, mut has) = (vec![first], !edges[first].back as Has);
    for left in (0..steps - 1).rev() {
        let last = *walk.last().expect("it has its first");
        let closing = |&&k: &&usize| closes[left][k] >> joined(edges, last, k, has) & 1 == 1;
        let next = *after[last].iter().find(closing).expect("the list before can be closed");
        has = joined(edges, last, next, has);
        walk.push(next);
    }
    Some(walk.into_iter().map(|k| edges[k]).collect())
}

fn joined(edges: &[PlainEdge], last: usize, next: usize, has: Has) -> Has {
    has | !edges[next].back as Has | (is_pair(&edges[last], &edges[next]) as Has) << 1
}

/// The fewest steps of a dangerous walk with this first edge, at most so many, and what can be closed on the way.
fn fewest(edges: &[PlainEdge], after: &[Vec<usize>], first: usize, most: usize) -> Option<(usize, Closes)> {
    let begins = !edges[first].back as Has;
    let ends = |k: usize| {
        let all = |has: Has| edges[k].into == edges[first].node && has | (is_pair(&edges[k], &edges[first]) as Has) << 1 == 3;
        (0..4).filter(|&has| all(has)).fold(0u8, |word, has| word | 1 << has)
    };
    let mut closes: Closes = Vec::new();
    while closes.len() < most {
        let layer: Vec<u8> = match closes.last() {
            None => (0..edges.len()).map(ends).collect(),
            Some(before) => (0..edges.len()).map(|k| one_more(edges, &after[k], k, before)).collect(),
        };
        // the same again: from here on it goes round
        if closes.contains(&layer) {
            return None;
        }
        closes.push(layer);
        if closes.last().expect("just put")[first] >> begins & 1 == 1 {
            return Some((closes.len(), closes));
        }
    }
    None
}

fn one_more(edges: &[PlainEdge], after: &[usize], k: usize, before: &[u8]) -> u8 {
    let closing = |has: Has| after.iter().any(|&next| before[next] >> joined(edges, k, next, has) & 1 == 1);
    (0..4).filter(|&has| closing(has)).fold(0u8, |word, has| word | 1 << has)
}
