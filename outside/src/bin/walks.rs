//! `walks SEED COUNT [TEXT...] [--locks]`: the first walk, found fast, against the same found by the definition alone: on COUNT random graphs and
//! COUNT random workloads, each also on random parts of its nodes (`parts` holds those of some programs to their own text). All lists
//! of steps are tried where they are not too many; longer walks are found by what can still be closed; where both are tried, all
//! must agree. The same on the texts, of any size. How many walks were of which kind is printed, so that a comparison which meets
//! none is noticed.

use outside::arguments::words_and_locks;
use outside::first_walk::first_walk;
use outside::generator::*;
use outside::graph::*;
use outside::lines::text_of;
use outside::plain_walk::*;
use outside::random::Random;
use outside::report::unfolded;
use outside::special::*;
use outside::unfolding::{MAX_NODES, MAX_PLACES};
use outside::verdict::*;

const BUDGET: usize = 300_000;
/// Pairs of edges that may follow each other.
const MOST_PAIRS: usize = 4000;

/// What was compared.
#[derive(Default)]
struct Tally {
    compared: usize,
    parts: usize,
    robust: usize,
    by_lists: usize,
    skipped: usize,
    begin_back: usize,
    pair_across: usize,
    repeat: usize,
    steps: Vec<usize>,
}

fn main() {
    let (words, locks) = words_and_locks();
    let number = |at: usize| words.get(at).and_then(|word| word.parse::<u64>().ok()).expect("usage: walks SEED COUNT [TEXT...] [--locks]");
    let (seed, count) = (number(1), number(2));
    let (mut graphs, mut workloads) = (Tally::default(), Tally::default());
    for k in 0..count {
        let mut random = Random::numbered(seed, k).with_locks(locks);
        let drawn = Drawn::draw(&mut random);
        let mut marks = Marks::default();
        let graph = Graph::of(&drawn, &mut marks, drawn.lengths.iter().copied());
        compare(&mut random, &graph, MOST_PAIRS, &mut graphs, &|| format!("random graph {k}"));
        let text = draw_text(&mut random);
        compare_text(&mut random, &text, MOST_PAIRS, &mut workloads);
    }
    show("graphs", &graphs);
    show("workloads", &workloads);
    let mut texts = Tally::default();
    for path in words.iter().skip(3) {
        let text = std::fs::read(path).unwrap_or_else(|error| panic!("{path}: {error}"));
        compare_text(&mut Random::new(seed), &text, usize::MAX, &mut texts);
    }
    if words.len() > 3 {
        show("texts", &texts);
    }
}

// ---- comparing

/// A text's graph, unless it is refused.
fn compare_text(random: &mut Random, text: &[u8], most_pairs: usize, tally: &mut Tally) {
    let Ok(unfolded) = unfolded(text) else { return };
    let (places, mut marks) = (QuickPlaces::of(&unfolded.unfoldings, &unfolded.spots), Marks::default());
    let graph = Graph::of(&places, &mut marks, unfolded.unfoldings.all().iter().map(|node| node.length as usize));
    compare(random, &graph, most_pairs, tally, &|| String::from_utf8_lossy(text).into_owned());
}

/// The whole graph, and three parts of it.
fn compare<P: Places>(random: &mut Random, graph: &Graph<P>, most_pairs: usize, tally: &mut Tally, what: &dyn Fn() -> String) {
    if graph.edges * graph.edges > most_pairs.saturating_mul(graph.nodes) {
        tally.skipped += 1;
        return;
    }
    let edges = plain_edges(graph);
    compare_part(graph, &edges, u64::MAX, tally, what);
    for _ in 0..3 {
        let word = random.word() | random.word();
        let counted = if random.chance(1, 3) { word & random.word() } else { word };
        compare_part(graph, &edges, counted, tally, what);
        tally.parts += 1;
    }
}

fn compare_part<P: Places>(graph: &Graph<P>, edges: &[PlainEdge], counted: u64, tally: &mut Tally, what: &dyn Fn() -> String) {
    let counts = |node: usize| counted >> node & 1 == 1;
    let part: Vec<PlainEdge> = edges.iter().copied().filter(|edge| counts(edge.node) && counts(edge.into)).collect();
    let mut walk = [EMPTY_STEP; MAX_STEPS];
    let steps = first_walk(graph, counted, &mut walk);
    let fast = &walk[..steps];
    let wanted = first_by_states(&part, MAX_STEPS);
    let agree = |way: &str, edges: &[PlainEdge]| {
        let steps: Vec<Step> = edges.iter().map(PlainEdge::step).collect();
        assert!(steps == fast, "{}\nnodes {counted:x}: {way} {steps:?} but fast {fast:?}", what());
    };
    agree("by states", wanted.as_deref().unwrap_or(&[]));
    // a robust graph has lists without end: those up to one step more than its nodes are tried
    match first_by_lists(&part, if wanted.is_some() { MAX_STEPS } else { graph.nodes + 1 }, BUDGET) {
        Found::Walk(walk) => agree("by lists", &walk),
        Found::Nothing => agree("by lists", &[]),
        Found::GivenUp => tally.by_lists -= 1,
    }
    tally.by_lists += 1;
    tally.compared += 1;
    match wanted {
        Some(walk) => tally.take(&walk),
        None => tally.robust += 1,
    }
}

fn plain_edges<P: Places>(graph: &Graph<P>) -> Vec<PlainEdge> {
    let places = |node: usize| graph.places_of(node).enumerate();
    let mut edges = Vec::new();
    for (node, into) in (0..graph.nodes).flat_map(|node| (0..graph.nodes).map(move |into| (node, into))) {
        for (leaves, p) in places(node) {
            for (enters, q) in places(into) {
                let (forward, back) = graph.places.stands(p, q);
                let edge = |back| PlainEdge { node, leaves, enters, back, into, loose: graph.places.is_loose(p) };
                edges.extend([(forward, false), (back, true)].iter().filter(|flow| flow.0).map(|flow| edge(flow.1)));
            }
        }
    }
    edges.sort();
    edges
}

impl Tally {
    fn take(&mut self, walk: &[PlainEdge]) {
        let (first, last) = (&walk[0], &walk[walk.len() - 1]);
        self.begin_back += first.back as usize;
        self.pair_across += is_pair(last, first) as usize;
        self.repeat += (0..walk.len()).any(|at| walk[..at].iter().any(|edge| edge.node == walk[at].node)) as usize;
        self.steps.resize(self.steps.len().max(walk.len() + 1), 0);
        self.steps[walk.len()] += 1;
    }
}

fn show(word: &str, tally: &Tally) {
    let Tally { compared, parts, robust, by_lists, skipped, begin_back, pair_across, repeat, .. } = tally;
    println!("{word}: {compared} compared alike by states, {by_lists} of them also by all lists; {parts} are parts; {skipped} too large");
    println!(
        "  {robust} robust, {} danger: {begin_back} walks begin with a back step, {pair_across} have a pair across the end, {repeat} repeat a node",
        compared - robust
    );
    print!("  walks by steps:");
    for (steps, walks) in tally.steps.iter().enumerate().filter(|(_, &walks)| walks > 0) {
        print!(" {steps}: {walks},");
    }
    println!(" in all {}", tally.steps.iter().sum::<usize>());
}

// ---- random graphs and texts

/// A random graph: each back edge has its forward twin and leaves a loose place.
struct Drawn {
    lengths: Vec<usize>,
    loose: Vec<bool>,
    forward: Vec<[bool; MAX_PLACES]>,
    back: Vec<[bool; MAX_PLACES]>,
}

impl Places for Drawn {
    fn is_loose(&self, place: usize) -> bool {
        self.loose[place]
    }

    fn stands(&self, p: usize, q: usize) -> (bool, bool) {
        (self.forward[p][q], self.back[p][q])
    }
}

impl Drawn {
    fn draw(random: &mut Random) -> Drawn {
        let nodes = if random.chance(1, 8) { random.between(8, 20) } else { random.between(1, 7) };
        let most = random.between(1, 4);
        let lengths: Vec<usize> = (0..nodes).map(|_| random.between((most > 2) as usize, most)).collect();
        let places: usize = lengths.iter().sum();
        let loose_in = random.between(1, 4);
        let loose = (0..places).map(|_| random.below(loose_in) == 0).collect();
        let (forward, back) = (vec![[false; MAX_PLACES]; places], vec![[false; MAX_PLACES]; places]);
        let mut drawn = Drawn { lengths, loose, forward, back };
        if places > 0 {
            drawn.add_edges(random, places);
        }
        drawn
    }

    /// Some edges anywhere, and often a ring through the nodes, so that walks become long.
    fn add_edges(&mut self, random: &mut Random, places: usize) {
        let back_in = random.between(1, 4);
        let most = *random.pick(&[1, 3, places, 2 * places, 4 * places]);
        for _ in 0..random.between(0, most) {
            let (p, q) = (random.below(places), random.below(places));
            self.add_edge(random, p, q, back_in);
        }
        if random.chance(4, 5) {
            let mut order: Vec<usize> = (0..self.lengths.len()).filter(|&node| self.lengths[node] > 0).collect();
            for at in (1..order.len()).rev() {
                order.swap(at, random.below(at + 1));
            }
            for at in 0..order.len() {
                let (p, q) = (self.place_in(random, order[at]), self.place_in(random, order[(at + 1) % order.len()]));
                self.add_edge(random, p, q, back_in);
            }
        }
    }

    fn place_in(&self, random: &mut Random, node: usize) -> usize {
        self.lengths[..node].iter().sum::<usize>() + random.below(self.lengths[node])
    }

    fn add_edge(&mut self, random: &mut Random, p: usize, q: usize, back_in: usize) {
        self.forward[p][q] = true;
        self.back[p][q] |= self.loose[p] && random.below(back_in) == 0;
    }
}

/// Small texts, some with links, some with long walks.
fn draw_text(random: &mut Random) -> Vec<u8> {
    text_of(&match random.below(16) {
        0..=6 => valid(random, Size::Tiny),
        7..=11 => valid(random, Size::Small),
        12 => valid(random, Size::Middle),
        13..=14 => linked(random),
        _ => {
            let most = *random.pick(&[6, 12, MAX_NODES]);
            let nodes = random.between(2, most);
            chain(random, nodes)
        }
    })
}
