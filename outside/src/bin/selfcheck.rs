//! `selfcheck SEED COUNT [TPCC] [--locks]`: the fast parts of this implementation against slow literal ones, on generated texts:
//! unfoldings by plain lists, the parents that shield by plain lists and by what the links alone say, counts by the letters, the verdict
//! by a search over walks with a mark for "some forward edge", the walk checker by the list of edges on damaged walks.
//! With the text of TPC-C: the published figures, with the insert sets of the published work.

use outside::arguments::words_and_locks;
use outside::edges::*;
use outside::generator::text_number;
use outside::random::Random;
use outside::reader::*;
use outside::report::unfolded;
use outside::unfolding::*;
use outside::verdict::*;
use outside::walk::fault_of_walk;
use outside::workload::*;

fn main() {
    let (words, locks) = words_and_locks();
    let number = |at: usize| words.get(at).and_then(|word| word.parse::<u64>().ok()).expect("usage: selfcheck SEED COUNT [TPCC] [--locks]");
    let (seed, count) = (number(1), number(2));
    let (mut robust, mut danger, mut refused) = (0, 0, 0);
    for k in 0..count {
        let text = text_number(seed, k, locks);
        match check(&text) {
            Some(true) => danger += 1,
            Some(false) => robust += 1,
            None => refused += 1,
        }
    }
    println!("{count} texts: fast and literal parts agree ({robust} robust, {danger} danger, {refused} refused)");
    if let Some(path) = words.get(3) {
        published_tpcc(&std::fs::read(path).expect("the text of TPC-C"));
    }
}

/// Whether danger; nothing for a refused text.
fn check(text: &[u8]) -> Option<bool> {
    let workload = read(text).ok()?;
    let literal = literal_unfoldings(workload.taken());
    let Ok(unfolded) = unfolded(text) else {
        assert!(literal.is_none(), "22 only where the lists are too long");
        return None;
    };
    let fast: Vec<Vec<(usize, Vec<u8>)>> = (0..unfolded.unfoldings.nodes)
        .map(|node| unfolded.unfoldings.places_of(node).iter().map(|place| (place.line as usize, turns_of(place))).collect())
        .collect();
    assert_eq!(Some(&fast), literal.as_ref(), "unfoldings with their turns");
    let back = check_shields(workload.taken(), &fast, &unfolded.spots);
    let mut walk = [EMPTY_STEP; MAX_STEPS];
    let verdict = judge_graph(workload.programs(), &unfolded.unfoldings, &unfolded.spots, &mut walk);
    assert_eq!((verdict.edges, verdict.back), count(&unfolded.unfoldings, &unfolded.spots), "counts");
    assert!(back.is_none_or(|back| back == verdict.back), "back edges");
    if verdict.edges < 3000 {
        let edges = list(&unfolded.unfoldings, &unfolded.spots);
        assert_eq!(verdict.steps > 0, literal_danger(&unfolded.unfoldings, &unfolded.spots, &edges), "verdict");
        check_walks(&unfolded.unfoldings, &unfolded.spots, &edges, &walk[..verdict.steps]);
    }
    Some(verdict.steps > 0)
}

fn turns_of(place: &Place) -> Vec<u8> {
    (0..place.loops).map(|at| place.turns >> at & 1).collect()
}

// ---- unfoldings as lists of lists

type Unfolding = Vec<(usize, Vec<u8>)>;

/// All unfoldings, or nothing where they pass 64 or 512 statements.
fn literal_unfoldings(lines: &[Line]) -> Option<Vec<Unfolding>> {
    let mut all = Vec::new();
    for at in 0..lines.len() {
        if lines[at].kind == PR {
            all.extend(run(lines, &mut (at + 1), &[])?);
        }
    }
    let statements: usize = all.iter().map(Vec::len).sum();
    if all.len() > 64 || statements > 512 { None } else { Some(all) }
}

/// The unfoldings of the run at `at`, which is moved after it; nothing where they become too many.
fn run(lines: &[Line], at: &mut usize, turns: &[u8]) -> Option<Vec<Unfolding>> {
    let mut all: Vec<Unfolding> = vec![Vec::new()];
    while *at < lines.len() {
        let item = match lines[*at].kind {
            LO => loop_item(lines, at, turns)?,
            BR => {
                *at += 1;
                let mut arms = run(lines, at, turns)?;
                *at += 1;
                arms.extend(run(lines, at, turns)?);
                arms
            }
            kind if is_statement(kind) => vec![vec![(*at, turns.to_vec())]],
            _ => break,
        };
        *at += 1;
        all = in_a_row(&all, &item)?;
    }
    Some(all)
}

fn loop_item(lines: &[Line], at: &mut usize, turns: &[u8]) -> Option<Vec<Unfolding>> {
    let body = *at + 1;
    let turn = |number: u8, at: &mut usize| run(lines, at, &[turns, &[number]].concat());
    *at = body;
    let first = turn(0, at)?;
    let second = turn(1, &mut { body })?;
    let mut all = vec![Vec::new()];
    all.extend(first.clone());
    all.extend(in_a_row(&first, &second)?);
    Some(all)
}

fn in_a_row(first: &[Unfolding], then: &[Unfolding]) -> Option<Vec<Unfolding>> {
    if first.len() * then.len() > 64 {
        return None;
    }
    Some(first.iter().flat_map(|a| then.iter().map(move |b| [a.clone(), b.clone()].concat())).collect())
}

// ---- the shield by lists (Req 02)

/// Each place's keys against the lists; how many back edges the lists give, unless there are many pairs of places.
fn check_shields(lines: &[Line], nodes: &[Unfolding], spots: &[Spot]) -> Option<usize> {
    let parents: Vec<Parents> = nodes.iter().flat_map(|node| (0..node.len()).map(move |at| parents_of(lines, node, at))).collect();
    for (spot, parents) in spots.iter().zip(&parents) {
        let word = |keys: &[u8]| keys.iter().fold(0u32, |word, key| word | 1 << key);
        assert_eq!((spot.near, spot.far), (word(&parents.before), word(&parents.anywhere)), "parents that shield");
        // what the rules on links come to: a child never runs without its parents, so the links alone tell the far keys
        assert_eq!(parents.anywhere, parents.by_links, "every parent runs with its child");
    }
    let shielded = |p: usize, q: usize| parents[p].before.iter().any(|key| parents[q].anywhere.contains(key));
    let back = |p: usize, q: usize| {
        let (from, to) = (&spots[p], &spots[q]);
        let read = matches!(from.kind, KS | PS) && holds(b'D', from, to) && !shielded(p, q);
        from.rel == to.rel && (holds(b'E', from, to) || read)
    };
    let pairs = (0..spots.len()).flat_map(|p| (0..spots.len()).map(move |q| (p, q)));
    if spots.len() > 150 { None } else { Some(pairs.filter(|&(p, q)| back(p, q)).count()) }
}

/// The keys by which a place has parents that shield: before it, anywhere in its node, and by its program's links alone; rising.
struct Parents {
    before: Vec<u8>,
    anywhere: Vec<u8>,
    by_links: Vec<u8>,
}

fn parents_of(lines: &[Line], node: &Unfolding, at: usize) -> Parents {
    let (line, turns) = &node[at];
    let begin = lines[..*line].iter().rposition(|line| line.kind == PR).expect("a program");
    let program: Vec<&Line> = lines[begin + 1..].iter().take_while(|line| line.kind != PR).collect();
    let shields = |statement: &Line| matches!(statement.kind, IS | KU | KD | KL);
    let of_child: Vec<&Line> = program.iter().copied().filter(|link| link.kind == LI && link.rel == lines[*line].id).collect();
    let is_parent = |link: &Line, (parent, its): &(usize, Vec<u8>)| {
        lines[*parent].id == link.to && shields(&lines[*parent]) && turns.starts_with(its)
    };
    let keys = |holds: &dyn Fn(&Line) -> bool| {
        (0..32).filter(|&key| of_child.iter().any(|link| link.id == key && holds(link))).collect::<Vec<u8>>()
    };
    Parents {
        before: keys(&|link| node[..at].iter().any(|other| is_parent(link, other))),
        anywhere: keys(&|link| node.iter().any(|other| is_parent(link, other))),
        by_links: keys(&|link| program.iter().any(|other| is_statement(other.kind) && other.id == link.to && shields(other))),
    }
}

// ---- the verdict by walks

/// Some edge e, then a back edge c that makes a dangerous pair with it, then edges back to where e leaves, one of all
/// these forward.
fn literal_danger(unfoldings: &Unfoldings, spots: &[Spot], edges: &[Edge]) -> bool {
    let open = |e: &Edge| leaves_open(unfoldings, spots, e);
    let closes: Vec<[bool; 64]> = (0..unfoldings.nodes * 2).map(|from| closing(edges, from / 2, from % 2 == 1)).collect();
    edges.iter().any(|e| {
        edges.iter().any(|c| {
            c.flow == b'b'
                && c.node == e.into
                && (e.flow == b'b' || c.leaves < e.enters || open(e))
                && closes[c.into as usize * 2 + (e.flow == b'f') as usize][e.node as usize]
        })
    })
}

fn leaves_open(unfoldings: &Unfoldings, spots: &[Spot], e: &Edge) -> bool {
    let node = &unfoldings.node[e.node as usize];
    matches!(spots[node.start as usize + e.leaves as usize].kind, KS | PS | PU | PD)
}

/// The nodes that a walk from `from` reaches with a forward edge seen, one seen already or on the way.
fn closing(edges: &[Edge], from: usize, seen: bool) -> [bool; 64] {
    let mut reached = [[false; 64]; 2];
    reached[seen as usize][from] = true;
    let mut changed = true;
    while changed {
        changed = false;
        for edge in edges {
            for seen in 0..2 {
                let then = if edge.flow == b'f' { 1 } else { seen };
                if reached[seen][edge.node as usize] && !reached[then][edge.into as usize] {
                    reached[then][edge.into as usize] = true;
                    changed = true;
                }
            }
        }
    }
    reached[1]
}

// ---- the walk checker, on the shown walk, on damaged ones and on walks drawn from the edges

fn check_walks(unfoldings: &Unfoldings, spots: &[Spot], edges: &[Edge], shown: &[Step]) {
    let mut random = Random::new(edges.len() as u64);
    let agree = |walk: &[Step]| {
        let lawful = fault_of_walk(unfoldings, spots, walk).is_none();
        assert_eq!(lawful, listed(unfoldings, spots, edges, walk), "walk {walk:?}");
        lawful
    };
    assert!(shown.is_empty() || agree(shown));
    for _ in 0..10 {
        let mut walk = if shown.is_empty() || random.chance(1, 2) { draw_walk(&mut random, edges) } else { shown.to_vec() };
        agree(&walk);
        if !walk.is_empty() {
            damage(&mut random, &mut walk);
            agree(&walk);
        }
    }
    let rounds = 66usize.div_ceil(shown.len().max(1));
    assert!(!agree(&shown.repeat(rounds)), "over 65 steps");
}

/// Edges drawn one after the other; the end need not meet the start.
fn draw_walk(random: &mut Random, edges: &[Edge]) -> Vec<Step> {
    let mut walk = Vec::new();
    let mut from: Vec<&Edge> = edges.iter().collect();
    for _ in 0..random.between(1, 4) {
        if from.is_empty() {
            break;
        }
        let edge = **random.pick(&from);
        walk.push(Step { node: edge.node as u8, leaves: edge.leaves as u16, enters: edge.enters as u16, flow: edge.flow });
        from = edges.iter().filter(|next| next.node == edge.into).collect();
    }
    walk
}

fn damage(random: &mut Random, walk: &mut Vec<Step>) {
    let at = random.below(walk.len());
    match random.below(6) {
        0 => walk[at].node = random.below(66) as u8,
        1 => walk[at].leaves = random.below(9) as u16,
        2 => walk[at].enters = random.below(9) as u16,
        3 => walk[at].flow = *random.pick(b"fbx"),
        4 => {
            walk.remove(at);
        }
        _ => walk.iter_mut().for_each(|step| step.flow = b'b'),
    }
}

/// The rules on a walk by the list of edges alone: some listed edge for each step, a forward one, a dangerous pair.
fn listed(unfoldings: &Unfoldings, spots: &[Spot], edges: &[Edge], walk: &[Step]) -> bool {
    let next = |at: usize| &walk[(at + 1) % walk.len()];
    let edge = |at: usize| {
        let step = &walk[at];
        edges.iter().find(|edge| {
            (edge.node, edge.leaves, edge.flow) == (step.node as u64, step.leaves as u64, step.flow)
                && (edge.into, edge.enters) == (next(at).node as u64, step.enters as u64)
        })
    };
    let dangerous = |at: usize| {
        let (e, c) = (edge(at).expect("an edge"), edge((at + 1) % walk.len()).expect("an edge"));
        c.flow == b'b' && (e.flow == b'b' || c.leaves < e.enters || leaves_open(unfoldings, spots, e))
    };
    (1..=65).contains(&walk.len())
        && (0..walk.len()).all(|at| edge(at).is_some())
        && walk.iter().any(|step| step.flow == b'f')
        && (0..walk.len()).any(dangerous)
}

// ---- published figures

/// TPC-C with the insert sets of the published work, which leave out o_carrier_id and ol_delivery_d: 13 nodes, 396 edges, 83 back.
fn published_tpcc(text: &[u8]) {
    let mut workload = read(text).expect("TPC-C is accepted");
    for line in workload.lines.iter_mut().filter(|line| line.kind == IS) {
        match line.rel {
            5 => line.writes &= !(1 << 5),
            6 => line.writes &= !(1 << 6),
            _ => {}
        }
    }
    let verdict = judge(&workload, &mut [EMPTY_STEP; MAX_STEPS]).expect("not 22");
    println!("TPC-C with its own insert sets: {} nodes, {} edges, {} back (published: 13, 396, 83)", verdict.nodes, verdict.edges, verdict.back);
}
