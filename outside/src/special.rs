//! Workloads from a seed with something to them: full of links, long walks, at and past each bound, many unfoldings.

use crate::lines::*;
use crate::random::Random;
use crate::workload::*;

// ---- small workloads full of links, for schedules

/// Two relations with keys from 1 to 0; each program has a parent and children linked to it, in any order, some in a loop.
pub fn linked(random: &mut Random) -> Vec<Line> {
    let mut lines = vec![relation(0, 3), relation(1, 3), key(0, 1, 0), key(1, 1, 0)];
    for id in 0..random.between(1, 3) {
        lines.push(plain(PR, id));
        let children = random.between(1, 2);
        let parent = if random.chance(2, 3) { 0 } else { random.between(0, children) };
        let (from, to) = if random.chance(1, 3) { (random.between(0, parent), children) } else { (usize::MAX, usize::MAX) };
        for at in 0..=children {
            lines.extend((0..(at == from) as usize).map(|_| plain(LO, 0)));
            lines.push(if at == parent { linked_parent(random, at) } else { linked_child(random, at) });
            lines.extend((0..(at == to) as usize).map(|_| plain(EN, 0)));
        }
        for at in (0..=children).filter(|&at| at != parent) {
            if random.chance(5, 6) {
                lines.push(link(random.below(8) / 6, at, parent));
            }
        }
    }
    lines
}

fn linked_parent(random: &mut Random, id: usize) -> Line {
    let kind = pick_kind(random, &[KU, KU, KU, KU, IS, KD, KS]);
    statement(kind, id, 0, random.between(1, 3) as u64, if matches!(kind, IS | KD) { 3 } else { random.between(1, 3) as u64 }, 0)
}

fn linked_child(random: &mut Random, id: usize) -> Line {
    let kind = pick_kind(random, &[KS, KS, KS, KU, KU, PS, IS, KD]);
    let writes = if matches!(kind, IS | KD) { 3 } else { random.between(1, 3) as u64 };
    statement(kind, id, 1, random.between(1, 3) as u64, writes, random.below(4) as u64)
}

// ---- links across blocks

/// Parents and children at random places in random blocks, linked without looking: many are against the rules on loops and arms.
pub fn links_across_blocks(random: &mut Random) -> Vec<Line> {
    let mut lines = vec![relation(0, 3), relation(1, 3), key(0, 1, 0), plain(PR, 0)];
    let mut open: Vec<u8> = Vec::new();
    let mut next = 0;
    for _ in 0..random.between(3, 12) {
        match random.below(6) {
            0 | 1 if open.len() < 3 => {
                open.push(*random.pick(&[LO, BR, BR]));
                lines.push(plain(*open.last().unwrap(), 0));
            }
            2 if !open.is_empty() => go_on(&mut open, &mut lines),
            _ => {
                lines.push(if next % 2 == 0 { linked_parent(random, next) } else { linked_child(random, next) });
                next += 1;
            }
        }
    }
    while !open.is_empty() {
        go_on(&mut open, &mut lines);
    }
    for _ in 0..random.between(0, if next > 1 { 2 } else { 0 }) {
        lines.push(link(0, 1 + 2 * random.below(next / 2), 2 * random.below(next.div_ceil(2))));
    }
    lines
}

/// The innermost block's second arm, or its end.
fn go_on(open: &mut Vec<u8>, lines: &mut Vec<Line>) {
    if open.pop() == Some(BR) {
        open.push(EL);
        lines.push(plain(EL, 0));
    } else {
        lines.push(plain(EN, 0));
    }
}

// ---- long walks

/// A chain of nodes, each meeting the next by one attribute. The last one selects, by the only back edge, what the first
/// deletes, and then updates an attribute of its own: the only dangerous pair is that update's edge from the last node to itself and the
/// back edge, so every dangerous walk goes round the whole chain, one step more than there are nodes (65 of 64).
pub fn long_walk(random: &mut Random) -> Vec<Line> {
    let nodes = if random.chance(1, 3) { 64 } else { random.between(2, 64) };
    chain(random, nodes)
}

/// The same with so many nodes.
pub fn chain(random: &mut Random, nodes: usize) -> Vec<Line> {
    let mut order: Vec<usize> = (0..nodes).collect();
    for at in (1..nodes).rev() {
        order.swap(at, random.below(at + 1));
    }
    let mut lines = vec![relation(0, u64::MAX), relation(1, 1)];
    for (program, group) in order.chunks(4).enumerate() {
        lines.push(plain(PR, program));
        let mut next = 0;
        add_arms(&mut lines, group, nodes, &mut next);
    }
    lines
}

/// One arm for each node of the group, in branches within branches.
fn add_arms(lines: &mut Vec<Line>, group: &[usize], nodes: usize, next: &mut usize) {
    if let [node] = group {
        return add_chain_node(lines, *node, nodes, next);
    }
    let (first, second) = group.split_at(group.len() / 2);
    lines.push(plain(BR, 0));
    add_arms(lines, first, nodes, next);
    lines.push(plain(EL, 0));
    add_arms(lines, second, nodes, next);
    lines.push(plain(EN, 0));
}

fn add_chain_node(lines: &mut Vec<Line>, node: usize, nodes: usize, next: &mut usize) {
    let mut add = |kind: u8, rel: usize, reads: u64, writes: u64| {
        lines.push(statement(kind, *next, rel, reads, writes, 0));
        *next += 1;
    };
    let back = if node > 0 { 1 << node } else { 0 };
    let ahead = if node + 1 < nodes { 1 << (node + 1) } else { 0 };
    add(KU, 0, 0, back | ahead);
    if node == 0 {
        add(KD, 1, 0, 1);
    }
    if node + 1 == nodes {
        add(KS, 1, 1, 0);
        add(KU, 0, 0, 1);
    }
}

// ---- workloads at and one past a bound

/// One bound of relations, keys, programs, statements, lines, links or depth met exactly, or passed by one.
pub fn at_bound(random: &mut Random) -> Vec<Line> {
    let past = random.below(2);
    let mut lines = vec![relation(0, 3), relation(1, 5), key(0, 1, 0)];
    match random.below(8) {
        0 => lines = (0..MAX_RELATIONS + past).map(|id| relation(id, random.word() | 1)).collect(),
        1 => lines.extend((1..MAX_KEYS + past).map(|id| key(id, random.below(2), random.below(2)))),
        2 => lines.extend((0..MAX_PROGRAMS + past).map(|id| plain(PR, id))),
        3 => {
            lines.push(plain(PR, 0));
            lines.extend((0..MAX_STATEMENTS + past).map(|id| statement(kind_or_lock(random, KU), id, 0, 1, 2, 0)));
        }
        4 => lines_at_bound(random, &mut lines, past),
        5 => {
            lines.extend([plain(PR, 0), statement(kind_or_lock(random, KU), 0, 0, 1, 2, 0), statement(PS, 1, 1, 1, 0, 1)]);
            lines.extend((0..MAX_LINKS + past).map(|_| link(0, 1, 0)));
        }
        6 => {
            lines.push(plain(PR, 0));
            nest(random, &mut lines, MAX_DEPTH + past);
        }
        _ => {
            // A line past its bound that is out of order as well: 9 comes first.
            lines = (0..MAX_RELATIONS).map(|id| relation(id, 1)).collect();
            lines.push(plain(PR, 0));
            lines.extend((0..past).map(|_| relation(MAX_RELATIONS, 1)));
            lines.extend((0..1 - past).map(|_| key(0, 0, 0)));
        }
    }
    lines
}

/// A program of 64 or 65 lines, whose last are a statement, a loop's or a branch's.
fn lines_at_bound(random: &mut Random, lines: &mut Vec<Line>, past: usize) {
    let tails: [&[u8]; 4] = [&[KU], &[LO, EN], &[BR, EL, EN], &[BR, EL]];
    let tail = *random.pick(&tails);
    let before = MAX_PROGRAM_LINES + past - tail.len();
    let mut next = before % 2;
    lines.push(plain(PR, 0));
    lines.extend((0..next).map(|id| statement(KU, id, 0, 1, 2, 0)));
    for _ in 0..before / 2 {
        lines.extend([plain(LO, 0), plain(EN, 0)]);
    }
    for &kind in tail {
        lines.push(if kind == KU { statement(kind_or_lock(random, KU), next, 0, 1, 2, 0) } else { plain(kind, 0) });
        next += (kind == KU) as usize;
    }
}

/// Blocks one inside the other.
fn nest(random: &mut Random, lines: &mut Vec<Line>, depth: usize) {
    if depth == 0 {
        return;
    }
    if random.chance(1, 3) {
        lines.push(plain(LO, 0));
        nest(random, lines, depth - 1);
        lines.push(plain(EN, 0));
        return;
    }
    lines.push(plain(BR, 0));
    if random.chance(1, 2) {
        nest(random, lines, depth - 1);
        lines.push(plain(EL, 0));
    } else {
        lines.push(plain(EL, 0));
        nest(random, lines, depth - 1);
    }
    lines.push(plain(EN, 0));
}

/// Workloads around 64 unfoldings and 512 statements in them.
pub fn many_unfoldings(random: &mut Random) -> Vec<Line> {
    let mut lines = vec![relation(0, 3)];
    let programs = random.between(1, 4);
    for id in 0..programs {
        lines.push(plain(PR, id));
        let (blocks, body) = (random.between(0, 5), random.between(0, 9));
        let mut next = 0;
        for block in 0..blocks {
            lines.push(plain(if random.chance(1, 3) { LO } else { BR }, 0));
            let is_branch = lines.last().unwrap().kind == BR;
            next = add_updates(random, &mut lines, next, if block == 0 { body } else { 1 });
            if is_branch {
                lines.push(plain(EL, 0));
                next = add_updates(random, &mut lines, next, 1);
            }
            lines.push(plain(EN, 0));
        }
        add_updates(random, &mut lines, next, body.min(4));
    }
    lines
}

fn add_updates(random: &mut Random, lines: &mut Vec<Line>, first: usize, count: usize) -> usize {
    for id in first..first + count {
        let kind = pick_kind(random, &[KU, KU, KU, KS, PS]);
        lines.push(statement(kind, id, 0, random.between(1, 3) as u64, random.between(1, 3) as u64, 1));
    }
    first + count
}
