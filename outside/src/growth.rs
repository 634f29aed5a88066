//! Series of workloads that grow: the same shape at sizes that double, up to the bounds.

use crate::lines::*;
use crate::workload::*;

/// A shape, what its size counts, and its texts by size.
pub struct Series {
    pub name: &'static str,
    pub texts: Vec<(usize, Vec<u8>)>,
}

pub fn series() -> Vec<Series> {
    let of = |name: &'static str, least: usize, most: usize, shape: fn(usize) -> Vec<Line>| {
        let sizes = std::iter::successors(Some(least), |n| Some(2 * n)).take_while(|&n| n <= most);
        Series { name, texts: sizes.map(|n| (n, text_of(&shape(n)))).collect() }
    };
    vec![
        of("statements", 16, 512, statements),
        of("nodes", 1, 64, nodes),
        of("relations", 1, 32, over_relations),
        of("links", 1, 32, |links| linked(MAX_RELATIONS, links)),
    ]
}

/// A select at every fourth id, else an update, of a relation of two attributes.
pub fn select_or_update(id: usize, rel: usize) -> Line {
    if id % 4 == 3 { select(id, rel) } else { update(id, rel) }
}

fn select(id: usize, rel: usize) -> Line {
    statement(KS, id, rel, 3, 0, 0)
}

fn update(id: usize, rel: usize) -> Line {
    statement(KU, id, rel, 3, 3, 0)
}

/// So many statements in 16 programs, all over one relation.
fn statements(n: usize) -> Vec<Line> {
    let mut lines = vec![relation(0, 3)];
    for program in 0..MAX_PROGRAMS {
        lines.push(plain(PR, program));
        lines.extend((0..n / MAX_PROGRAMS).map(|id| select_or_update(id, 0)));
    }
    lines
}

/// So many nodes of eight statements, all over one relation: more than 16 by one or two branches in each program.
fn nodes(n: usize) -> Vec<Line> {
    let programs = n.min(MAX_PROGRAMS);
    let branches = (n / programs).trailing_zeros() as usize;
    let mut lines = vec![relation(0, 3)];
    for program in 0..programs {
        lines.push(plain(PR, program));
        for first in (0..branches).map(|branch| 2 * branch) {
            lines.extend([plain(BR, 0), select_or_update(first, 0), plain(EL, 0), select_or_update(first + 1, 0), plain(EN, 0)]);
        }
        lines.extend((2 * branches..branches + 8).map(|id| select_or_update(id, 0)));
    }
    lines
}

/// 16 programs of 32 statements over so many relations, each of them in every program: selects in every fourth program, updates in the others.
pub fn over_relations(n: usize) -> Vec<Line> {
    let mut lines: Vec<Line> = (0..n).map(|id| relation(id, 3)).collect();
    for program in 0..MAX_PROGRAMS {
        lines.push(plain(PR, program));
        let make = if program % 4 == 3 { select } else { update };
        lines.extend((0..MAX_STATEMENTS).map(|id| make(id, id % n)));
    }
    lines
}

/// 16 programs of 32 statements over so many relations, with so many links each, every one of another key: from a statement to the one before it.
pub fn linked(relations: usize, links: usize) -> Vec<Line> {
    let mut lines: Vec<Line> = (0..relations).map(|id| relation(id, 3)).collect();
    lines.extend((0..MAX_KEYS).map(|id| key(id, id % relations, (id + 31) % relations)));
    for program in 0..MAX_PROGRAMS {
        lines.push(plain(PR, program));
        lines.extend((0..MAX_STATEMENTS).map(|id| select_or_update(id, id % relations)));
        lines.extend((0..links).map(|id| link(id, id, (id + 31) % 32)));
    }
    lines
}
