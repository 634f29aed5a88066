//! The workloads that are timed: small and middle (robust and danger), largest (64 nodes, 512 statements, every pair of places an edge; robust and
//! danger), kinds mixed, many relations, links, loops and branches, and texts at their bounds.

use crate::growth::*;
use crate::lines::*;
use crate::random::Random;
use crate::workload::*;

pub struct Timed {
    pub name: &'static str,
    pub text: Vec<u8>,
}

pub fn timed() -> Vec<Timed> {
    let of = |name: &'static str, lines: &[Line]| Timed { name, text: text_of(lines) };
    vec![
        of("small", &small()),
        of("small danger", &small_danger()),
        of("middle", &middle()),
        Timed { name: "middle danger", text: include_bytes!("../../examples/contact.txt").to_vec() },
        of("largest robust", &largest(|_, id| statement(KU, id, 0, 3, 3, 0))),
        of("largest robust, back edges", &selects_and_updates()),
        of("largest danger", &largest(|_, id| statement(PU, id, 0, 3, 3, 3))),
        of("largest danger, last", &largest(late_danger)),
        of("mixed kinds", &mixed_kinds(1)),
        of("mixed kinds, 4 relations", &mixed_kinds(4)),
        of("many relations", &over_relations(MAX_RELATIONS)),
        of("many links", &linked(1, MAX_LINKS)),
        of("many links, 32 relations", &linked(MAX_RELATIONS, MAX_LINKS)),
        of("long loops", &loops(5, 1, MAX_STATEMENTS)),
        of("nested loops", &loops(4, 2, 6)),
        of("branch chain", &branch_chain()),
        of("nested branches", &nested_branches()),
        of("most lines", &most_lines()),
        of("most bytes", &most_bytes()),
    ]
}

/// The base text of the station.
fn small() -> Vec<Line> {
    vec![
        relation(0, 3),
        relation(1, 3),
        key(0, 1, 0),
        plain(PR, 0),
        statement(KU, 0, 0, 2, 2, 0),
        statement(KU, 1, 1, 0, 2, 0),
        link(0, 1, 0),
        plain(PR, 1),
        statement(PS, 0, 1, 2, 0, 2),
    ]
}

/// The same with the predicate read twice: program 1 is dangerous by itself.
fn small_danger() -> Vec<Line> {
    let mut lines = small();
    lines.push(statement(PS, 1, 1, 2, 0, 2));
    lines
}

/// Auction(8) of the published work.
fn middle() -> Vec<Line> {
    let items = 8;
    let mut lines = vec![relation(0, 3)];
    lines.extend((1..=items).map(|bids| relation(bids, 3)));
    lines.push(relation(items + 1, 7));
    lines.extend((0..=items).map(|id| key(id, id + 1, 0)));
    for item in 0..items {
        lines.extend([plain(PR, 2 * item), statement(KU, 0, 0, 2, 2, 0), statement(PS, 1, item + 1, 2, 0, 2)]);
        lines.extend([plain(PR, 2 * item + 1), statement(KU, 0, 0, 2, 2, 0), statement(KS, 1, item + 1, 2, 0, 0)]);
        lines.extend([plain(BR, 0), statement(KU, 2, item + 1, 0, 2, 0), plain(EL, 0), plain(EN, 0)]);
        lines.extend([statement(IS, 3, items + 1, 0, 7, 0), link(item, 1, 0), link(item, 2, 0), link(items, 3, 0)]);
    }
    lines
}

/// 16 programs of four unfoldings of eight statements, all over one relation.
fn largest(make: impl Fn(usize, usize) -> Line) -> Vec<Line> {
    let mut lines = vec![relation(0, 3)];
    for program in 0..16 {
        lines.push(plain(PR, program));
        for branch in 0..2 {
            lines.extend([plain(BR, 0), make(program, 2 * branch), plain(EL, 0), make(program, 2 * branch + 1), plain(EN, 0)]);
        }
        lines.extend((4..10).map(|id| make(program, id)));
    }
    lines
}

/// 16 programs of 32 statements of all kinds, drawn at random, over so many relations of eight attributes.
fn mixed_kinds(relations: usize) -> Vec<Line> {
    let mut random = Random::new(7);
    let mut lines: Vec<Line> = (0..relations).map(|id| relation(id, 0xff)).collect();
    for program in 0..16 {
        lines.push(plain(PR, program));
        for id in 0..32 {
            let kind = [IS, KS, PS, KU, PU, KD, PD, KL][random.below(8)];
            let over = random.below(relations);
            let mut some = || random.word() & random.word() & 0xff;
            let reads = some() | u64::from(kind == KS || kind == KL);
            let writes = if matches!(kind, IS | KD | PD) { 0xff } else { some() | 1 };
            lines.push(statement(kind, id, over, reads, writes, some()));
        }
    }
    lines
}

/// Key updates everywhere; one predicate select stands before others in the last program.
fn late_danger(program: usize, id: usize) -> Line {
    if program == 15 && id == 4 { statement(PS, id, 0, 3, 0, 3) } else { statement(KU, id, 0, 3, 3, 0) }
}

/// 32 nodes of 15 key updates and 32 nodes of one predicate select: every pair but two selects an edge, 15,360 of them back, robust.
fn selects_and_updates() -> Vec<Line> {
    let mut lines = vec![relation(0, 3)];
    for program in 0..16 {
        lines.push(plain(PR, program));
        if program < 8 {
            for branch in 0..2 {
                let first = 2 * branch;
                lines.extend([plain(BR, 0), statement(KU, first, 0, 3, 3, 0), plain(EL, 0), statement(KU, first + 1, 0, 3, 3, 0), plain(EN, 0)]);
            }
            lines.extend((4..17).map(|id| statement(KU, id, 0, 3, 3, 0)));
        } else {
            lines.extend([plain(BR, 0), plain(EL, 0), plain(EN, 0), plain(BR, 0), plain(EL, 0), plain(EN, 0)]);
            lines.push(statement(PS, 0, 0, 3, 0, 3));
        }
    }
    lines
}

/// So many programs, each of loops in one another around so many statements. Two loops around each other have 13 unfoldings, three have 183.
fn loops(programs: usize, depth: usize, statements: usize) -> Vec<Line> {
    let mut lines = vec![relation(0, 3)];
    for program in 0..programs {
        lines.push(plain(PR, program));
        lines.extend((0..depth).map(|_| plain(LO, 0)));
        lines.extend((0..statements).map(|id| select_or_update(id, 0)));
        lines.extend((0..depth).map(|_| plain(EN, 0)));
    }
    lines
}

/// One program of six branches, one after the other, and two statements: 64 nodes of eight statements.
fn branch_chain() -> Vec<Line> {
    let mut lines = vec![relation(0, 3), plain(PR, 0)];
    for id in (0..12).step_by(2) {
        lines.extend([plain(BR, 0), select_or_update(id, 0), plain(EL, 0), select_or_update(id + 1, 0), plain(EN, 0)]);
    }
    lines.extend((12..14).map(|id| select_or_update(id, 0)));
    lines
}

/// Seven programs of branches in each other's first arm, as deep as may be, two statements in each: 63 nodes.
fn nested_branches() -> Vec<Line> {
    let mut lines = vec![relation(0, 3)];
    for program in 0..7 {
        lines.push(plain(PR, program));
        for depth in 0..MAX_DEPTH {
            lines.extend([plain(BR, 0), select_or_update(2 * depth, 0), select_or_update(2 * depth + 1, 0)]);
        }
        lines.extend((0..MAX_DEPTH).flat_map(|_| [plain(EL, 0), plain(EN, 0)]));
    }
    lines
}

/// All 1616 lines that the bounds allow: for reading alone, since it has too many unfoldings.
fn most_lines() -> Vec<Line> {
    let mut lines: Vec<Line> = (0..MAX_RELATIONS).map(|id| relation(id, 3)).collect();
    lines.extend((0..MAX_KEYS).map(|id| key(id, id, (id + 31) % 32)));
    for program in 0..MAX_PROGRAMS {
        lines.push(plain(PR, program));
        for id in 0..MAX_STATEMENTS {
            lines.push(statement(KU, id, id, 1, 2, 0));
            if id % 2 == 0 {
                lines.extend([plain(LO, 0), plain(EN, 0)]);
            }
        }
        lines.extend((1..MAX_STATEMENTS).map(|child| link(child, child, child - 1)));
        lines.push(link(1, 1, 0));
    }
    lines
}

/// Lines as long as they come, while they fit into the bytes.
fn most_bytes() -> Vec<Line> {
    let mut lines: Vec<Line> = (0..MAX_RELATIONS).map(|id| relation(id, u64::MAX)).collect();
    let mut bytes = text_of(&lines).len();
    for program in 0..MAX_PROGRAMS {
        for id in 0..=MAX_STATEMENTS {
            let line = if id == 0 { plain(PR, program) } else { statement(PU, id - 1, id - 1, u64::MAX, u64::MAX, u64::MAX) };
            bytes += line_text(&line).len();
            if bytes > MAX_BYTES {
                return lines;
            }
            lines.push(line);
        }
    }
    lines
}
