//! Texts from a seed: valid ones here, small to largest, in three styles; those of `special`, `late` and `damage` beside them.
//! What a text should give is not said here: the reader and the verdict say it. A `Random` with locks draws kl too; one without gives the
//! texts that it gave before there was a kl, byte by byte.

use crate::damage::*;
use crate::late::late_parents;
use crate::lines::*;
use crate::random::Random;
use crate::special::*;
use crate::workload::*;

#[derive(Clone, Copy, PartialEq, Eq)]
pub enum Size {
    /// For schedules: few statements over few tuples.
    Tiny,
    Small,
    Middle,
    /// Many programs with a few unfoldings each: near 64 nodes.
    Wide,
    /// Near every bound of the text.
    Largest,
}

/// What the statements are like.
#[derive(Clone, Copy, PartialEq, Eq)]
enum Style {
    /// Any kinds: mostly danger.
    Wild,
    /// Mostly key updates (and locks), inserts and key deletes, and programs of one predicate select: often robust.
    Calm,
    /// Writes (and locks) of parents first, then their children: links matter.
    Linked,
}

/// Number `number` of the texts that `compare` draws. Each has a seed of its own, so that it can be made again without those before it.
pub fn text_number(seed: u64, number: u64, locks: bool) -> Vec<u8> {
    any_text(&mut Random::numbered(seed, number).with_locks(locks))
}

/// One text for `compare`: about six of ten valid, the rest at a bound or damaged.
pub fn any_text(random: &mut Random) -> Vec<u8> {
    let size = match random.below(20) {
        0..=9 => Size::Small,
        10..=15 => Size::Middle,
        16..=17 => Size::Wide,
        _ => Size::Largest,
    };
    match random.below(40) {
        0..=16 => text_of(&valid(random, size)),
        17 => text_of(&late_parents(random)),
        18 => text_of(&links_across_blocks(random)),
        19..=20 => text_of(&linked(random)),
        21 => text_of(&long_walk(random)),
        22..=24 => text_of(&at_bound(random)),
        25..=27 => text_of(&many_unfoldings(random)),
        28..=33 => damaged_lines(random, size),
        _ => damaged_bytes(random, size),
    }
}

// ---- valid workloads

/// How large the parts of a workload may become.
struct Limits {
    relations: (usize, usize),
    attributes: usize,
    keys: (usize, usize),
    programs: (usize, usize),
    statements: (usize, usize),
    links: usize,
    /// A block stands where a statement could in one of so many cases.
    block_in: usize,
    depth: usize,
}

fn limits(random: &mut Random, size: Size) -> Limits {
    let (relations, attributes, keys, programs, statements, links, block_in, depth) = match size {
        Size::Tiny => ((1, 2), (1, 3), (0, 2), (1, 3), (1, 3), 3, 5, 2),
        Size::Small => ((1, 3), (1, 3), (0, 2), (0, 3), (0, 4), 4, 5, 3),
        Size::Middle => ((1, 8), (2, 12), (0, 8), (2, 8), (1, 12), 12, 7, 8),
        Size::Wide => ((1, 16), (1, 8), (0, 16), (12, 16), (4, 9), 8, 4, 3),
        Size::Largest => ((28, 32), (1, 64), (28, 32), (13, 16), (24, 32), 32, 40, 8),
    };
    let attributes = random.between(attributes.0, attributes.1);
    Limits { relations, attributes, keys, programs, statements, links, block_in, depth }
}

/// A workload in the making: its lines, and what later lines must fit.
struct Draft<'a> {
    random: &'a mut Random,
    style: Style,
    limits: Limits,
    lines: Vec<Line>,
    sets: Vec<u64>,
    keys: Vec<(usize, usize)>,
    /// Unfoldings and statements that may still come, so that most texts pass 22.
    budget: (u64, u64),
}

/// A program in the making: its lines, and for each statement kind, relation and the blocks around it.
#[derive(Default)]
struct Body {
    lines: Vec<Line>,
    statements: Vec<(u8, usize, Vec<usize>)>,
    around: Vec<usize>,
    opened: usize,
}

pub fn valid(random: &mut Random, size: Size) -> Vec<Line> {
    let limits = limits(random, size);
    // One text in twelve may pass 64 unfoldings or 512 statements.
    let budget = if random.chance(1, 12) { (u64::MAX, u64::MAX) } else { (64, 512) };
    let style = *random.pick(&[Style::Wild, Style::Calm, Style::Linked]);
    let mut draft = Draft { random, style, limits, lines: Vec::new(), sets: Vec::new(), keys: Vec::new(), budget };
    draft.add_relations();
    draft.add_keys();
    let programs = draft.random.between(draft.limits.programs.0, draft.limits.programs.1);
    for id in 0..programs {
        draft.add_program(id, programs - id);
    }
    draft.lines
}

impl Draft<'_> {
    fn add_relations(&mut self) {
        let count = self.random.between(self.limits.relations.0, self.limits.relations.1);
        let spread = self.random.chance(1, 3);
        for id in 0..count {
            let mut set = if spread { 1 << self.random.below(64) } else { 1 };
            for k in 0..self.limits.attributes {
                set |= 1 << if spread { self.random.below(64) } else { k };
            }
            self.sets.push(set);
            self.lines.push(relation(id, set));
        }
    }

    fn add_keys(&mut self) {
        let count = self.random.between(self.limits.keys.0, self.limits.keys.1);
        for id in 0..count {
            let (child, parent) = (self.random.below(self.sets.len()), self.random.below(self.sets.len()));
            self.keys.push((child, parent));
            self.lines.push(key(id, child, parent));
        }
    }

    /// The program, drawn again without blocks where it would pass its part of the budget.
    fn add_program(&mut self, id: usize, left: usize) {
        self.lines.push(plain(PR, id));
        let part = (self.budget.0 / left as u64, self.budget.1 / left as u64);
        let mut body = Body::default();
        let mut counts = self.fill_body(&mut body, self.limits.block_in);
        for again in 0..6 {
            if counts.0 <= part.0 && counts.1 <= part.1 {
                break;
            }
            body = Body::default();
            counts = self.fill_body(&mut body, if again == 5 { usize::MAX } else { self.limits.block_in * (2 + again) });
        }
        self.budget.0 = self.budget.0.saturating_sub(counts.0);
        self.budget.1 = self.budget.1.saturating_sub(counts.1);
        self.lines.extend_from_slice(&body.lines);
        self.add_links(&body);
    }

    fn fill_body(&mut self, body: &mut Body, block_in: usize) -> (u64, u64) {
        if self.style == Style::Calm && self.random.chance(1, 4) {
            let rel = self.random.below(self.sets.len());
            self.push_statement(body, PS, rel);
            return (1, 1);
        }
        let wanted = self.random.between(self.limits.statements.0, self.limits.statements.1);
        self.add_run(body, wanted, block_in)
    }

    /// A run of about `wanted` statements; how many unfoldings it has, and statements in all of them.
    fn add_run(&mut self, body: &mut Body, wanted: usize, block_in: usize) -> (u64, u64) {
        let mut counts = (1, 0);
        let mut left = wanted;
        while left > 0 && body.lines.len() + 4 * (body.around.len() + 1) < MAX_PROGRAM_LINES - 4 {
            let may_open = body.around.len() < self.limits.depth;
            let item = if may_open && block_in != usize::MAX && self.random.below(block_in) == 0 {
                let inside = self.random.between(0, left);
                left -= inside.max(1).min(left);
                self.add_block(body, inside, block_in)
            } else {
                left -= 1;
                self.add_statement(body);
                (1, 1)
            };
            counts = in_a_row(counts, item);
        }
        counts
    }

    fn add_block(&mut self, body: &mut Body, inside: usize, block_in: usize) -> (u64, u64) {
        if self.random.chance(1, 2) {
            open(body, LO);
            let one = self.add_run(body, inside, block_in);
            close(body);
            return sum(sum((1, 0), one), in_a_row(one, one));
        }
        let first = self.random.between(0, inside);
        open(body, BR);
        let one = self.add_run(body, first, block_in);
        body.around.pop();
        open(body, EL);
        let other = self.add_run(body, inside - first, block_in);
        close(body);
        sum(one, other)
    }

    fn add_statement(&mut self, body: &mut Body) {
        if body.statements.len() == MAX_STATEMENTS {
            return;
        }
        let kind = match self.style {
            Style::Wild => pick_kind(self.random, &[IS, KS, KS, PS, KU, KU, KU, PU, KD, PD]),
            Style::Calm => pick_kind(self.random, &[KU, KU, KU, KU, KU, KU, KU, IS, KD]),
            Style::Linked if body.statements.is_empty() => kind_or_lock(self.random, KU),
            Style::Linked => pick_kind(self.random, &[KU, KU, KU, KU, KS, KS, KS, IS, KD, PS]),
        };
        let rel = self.draw_relation(body);
        self.push_statement(body, kind, rel);
    }

    /// Any relation; for linked programs mostly a child of one that a statement before writes.
    fn draw_relation(&mut self, body: &Body) -> usize {
        let any = self.random.below(self.sets.len());
        if self.style != Style::Linked || body.statements.is_empty() || self.random.chance(1, 4) {
            return any;
        }
        let before = self.random.pick(&body.statements).1;
        let children: Vec<usize> = self.keys.iter().filter(|key| key.1 == before).map(|key| key.0).collect();
        if children.is_empty() { any } else { *self.random.pick(&children) }
    }

    fn push_statement(&mut self, body: &mut Body, kind: u8, rel: usize) {
        let whole = self.sets[rel];
        let reads = if matches!(kind, KS | KL) { self.part_not_empty(whole) } else { self.part(whole) };
        let writes = if matches!(kind, IS | KD | PD) { whole } else { self.part_not_empty(whole) };
        let tests = self.part(whole);
        body.lines.push(statement(kind, body.statements.len(), rel, reads, writes, tests));
        body.statements.push((kind, rel, body.around.clone()));
    }

    fn part(&mut self, whole: u64) -> u64 {
        match self.random.below(4) {
            0 => 0,
            1 => whole,
            2 => whole & self.random.word() & self.random.word(),
            _ => whole & self.random.word(),
        }
    }

    fn part_not_empty(&mut self, whole: u64) -> u64 {
        match self.part(whole) {
            0 => whole & whole.wrapping_neg(),
            part => part,
        }
    }

    /// Links drawn from all that fit; for linked programs as many as may be.
    fn add_links(&mut self, body: &Body) {
        let most = self.limits.links;
        let wanted = if self.style == Style::Linked { most } else { self.random.between(0, most) };
        let fitting = self.fitting_links(body);
        for _ in 0..wanted.min(fitting.len()) {
            self.lines.push(*self.random.pick(&fitting));
        }
    }

    fn fitting_links(&self, body: &Body) -> Vec<Line> {
        let mut all = Vec::new();
        for (number, &ends) in self.keys.iter().enumerate() {
            for child in (0..body.statements.len()).filter(|&child| body.statements[child].1 == ends.0) {
                let parents = (0..body.statements.len()).filter(|&parent| fits(body, ends, child, parent));
                all.extend(parents.map(|parent| link(number, child, parent)));
            }
        }
        all
    }
}

fn open(body: &mut Body, kind: u8) {
    body.lines.push(plain(kind, 0));
    body.opened += 1;
    body.around.push(body.opened);
}

fn close(body: &mut Body) {
    body.lines.push(plain(EN, 0));
    body.around.pop();
}

fn sum(a: (u64, u64), b: (u64, u64)) -> (u64, u64) {
    (a.0.saturating_add(b.0), a.1.saturating_add(b.1))
}

fn in_a_row(a: (u64, u64), b: (u64, u64)) -> (u64, u64) {
    (a.0.saturating_mul(b.0), a.1.saturating_mul(b.0).saturating_add(b.1.saturating_mul(a.0)))
}

fn fits(body: &Body, key: (usize, usize), child: usize, parent: usize) -> bool {
    let (child, parent) = (&body.statements[child], &body.statements[parent]);
    let kind = matches!(parent.0, IS | KS | KU | KD | KL);
    kind && child.1 == key.0 && parent.1 == key.1 && parent.2.iter().all(|block| child.2.contains(block))
}
