//! Random schedules of a workload that obey the rules (docs/MODEL.md, "Schedules"): executions with any number of turns, foreign
//! keys as fixed functions, statements that stand together, multiversion Read Committed; with locks, as Req 03 has them: a kl
//! is one read with lock of one tuple.
//!
//! A schedule is made statement by statement: a transaction is drawn, its next statement takes tuples that every rule
//! allows at that time, or waits. Where all wait, the schedule is given up.

use crate::random::Random;
use crate::workload::*;

/// A write's name: transaction, and which operation of it. Nothing stands for the start.
pub type Source = Option<(usize, usize)>;

#[derive(Clone, Copy, PartialEq, Eq, Debug)]
pub enum Sort {
    Write,
    Insert,
    Delete,
}

#[derive(Clone, Copy, Debug)]
pub struct Written {
    pub by: (usize, usize),
    pub sort: Sort,
    pub attributes: u64,
}

/// One operation with what it took: the sources of a read's attributes, lowest first; of a predicate read for each
/// tuple of the relation the existence and then the tested attributes.
#[derive(Clone, Debug)]
pub enum Operation {
    Read { tuple: usize, reads: u64, took: Vec<Source>, lock: bool },
    Predicate { rel: u8, tests: u64, took: Vec<Source> },
    Change { tuple: usize, sort: Sort, attributes: u64 },
    Commit,
}

/// The ban on writing or locking a tuple between another's write or lock of it and that one's commit; and, to see whether they are noticed,
/// weaker ones, each of which lets something through.
#[derive(Clone, Copy, PartialEq, Eq, Debug)]
pub enum Ban {
    Whole,
    LetsLockBehindLock,
    LetsLockBehindWrite,
    LetsWriteBehindLock,
    /// A kl is a ks.
    LetsAllOfLocks,
}

impl Ban {
    /// Whether the second waits for the commit of the transaction that did the first.
    pub fn forbids(self, first_locks: bool, then_locks: bool) -> bool {
        let let_through = match (first_locks, then_locks) {
            (false, false) => return true,
            (true, true) => Ban::LetsLockBehindLock,
            (false, true) => Ban::LetsLockBehindWrite,
            (true, false) => Ban::LetsWriteBehindLock,
        };
        self != let_through && self != Ban::LetsAllOfLocks
    }
}

/// What a schedule stands on: tuples with their relation and start, and the keys as functions on tuples.
pub struct Ground {
    pub rel: Vec<u8>,
    pub starts_visible: Vec<bool>,
    pub sets: Vec<u64>,
    pub keys: Vec<Vec<usize>>,
}

pub struct Schedule {
    pub ground: Ground,
    pub transactions: Vec<Vec<Operation>>,
    /// Each tuple's writes in the order of the schedule: its versions.
    pub versions: Vec<Vec<Written>>,
    /// (transaction, operation) in the order of the schedule.
    pub order: Vec<(usize, usize)>,
    /// Whether something had to wait for a lock, or a lock for something.
    pub held_up: bool,
}

/// A statement met in an execution, with its turn in each loop around it, outermost first, and the tuples it took.
struct Occurrence {
    line: usize,
    turns: Vec<usize>,
    tuples: Vec<usize>,
}

struct Transaction {
    links: Vec<Line>,
    occurrences: Vec<Occurrence>,
    next: usize,
    operations: Vec<Operation>,
    committed: bool,
}

// ---- sources

/// The last write of the attribute among these, else the start.
pub fn source(writes: &[Written], attribute: u32) -> Source {
    writes.iter().rev().find(|write| write.attributes >> attribute & 1 == 1).map(|write| write.by)
}

/// The last insert or delete among these, else the start.
pub fn existence(writes: &[Written]) -> Source {
    writes.iter().rev().find(|write| write.sort != Sort::Write).map(|write| write.by)
}

pub fn visible(starts_visible: bool, writes: &[Written]) -> bool {
    match writes.iter().rev().find(|write| write.sort != Sort::Write) {
        Some(write) => write.sort == Sort::Insert,
        None => starts_visible,
    }
}

pub fn sources(writes: &[Written], attributes: u64, out: &mut Vec<Source>) {
    let mut left = attributes;
    while left != 0 {
        out.push(source(writes, left.trailing_zeros()));
        left &= left - 1;
    }
}

// ---- the making of a schedule

/// A random schedule of `count` transactions, or nothing where the draw ended in a wait of all.
pub fn draw(random: &mut Random, workload: &Workload, count: usize, ban: Ban) -> Option<Schedule> {
    let lines = workload.taken();
    let starts: Vec<usize> = (0..lines.len()).filter(|&at| lines[at].kind == PR).collect();
    if starts.is_empty() {
        return None;
    }
    let ground = draw_ground(random, lines);
    let mut transactions = Vec::new();
    for _ in 0..count {
        let start = *random.pick(&starts);
        transactions.push(draw_transaction(random, lines, start));
    }
    let (versions, locked) = (vec![Vec::new(); ground.rel.len()], vec![Vec::new(); ground.rel.len()]);
    let mut making = Making { lines, ban, ground, transactions, versions, locked, order: Vec::new(), held_up: false };
    making.interleave(random)?;
    Some(Schedule {
        ground: making.ground,
        transactions: making.transactions.into_iter().map(|transaction| transaction.operations).collect(),
        versions: making.versions,
        order: making.order,
        held_up: making.held_up,
    })
}

/// One or two visible tuples of each relation, and unborn ones where something inserts.
fn draw_ground(random: &mut Random, lines: &[Line]) -> Ground {
    let sets: Vec<u64> = lines.iter().filter(|line| line.kind == RL).map(|line| line.reads).collect();
    let (mut rel, mut starts_visible) = (Vec::new(), Vec::new());
    for relation in 0..sets.len() {
        let inserts = lines.iter().any(|line| line.kind == IS && line.rel as usize == relation);
        let (born, unborn) = (random.between(1, 2), if inserts { random.between(1, 3) } else { random.below(2) });
        for number in 0..born + unborn {
            rel.push(relation as u8);
            starts_visible.push(number < born);
        }
    }
    let keys = lines.iter().filter(|line| line.kind == FK).map(|key| draw_key(random, key, &rel, &starts_visible)).collect();
    Ground { rel, starts_visible, sets, keys }
}

/// Mostly to visible parents, so that fewer draws end in a wait; within one relation often to the tuple itself, for links to itself.
fn draw_key(random: &mut Random, key: &Line, rel: &[u8], starts_visible: &[bool]) -> Vec<usize> {
    let parents: Vec<usize> = (0..rel.len()).filter(|&tuple| rel[tuple] == key.to).collect();
    let visible: Vec<usize> = parents.iter().copied().filter(|&tuple| starts_visible[tuple]).collect();
    let mut parent_of = |child: usize| {
        if key.rel == key.to && rel[child] == key.rel && random.chance(2, 3) {
            child
        } else if random.chance(3, 4) {
            *random.pick(&visible)
        } else {
            *random.pick(&parents)
        }
    };
    (0..rel.len()).map(&mut parent_of).collect()
}

fn draw_transaction(random: &mut Random, lines: &[Line], start: usize) -> Transaction {
    let mut occurrences = Vec::new();
    let mut at = start + 1;
    draw_run(random, lines, &mut at, &[], true, &mut occurrences);
    let links = lines[start + 1..].iter().take_while(|line| line.kind != PR).filter(|line| line.kind == LI).copied().collect();
    Transaction { links, occurrences, next: 0, operations: Vec::new(), committed: false }
}

/// Walks over the run at `at`, which is moved to its end, and keeps what is met where `taken`.
fn draw_run(random: &mut Random, lines: &[Line], at: &mut usize, turns: &[usize], taken: bool, out: &mut Vec<Occurrence>) {
    while *at < lines.len() {
        match lines[*at].kind {
            LO => draw_loop(random, lines, at, turns, taken, out),
            BR => {
                let first = random.chance(1, 2);
                *at += 1;
                draw_run(random, lines, at, turns, taken && first, out);
                *at += 1;
                draw_run(random, lines, at, turns, taken && !first, out);
            }
            kind if is_statement(kind) => {
                if taken {
                    out.push(Occurrence { line: *at, turns: turns.to_vec(), tuples: Vec::new() });
                }
            }
            _ => return,
        }
        *at += 1;
    }
}

/// No turn up to three.
fn draw_loop(random: &mut Random, lines: &[Line], at: &mut usize, turns: &[usize], taken: bool, out: &mut Vec<Occurrence>) {
    let body = *at + 1;
    let count = *random.pick(&[0, 1, 1, 2, 2, 3]);
    for turn in 0..count {
        draw_run(random, lines, &mut { body }, &[turns, &[turn]].concat(), taken, out);
    }
    *at = body;
    draw_run(random, lines, at, turns, false, out);
}

struct Making<'a> {
    lines: &'a [Line],
    ban: Ban,
    ground: Ground,
    transactions: Vec<Transaction>,
    versions: Vec<Vec<Written>>,
    /// The transactions that locked each tuple.
    locked: Vec<Vec<usize>>,
    order: Vec<(usize, usize)>,
    held_up: bool,
}

impl Making<'_> {
    fn interleave(&mut self, random: &mut Random) -> Option<()> {
        let mut active: Vec<usize> = (0..self.transactions.len()).collect();
        let mut waiting = 0;
        while !active.is_empty() {
            let drawn = random.below(active.len());
            let own = active[drawn];
            if self.step(random, own) {
                waiting = 0;
                if self.transactions[own].committed {
                    active.remove(drawn);
                }
            } else {
                waiting += 1;
                if waiting > 12 {
                    return None;
                }
            }
        }
        Some(())
    }

    /// The transaction's next statement or its commit; false where it must wait.
    fn step(&mut self, random: &mut Random, own: usize) -> bool {
        let next = self.transactions[own].next;
        if next == self.transactions[own].occurrences.len() {
            self.perform(own, Operation::Commit);
            self.transactions[own].committed = true;
            return true;
        }
        let line = self.lines[self.transactions[own].occurrences[next].line];
        let may_take = |ban: Ban| -> Vec<usize> {
            (0..self.ground.rel.len()).filter(|&tuple| self.may_take(own, next, &line, tuple, ban)).collect()
        };
        let mut candidates = may_take(self.ban);
        self.held_up |= candidates != may_take(Ban::LetsAllOfLocks);
        if matches!(line.kind, PS | PU | PD) {
            candidates.retain(|_| random.chance(1, 2));
        } else if candidates.is_empty() {
            return false;
        } else {
            candidates = vec![*random.pick(&candidates)];
        }
        self.statement(own, &line, &candidates);
        self.transactions[own].occurrences[next].tuples = candidates;
        self.transactions[own].next += 1;
        true
    }

    /// The statement's operations, together.
    fn statement(&mut self, own: usize, line: &Line, tuples: &[usize]) {
        if matches!(line.kind, PS | PU | PD) {
            let took = self.predicate(own, line.rel, line.tests);
            self.perform(own, Operation::Predicate { rel: line.rel, tests: line.tests, took });
        }
        for &tuple in tuples {
            if matches!(line.kind, KS | PS | KU | PU | KL) {
                let mut took = Vec::new();
                sources(self.seen(own, tuple), line.reads, &mut took);
                self.perform(own, Operation::Read { tuple, reads: line.reads, took, lock: line.kind == KL });
            }
            match line.kind {
                KU | PU => self.perform(own, Operation::Change { tuple, sort: Sort::Write, attributes: line.writes }),
                IS => self.perform(own, Operation::Change { tuple, sort: Sort::Insert, attributes: u64::MAX }),
                KD | PD => self.perform(own, Operation::Change { tuple, sort: Sort::Delete, attributes: u64::MAX }),
                _ => {}
            }
        }
    }

    fn perform(&mut self, own: usize, operation: Operation) {
        let by = (own, self.transactions[own].operations.len());
        match operation {
            Operation::Change { tuple, sort, attributes } => self.versions[tuple].push(Written { by, sort, attributes }),
            Operation::Read { tuple, lock: true, .. } => self.locked[tuple].push(own),
            _ => {}
        }
        self.transactions[own].operations.push(operation);
        self.order.push(by);
    }

    // ---- the rules

    /// The version that a read sees: up to the own latest write, else up to the last committed one, else the start.
    fn seen(&self, own: usize, tuple: usize) -> &[Written] {
        let writes = &self.versions[tuple];
        let own_latest = writes.iter().rposition(|write| write.by.0 == own);
        let last = own_latest.or_else(|| writes.iter().rposition(|write| self.transactions[write.by.0].committed));
        match last {
            Some(at) => &writes[..at + 1],
            None => &[],
        }
    }

    fn predicate(&self, own: usize, rel: u8, tests: u64) -> Vec<Source> {
        let mut took = Vec::new();
        for tuple in (0..self.ground.rel.len()).filter(|&tuple| self.ground.rel[tuple] == rel) {
            let seen = self.seen(own, tuple);
            took.push(existence(seen));
            sources(seen, tests, &mut took);
        }
        took
    }

    fn may_take(&self, own: usize, next: usize, line: &Line, tuple: usize, ban: Ban) -> bool {
        if self.ground.rel[tuple] != line.rel || !self.links_hold(own, next, tuple) {
            return false;
        }
        let start = self.ground.starts_visible[tuple];
        let writes = &self.versions[tuple];
        let reads_visible = visible(start, self.seen(own, tuple));
        let writes_visible = visible(start, writes);
        let done = |by: usize| by == own || self.transactions[by].committed;
        let free = |locks: bool| {
            (!ban.forbids(false, locks) || writes.iter().all(|write| done(write.by.0)))
                && (!ban.forbids(true, locks) || self.locked[tuple].iter().all(|&by| done(by)))
        };
        match line.kind {
            KS | PS => reads_visible,
            KL => reads_visible && free(true),
            KU | PU => reads_visible && writes_visible && free(false),
            // nobody can have locked it
            IS => !start && writes.is_empty(),
            _ => writes_visible && free(false),
        }
    }

    /// Whether the links hold that bind this occurrence, with this tuple, to those that have their tuples.
    fn links_hold(&self, own: usize, next: usize, tuple: usize) -> bool {
        let transaction = &self.transactions[own];
        let occurrence = &transaction.occurrences[next];
        transaction.links.iter().all(|link| {
            let to_itself = self.is(occurrence, link.rel) && self.is(occurrence, link.to);
            let before = &transaction.occurrences[..next];
            (!to_itself || self.ground.keys[link.id as usize][tuple] == tuple)
                && before.iter().all(|other| self.link_holds(link, occurrence, tuple, other))
        })
    }

    /// Whether one link holds between an occurrence with this tuple and another that has its tuples, whichever is the child.
    fn link_holds(&self, link: &Line, occurrence: &Occurrence, tuple: usize, other: &Occurrence) -> bool {
        let key = &self.ground.keys[link.id as usize];
        let is_child = self.is(occurrence, link.rel) && self.is(other, link.to) && bound(other, occurrence);
        let is_parent = self.is(occurrence, link.to) && self.is(other, link.rel) && bound(occurrence, other);
        (!is_child || other.tuples.iter().all(|&parent| key[tuple] == parent))
            && (!is_parent || other.tuples.iter().all(|&child| key[child] == tuple))
    }

    fn is(&self, occurrence: &Occurrence, statement: u8) -> bool {
        self.lines[occurrence.line].id == statement
    }
}

/// The parent binds the child within one turn of each loop around the parent. By the rules on links those loops are
/// the outermost ones around the child.
fn bound(parent: &Occurrence, child: &Occurrence) -> bool {
    child.turns.starts_with(&parent.turns)
}
