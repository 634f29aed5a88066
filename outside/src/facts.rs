//! The listing of facts from which a verdict or a refusal is explained in words or drawn: one fact a line, its word first, fields parted by one
//! space. Lines of the text count from 1, the names line; everything else counts from 0. Unfoldings, edges and the first walk are those of the other
//! modules; what an unfolding chooses, what was taken before a fault, shared attributes and the dangerous pair are found here, plainly.

use crate::edges::*;
use crate::reader::*;
use crate::report::*;
use crate::unfolding::*;
use crate::verdict::*;
use crate::workload::*;
use std::fmt::Write;

/// A count that the listing of refusal 22 stops at: one more than the statements that all unfoldings may have.
pub const STOP: u64 = MAX_PLACES as u64 + 1;

/// The whole listing of any text.
pub fn facts(text: &[u8]) -> String {
    let listed = match unfolded(text) {
        Ok(unfolded) => Judged::of(&unfolded).facts(),
        Err(refusal) => refused(text, refusal.number, refusal.line),
    };
    format!("{listed}end\n")
}

/// `refused NUMBER LINE`, and what was taken before the fault, or for 22 how far each program unfolds.
fn refused(text: &[u8], number: u8, line: usize) -> String {
    let workload = taken_before_fault(text);
    let reasons = if number == 22 { unfolds(&workload) } else { before(workload.taken()) };
    format!("refused {number} {line}\n{reasons}")
}

/// The line of the text that a value line stands on: the names line comes before the first.
fn line_in_text(at: usize) -> usize {
    at + 2
}

/// Numbers as the fields at a line's end, each after a space, so that there is no space where there are none.
fn fields(numbers: impl IntoIterator<Item = usize>) -> String {
    numbers.into_iter().map(|number| format!(" {number}")).collect()
}

// ---- refused texts

/// `before LINES RELATIONS KEYS PROGRAMS STATEMENTS BODY LINKS DEPTH`: the lines that were taken, and of the program at hand, after the last pr among
/// them, its statements, its statement and flow lines, its links and the blocks that are open.
fn before(taken: &[Line]) -> String {
    let begin = taken.iter().rposition(|line| line.kind == PR).unwrap_or(taken.len());
    let of_kind = |lines: &[Line], kind: u8| lines.iter().filter(|line| line.kind == kind).count();
    let program = &taken[begin..];
    let statements = program.iter().filter(|line| is_statement(line.kind)).count();
    let flow = program.iter().filter(|line| is_flow(line.kind)).count();
    let depth = of_kind(program, LO) + of_kind(program, BR) - of_kind(program, EN);
    let counts = [
        taken.len(),
        of_kind(taken, RL),
        of_kind(taken, FK),
        of_kind(taken, PR),
        statements,
        statements + flow,
        of_kind(program, LI),
        depth,
    ];
    format!("before{}\n", fields(counts))
}

/// `unfolds P LINE UNFOLDINGS STATEMENTS` for each program, the last two stopped at 513.
fn unfolds(workload: &Workload) -> String {
    let mut out = String::new();
    for (program, counts) in counts_by_program(workload).iter().enumerate() {
        let (unfoldings, statements) = (counts.unfoldings.min(STOP), counts.statements.min(STOP));
        let _ = writeln!(out, "unfolds {program} {} {unfoldings} {statements}", line_in_text(counts.begins));
    }
    out
}

// ---- what unfoldings choose

/// What an unfolding chooses, in the order in which it comes to it: the line of a loop with its turns, 0 to 2, or of a branch with its arm, 1 or 2.
type Choices = Vec<(usize, usize)>;

/// The choices of all unfoldings of the run at `at`, in their order; `at` is moved to the line after the run.
fn choices_of_run(lines: &[Line], at: &mut usize) -> Vec<Choices> {
    let mut all = vec![Choices::new()];
    while *at < lines.len() {
        match lines[*at].kind {
            LO => all = in_a_row(&all, &choices_of_loop(lines, at)),
            BR => all = in_a_row(&all, &choices_of_branch(lines, at)),
            kind if is_statement(kind) => {}
            _ => break,
        }
        *at += 1;
    }
    all
}

/// The choices of the loop that `at` opens; `at` is moved to its en.
fn choices_of_loop(lines: &[Line], at: &mut usize) -> Vec<Choices> {
    let line = line_in_text(*at);
    *at += 1;
    let turn = choices_of_run(lines, at);
    let turns = [vec![Choices::new()], turn.clone(), in_a_row(&turn, &turn)];
    turns.iter().enumerate().flat_map(|(number, inside)| in_a_row(&[vec![(line, number)]], inside)).collect()
}

/// The choices of the branch that `at` opens; `at` is moved to its en.
fn choices_of_branch(lines: &[Line], at: &mut usize) -> Vec<Choices> {
    let line = line_in_text(*at);
    let mut all = Vec::new();
    for arm in 1..=2 {
        *at += 1;
        all.extend(in_a_row(&[vec![(line, arm)]], &choices_of_run(lines, at)));
    }
    all
}

/// Each of the first with each of the second behind it, the first changing slowest.
fn in_a_row(first: &[Choices], then: &[Choices]) -> Vec<Choices> {
    first.iter().flat_map(|a| then.iter().map(move |b| [a.as_slice(), b.as_slice()].concat())).collect()
}

// ---- accepted texts

/// An accepted text with all that is listed of it.
struct Judged<'a> {
    unfolded: &'a Unfolded,
    edges: Vec<Edge>,
    verdict: Verdict,
    walk: Vec<Step>,
}

impl Judged<'_> {
    fn of(unfolded: &Unfolded) -> Judged<'_> {
        let mut walk = [EMPTY_STEP; MAX_STEPS];
        let Unfolded { workload, unfoldings, spots } = unfolded;
        let verdict = judge_graph(workload.programs(), unfoldings, spots, &mut walk);
        Judged { unfolded, edges: list(unfoldings, spots), verdict, walk: walk[..verdict.steps].to_vec() }
    }

    fn facts(&self) -> String {
        let Verdict { programs, nodes, edges, back, steps } = self.verdict;
        let word = if steps == 0 { "robust" } else { "danger" };
        let mut out = format!("verdict {word} {programs} {nodes} {edges} {back}\n");
        self.list_programs(&mut out);
        self.list_nodes(&mut out);
        self.list_places(&mut out);
        self.list_between(&mut out);
        if steps > 0 {
            self.list_steps(&mut out);
            out.push_str(&self.pair());
        }
        out
    }

    /// Where each program's pr stands among the lines.
    fn begins(&self) -> Vec<usize> {
        let lines = self.unfolded.workload.taken();
        (0..lines.len()).filter(|&at| lines[at].kind == PR).collect()
    }

    fn program_of(&self, node: u64) -> usize {
        self.unfolded.unfoldings.node[node as usize].program as usize
    }

    /// The statement at a place, and its line in the text.
    fn statement(&self, node: u64, place: u64) -> (&Line, usize) {
        let at = self.unfolded.unfoldings.places_of(node as usize)[place as usize].line as usize;
        (&self.unfolded.workload.lines[at], line_in_text(at))
    }

    /// `program P LINE NODES STATEMENTS EDGES BACK`: the edges are those that leave its nodes.
    fn list_programs(&self, out: &mut String) {
        for (program, at) in self.begins().into_iter().enumerate() {
            let nodes = self.unfolded.unfoldings.all().iter().filter(|node| node.program as usize == program);
            let leaving: Vec<&Edge> = self.edges.iter().filter(|edge| self.program_of(edge.node) == program).collect();
            let counts = [
                program,
                line_in_text(at),
                nodes.clone().count(),
                nodes.map(|node| node.length as usize).sum(),
                leaving.len(),
                leaving.iter().filter(|edge| edge.flow == b'b').count(),
            ];
            let _ = writeln!(out, "program{}", fields(counts));
        }
    }

    /// `node M PROGRAM NUMBER LINE CHOICE LINE CHOICE ...`
    fn list_nodes(&self, out: &mut String) {
        let mut node = 0;
        for (program, at) in self.begins().into_iter().enumerate() {
            let unfoldings = choices_of_run(self.unfolded.workload.taken(), &mut (at + 1));
            for (number, choices) in unfoldings.iter().enumerate() {
                let chosen = fields(choices.iter().flat_map(|&(line, choice)| [line, choice]));
                let _ = writeln!(out, "node {node} {program} {number}{chosen}");
                node += 1;
            }
        }
    }

    /// `places M LINE LINE ...`
    fn list_places(&self, out: &mut String) {
        for node in 0..self.verdict.nodes {
            let places = self.unfolded.unfoldings.places_of(node);
            let _ = writeln!(out, "places {node}{}", fields(places.iter().map(|place| line_in_text(place.line as usize))));
        }
    }

    /// `between M N FORWARD BACK`, pairs without an edge left out.
    fn list_between(&self, out: &mut String) {
        let mut counts = [[(0, 0); MAX_NODES]; MAX_NODES];
        for edge in &self.edges {
            let (forward, back) = &mut counts[edge.node as usize][edge.into as usize];
            *(if edge.flow == b'f' { forward } else { back }) += 1;
        }
        for (m, row) in counts.iter().enumerate() {
            for (n, (forward, back)) in row.iter().enumerate().filter(|(_, counts)| **counts != (0, 0)) {
                let _ = writeln!(out, "between {m} {n} {forward} {back}");
            }
        }
    }

    /// `step K M I LINE N J LINE FLOW EDGE LETTER SHARED LOWEST ATTRIBUTE ...`
    fn list_steps(&self, out: &mut String) {
        for (number, step) in self.walk.iter().enumerate() {
            let next = &self.walk[(number + 1) % self.walk.len()];
            let (at, edge) = self.edge_of(step, next);
            let Edge { node, leaves, into, enters, sharing, lowest, .. } = *edge;
            let (flow, letter) = (edge.flow as char, edge.letter as char);
            let ((p, left), (q, entered)) = (self.statement(node, leaves), self.statement(into, enters));
            let shared = fields(shared_attributes(edge.letter, p, q));
            let _ = writeln!(
                out,
                "step {number} {node} {leaves} {left} {into} {enters} {entered} {flow} {at} {letter} {sharing} {lowest}{shared}"
            );
        }
    }

    /// The record of a step, with its number in the list of all edges.
    fn edge_of(&self, step: &Step, next: &Step) -> (usize, &Edge) {
        let ends = [step.node as u64, step.leaves as u64, next.node as u64, step.enters as u64];
        let is_it = |edge: &&Edge| [edge.node, edge.leaves, edge.into, edge.enters] == ends && edge.flow == step.flow;
        let mut numbered = self.edges.iter().enumerate();
        numbered.find(|(_, edge)| is_it(edge)).expect("each step is an edge")
    }

    /// `pair E C BACK EARLIER LOOSE` of the first step E that makes a dangerous pair with the step after it.
    fn pair(&self) -> String {
        for e in 0..self.walk.len() {
            let c = (e + 1) % self.walk.len();
            let (before, after) = (&self.walk[e], &self.walk[c]);
            let (left, _) = self.statement(before.node as u64, before.leaves as u64);
            let reasons = [before.flow == b'b', after.leaves < before.enters, matches!(left.kind, KS | PS | PU | PD)];
            if after.flow == b'b' && reasons.contains(&true) {
                return format!("pair {e} {c}{}\n", fields(reasons.map(usize::from)));
            }
        }
        panic!("a dangerous walk has a dangerous pair");
    }
}

/// The attributes that stand in both sets which a letter compares, rising.
fn shared_attributes(letter: u8, p: &Line, q: &Line) -> impl Iterator<Item = usize> {
    let (left, entered) = match letter {
        b'A' => (p.writes, q.writes),
        b'B' => (p.writes, q.reads),
        b'C' => (p.writes, q.tests),
        b'D' => (p.reads, q.writes),
        _ => (p.tests, q.writes),
    };
    (0..64).filter(move |attribute| left >> attribute & 1 == 1 && entered >> attribute & 1 == 1)
}
