//! The report (docs/MODEL.md, "Report"), and plain listings of unfoldings and edges.

use crate::edges::*;
use crate::reader::*;
use crate::unfolding::*;
use crate::verdict::*;
use crate::workload::*;
use std::fmt::Write;

pub const VERDICT_NAMES: &str = "verdict programs nodes edges back\n";
pub const STEP_NAMES: &str = "step node leaves enters flow\n";
pub const REFUSED_NAMES: &str = "refused line\n";

pub fn refused(number: u8, line: usize) -> String {
    format!("{REFUSED_NAMES}{number} {line}\n")
}

/// The report on any text.
pub fn report(text: &[u8]) -> String {
    let mut walk = [EMPTY_STEP; MAX_STEPS];
    let workload = match read(text) {
        Ok(workload) => workload,
        Err(refusal) => return refused(refusal.number, refusal.line),
    };
    match judge(&workload, &mut walk) {
        None => refused(22, 0),
        Some(verdict) => judged(&verdict, &walk[..verdict.steps]),
    }
}

pub fn judged(verdict: &Verdict, walk: &[Step]) -> String {
    let word = if walk.is_empty() { "robust" } else { "danger" };
    let Verdict { programs, nodes, edges, back, .. } = verdict;
    let mut out = format!("{VERDICT_NAMES}{word} {programs} {nodes} {edges} {back}\n");
    if !walk.is_empty() {
        out.push_str(STEP_NAMES);
    }
    for (number, step) in walk.iter().enumerate() {
        let _ = writeln!(out, "{number} {} {} {} {}", step.node, step.leaves, step.enters, step.flow as char);
    }
    out
}

/// A workload's unfoldings with the spots of their places.
pub struct Unfolded {
    pub workload: Box<Workload>,
    pub unfoldings: Box<Unfoldings>,
    pub spots: Vec<Spot>,
}

/// Reads and unfolds a text, or gives the refusal (22 with line 0).
pub fn unfolded(text: &[u8]) -> Result<Unfolded, Refusal> {
    let workload = read(text)?;
    let mut unfoldings = Box::new(Unfoldings::empty());
    if !unfold(&workload, &mut unfoldings) {
        return Err(Refusal { number: 22, line: 0 });
    }
    let spots = spots(&workload, &unfoldings)[..unfoldings.places].to_vec();
    Ok(Unfolded { workload, unfoldings, spots })
}

/// `node program start length statements`: one line for each unfolding, its statements' ids after it.
pub fn list_unfoldings(text: &[u8]) -> String {
    let unfolded = match unfolded(text) {
        Ok(unfolded) => unfolded,
        Err(refusal) => return refused(refusal.number, refusal.line),
    };
    let mut out = String::from("node program start length statements\n");
    for (number, node) in unfolded.unfoldings.all().iter().enumerate() {
        let _ = write!(out, "{number} {} {} {}", node.program, node.start, node.length);
        for place in unfolded.unfoldings.places_of(number) {
            let _ = write!(out, " {}", unfolded.workload.lines[place.line as usize].id);
        }
        out.push('\n');
    }
    out
}

/// Every edge record, in order.
pub fn list_edges(text: &[u8]) -> String {
    match unfolded(text) {
        Ok(unfolded) => listed_edges(&unfolded),
        Err(refusal) => refused(refusal.number, refusal.line),
    }
}

pub fn listed_edges(unfolded: &Unfolded) -> String {
    let mut out = String::from("node leaves node enters flow letter shared lowest\n");
    for edge in &list(&unfolded.unfoldings, &unfolded.spots) {
        let Edge { node, leaves, into, enters, sharing, lowest, .. } = edge;
        let (flow, letter) = (edge.flow as char, edge.letter as char);
        let _ = writeln!(out, "{node} {leaves} {into} {enters} {flow} {letter} {sharing} {lowest}");
    }
    out
}
