//! What lent areas hold afterwards (docs/MODEL.md, "Refused because of the state", "Unfoldings", "Edges"), as `inspect --areas` prints it:
//! edges counted, by number and put into eight records; unfoldings and verdict with and without room; of a text's value and of
//! values that no text gives.

use crate::edges::*;
use crate::lines::text_of;
use crate::reader::read;
use crate::unfolding::*;
use crate::verdict::*;
use crate::workload::*;
use std::fmt::Write;

/// What untouched cells hold.
const MARK: Edge = Edge { node: 77, leaves: 77, into: 77, enters: 77, sharing: 77, lowest: 77, flow: b'm', letter: b'M' };
const MARKED: u64 = 77;

/// A value that some text may give: how many lines it tells, and its cells.
struct Value {
    count: usize,
    lines: [Line; MAX_LINES],
}

/// What a given value that is not too large unfolds to.
struct Accepted {
    workload: Workload,
    unfoldings: Box<Unfoldings>,
    edges: Vec<Edge>,
}

/// 21: written out as a text and read again, a value that some text gives is the same. 22: its unfoldings are too many.
fn accepted(value: &Value) -> Result<Accepted, u8> {
    if value.count > MAX_LINES || value.lines[value.count..].iter().any(|line| *line != EMPTY_LINE) {
        return Err(21);
    }
    let workload = Workload { count: value.count, lines: value.lines };
    match read(&text_of(workload.taken())) {
        Ok(again) if again.taken() == workload.taken() => {}
        _ => return Err(21),
    }
    let mut unfoldings = Box::new(Unfoldings::empty());
    if !unfold(&workload, &mut unfoldings) {
        return Err(22);
    }
    let spots = spots(&workload, &unfoldings);
    let edges = list(&unfoldings, &spots);
    Ok(Accepted { workload, unfoldings, edges })
}

fn put_record(out: &mut String, edge: &Edge) {
    let Edge { node, leaves, into, enters, sharing, lowest, .. } = edge;
    let (flow, letter) = (edge.flow as char, edge.letter as char);
    let _ = writeln!(out, "{node} {leaves} {into} {enters} {flow} {letter} {sharing} {lowest}");
}

fn show_number(out: &mut String, value: &Result<Accepted, u8>, k: usize) {
    let refusal = value.as_ref().err().copied().unwrap_or(0);
    let _ = write!(out, "edge {k} {refusal} ");
    match value.as_ref().ok().and_then(|accepted| accepted.edges.get(k)) {
        Some(edge) => put_record(out, edge),
        None => out.push_str("none\n"),
    }
}

fn show_edges(out: &mut String, value: &Result<Accepted, u8>) {
    let (refusal, edges, back) = match value {
        Err(refusal) => (*refusal, 0, 0),
        Ok(accepted) => (0, accepted.edges.len(), accepted.edges.iter().filter(|edge| edge.flow == b'b').count()),
    };
    let _ = writeln!(out, "edges {refusal} {edges} {back}");
    show_number(out, value, 0);
    show_number(out, value, edges / 2);
    if edges > 0 {
        show_number(out, value, edges - 1);
    }
    show_number(out, value, edges);
}

fn show_put(out: &mut String, value: &Result<Accepted, u8>) {
    let mut area = [MARK; 8];
    let refusal = match value {
        Err(refusal) => *refusal,
        Ok(accepted) if accepted.edges.len() > area.len() => 20,
        Ok(accepted) => {
            area[..accepted.edges.len()].copy_from_slice(&accepted.edges);
            0
        }
    };
    let _ = writeln!(out, "put {refusal}");
    area.iter().for_each(|edge| put_record(out, edge));
}

fn show_unfoldings(out: &mut String, value: &Result<Accepted, u8>, room: usize) {
    let mut area = [MARKED; 12];
    let (refusal, nodes) = match value {
        Err(refusal) => (*refusal, 0),
        Ok(accepted) if accepted.unfoldings.places > room => (20, 0),
        Ok(accepted) => {
            for (cell, place) in area.iter_mut().zip(&accepted.unfoldings.place[..accepted.unfoldings.places]) {
                *cell = accepted.workload.lines[place.line as usize].id as u64;
            }
            (0, accepted.unfoldings.nodes)
        }
    };
    let cells: Vec<String> = area.iter().map(|cell| cell.to_string()).collect();
    let _ = writeln!(out, "unfold {room} {refusal} {nodes} : {}", cells.join(" "));
}

/// The last number says whether a cell after the walk has changed: never.
fn show_verdict(out: &mut String, value: &Result<Accepted, u8>, room: usize) {
    let _ = match value {
        Err(refusal) => writeln!(out, "verdict {room} {refusal} 0 0 0 0"),
        Ok(_) if room / 4 < MAX_STEPS => writeln!(out, "verdict {room} 20 0 0 0 0"),
        Ok(accepted) => {
            let verdict = judge(&accepted.workload, &mut [EMPTY_STEP; MAX_STEPS]).expect("not too many");
            writeln!(out, "verdict {room} 0 {} {} {} 0", (verdict.steps > 0) as u8, verdict.edges, verdict.back)
        }
    };
}

fn show_value(out: &mut String, value: &Value) {
    let value = accepted(value);
    let places = value.as_ref().map_or(0, |accepted| accepted.unfoldings.places);
    show_edges(out, &value);
    show_put(out, &value);
    show_unfoldings(out, &value, 12);
    show_unfoldings(out, &value, places);
    if places > 0 {
        show_unfoldings(out, &value, places - 1);
    }
    [264, 260, 259].iter().for_each(|room| show_verdict(out, &value, *room));
}

/// Everything of a text's value, and of four values near it that no text gives.
pub fn areas(text: &[u8]) -> String {
    let workload = match read(text) {
        Ok(workload) => workload,
        Err(refusal) => return format!("refused line\n{} {}\n", refusal.number, refusal.line),
    };
    let plain = || Value { count: workload.count, lines: workload.lines };
    let relation = |writes| Line { kind: RL, reads: 3, writes, ..EMPTY_LINE };
    let mut out = String::new();
    show_value(&mut out, &plain());
    out.push_str("a loop left open\n");
    let mut value = plain();
    value.lines[value.count].kind = LO;
    value.count += 1;
    show_value(&mut out, &value);
    out.push_str("a relation in the cell after the last line\n");
    value = plain();
    value.lines[value.count] = relation(0);
    show_value(&mut out, &value);
    out.push_str("a first line with writes, which its kind lacks\n");
    value = plain();
    value.lines[0] = relation(1);
    show_value(&mut out, &value);
    out.push_str("more lines than cells\n");
    value = plain();
    value.count = MAX_LINES + 1;
    show_value(&mut out, &value);
    out
}
