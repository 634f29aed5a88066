//! Judges another program's output on a text: every byte of the report, the walk too; and the walk once more by the checker.

use crate::reader::read;
use crate::report::*;
use crate::verdict::*;
use crate::walk::fault_of_walk;
use crate::workload::*;
use std::io::{Read, Write};
use std::process::{Command, Stdio};

/// Saves a text that shows a difference under found/; its path, or that it could not be saved.
pub fn saved(name: &str, text: &[u8]) -> String {
    let path = format!("found/{name}.txt");
    let outcome = std::fs::create_dir_all("found").and_then(|_| std::fs::write(&path, text));
    outcome.map_or_else(|error| format!("not saved: {error}"), |_| path)
}

/// What a program gave on a text.
pub struct Ran {
    pub output: Vec<u8>,
    pub errors: Vec<u8>,
    pub status: Option<i32>,
}

/// Runs a program (with arguments, parted by spaces) on a text.
pub fn run(program: &str, text: &[u8]) -> std::io::Result<Ran> {
    let mut words = program.split_whitespace();
    let mut child = Command::new(words.next().unwrap_or(""))
        .args(words)
        .stdin(Stdio::piped())
        .stdout(Stdio::piped())
        .stderr(Stdio::piped())
        .spawn()?;
    // A program may stop reading past 32,768 bytes: a broken pipe is no fault. Output is small for reports, but
    // listings are large, so the text is fed from its own thread where pipes might fill.
    let mut input = child.stdin.take().expect("piped");
    let mut output = Vec::new();
    let mut errors = Vec::new();
    if text.len() <= 60_000 {
        let _ = input.write_all(text);
        drop(input);
        child.stdout.take().expect("piped").read_to_end(&mut output)?;
    } else {
        let text = text.to_vec();
        let feeder = std::thread::spawn(move || {
            let _ = input.write_all(&text);
        });
        child.stdout.take().expect("piped").read_to_end(&mut output)?;
        let _ = feeder.join();
    }
    child.stderr.take().expect("piped").read_to_end(&mut errors)?;
    Ok(Ran { output, errors, status: child.wait()?.code() })
}

/// The outcome by name (`robust`, `danger`, `refused N`), or what is wrong with the report.
pub fn check_report(text: &[u8], ran: &Ran) -> Result<String, String> {
    let expected = report(text);
    let word = expected.lines().nth(1).unwrap_or("").split(' ').next().unwrap_or("");
    if word == "danger" {
        // first, since it says more of a walk than that it is another one
        check_walk(text, &String::from_utf8_lossy(&ran.output))?;
    }
    check_same(&expected, ran)?;
    Ok(if word == "robust" || word == "danger" { word.to_string() } else { format!("refused {word}") })
}

/// The whole output compared.
pub fn check_same(expected: &str, ran: &Ran) -> Result<(), String> {
    check_ended(ran)?;
    if ran.output == expected.as_bytes() {
        return Ok(());
    }
    let output = String::from_utf8_lossy(&ran.output);
    let differs = expected.lines().zip(output.lines()).position(|(a, b)| a != b);
    let line = differs.unwrap_or(expected.lines().count().min(output.lines().count()));
    let at = |text: &str| text.lines().nth(line).unwrap_or("(nothing)").to_string();
    Err(format!("line {}: expected {:?} but got {:?}", line + 1, at(expected), at(&output)))
}

fn check_ended(ran: &Ran) -> Result<(), String> {
    if ran.status != Some(0) {
        return Err(format!("ended with status {:?}, errors {:?}", ran.status, String::from_utf8_lossy(&ran.errors)));
    }
    if !ran.errors.is_empty() {
        return Err(format!("wrote errors: {:?}", String::from_utf8_lossy(&ran.errors)));
    }
    Ok(())
}

/// Nothing where the output shows a lawful walk, the first or not, or none at all; else what is wrong with it.
fn check_walk(text: &[u8], output: &str) -> Result<(), String> {
    let Some((_, steps)) = output.split_once(STEP_NAMES) else { return Ok(()) };
    let walk = parse_walk(steps)?;
    let unfolded = unfolded(text).map_err(|_| "the text is refused".to_string())?;
    match fault_of_walk(&unfolded.unfoldings, &unfolded.spots, &walk) {
        None => Ok(()),
        Some(fault) => Err(format!("the walk is not lawful: {fault}\n{steps}")),
    }
}

/// The steps of a report. Written again they must give the same bytes, so no other form passes.
pub fn parse_walk(steps: &str) -> Result<Vec<Step>, String> {
    let mut walk = Vec::new();
    let mut again = String::new();
    for (number, line) in steps.lines().enumerate() {
        let step = parse_step(number, line).ok_or_else(|| format!("not a step: {line:?}"))?;
        again.push_str(&format!("{number} {} {} {} {}\n", step.node, step.leaves, step.enters, step.flow as char));
        walk.push(step);
    }
    if again == steps { Ok(walk) } else { Err(format!("steps not in the report's form: {steps:?}")) }
}

fn parse_step(number: usize, line: &str) -> Option<Step> {
    let fields: Vec<&str> = line.split(' ').collect();
    if fields.len() != 5 || fields[0].parse() != Ok(number) || fields[4].len() != 1 {
        return None;
    }
    Some(Step {
        node: fields[1].parse().ok()?,
        leaves: fields[2].parse().ok()?,
        enters: fields[3].parse().ok()?,
        flow: fields[4].as_bytes()[0],
    })
}

/// What the reader says: how many lines, and a sum of all cells' values; or the refusal.
pub fn reading(text: &[u8]) -> String {
    match read(text) {
        Err(refusal) => format!("{REFUSED_NAMES}{} {}\n", refusal.number, refusal.line),
        Ok(workload) => format!("accepted lines {} sum {}\n", workload.count, workload.lines.iter().fold(0, sum_of)),
    }
}

/// A sum with a line's seven values more, in order. Kinds count from 1 in the order is ks ps ku pu kd pd rl fk pr lo br el en li kl: kl, which
/// came later (Req 03), has the last number here, so that the sums of older texts stay.
fn sum_of(before: u64, line: &Line) -> u64 {
    const PRIME: u64 = 4_294_967_291;
    let small = [summed_kind(line.kind), line.id as u64, line.rel as u64, line.to as u64];
    let sets = [line.reads, line.writes, line.tests];
    small.iter().chain(&sets).fold(before, |sum, value| (sum * 31 + value % PRIME) % PRIME)
}

fn summed_kind(kind: u8) -> u64 {
    match kind {
        KL => 16,
        kind if is_statement(kind) => kind as u64 + 1,
        kind => kind as u64,
    }
}
