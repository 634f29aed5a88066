//! The reader: any bytes to a workload, or a refusal's number and line (docs/MODEL.md, "The workload text"
//! and "Refused because of the input"; the kind kl, by Req 03 as ks).

use crate::workload::*;

pub const NAMES_LINE: &[u8] = b"kind id rel to reads writes tests\n";

#[derive(Clone, Copy, PartialEq, Eq, Debug)]
pub struct Refusal {
    pub number: u8,
    pub line: usize,
}

/// What the lines so far settle: counts, the relations' sets, the keys' ends, and the program at hand.
struct State {
    relations: usize,
    sets: [u64; MAX_RELATIONS],
    keys: usize,
    child: [u8; MAX_KEYS],
    parent: [u8; MAX_KEYS],
    programs: usize,
    program: Program,
}

/// The program at hand. A loop, and each arm of a branch, is numbered by the line that opens it.
struct Program {
    statements: usize,
    lines: usize,
    links: usize,
    depth: usize,
    blocks: [Block; MAX_DEPTH],
    known: [Statement; MAX_STATEMENTS],
}

#[derive(Clone, Copy)]
struct Block {
    kind: u8, // LO, BR (first arm) or EL (second arm)
    around: u64, // the loops and arms around a line inside, one bit each, this block's included
}

#[derive(Clone, Copy)]
struct Statement {
    kind: u8,
    rel: u8,
    around: u64,
}

impl Program {
    fn new() -> Program {
        Program {
            statements: 0,
            lines: 0,
            links: 0,
            depth: 0,
            blocks: [Block { kind: LO, around: 0 }; MAX_DEPTH],
            known: [Statement { kind: IS, rel: 0, around: 0 }; MAX_STATEMENTS],
        }
    }

    /// The loops and arms around a line of the first `depth` open blocks.
    fn around(&self, depth: usize) -> u64 {
        if depth == 0 { 0 } else { self.blocks[depth - 1].around }
    }

    fn innermost(&self) -> Option<u8> {
        if self.depth == 0 { None } else { Some(self.blocks[self.depth - 1].kind) }
    }
}

/// Reads a text into `into`, which may hold another one from before: lines past its count are not looked at. On a refusal nothing is
/// loaded: `into` is left empty.
pub fn read_into(text: &[u8], into: &mut Workload) -> Result<(), Refusal> {
    into.count = 0;
    whole_text(text)?;
    let outcome = lines(text, into);
    if outcome.is_err() {
        into.count = 0;
    }
    outcome
}

pub fn read(text: &[u8]) -> Result<Box<Workload>, Refusal> {
    let mut workload = Box::new(Workload::empty());
    read_into(text, &mut workload)?;
    Ok(workload)
}

/// The lines that were taken of a text before its fault, or all where it has none: none where the text as a whole is refused (1, 2, 3).
pub fn taken_before_fault(text: &[u8]) -> Box<Workload> {
    let mut workload = Box::new(Workload::empty());
    if whole_text(text).is_ok() {
        // the fault itself is what `read` tells
        let _ = lines(text, &mut workload);
    }
    workload
}

fn refusal(number: u8, line: usize) -> Result<(), Refusal> {
    Err(Refusal { number, line })
}

// ---- 1, 2, 3: the whole text first

fn whole_text(text: &[u8]) -> Result<(), Refusal> {
    if text.len() > MAX_BYTES {
        return refusal(1, 0);
    }
    if has_forbidden(text) {
        let before = text.iter().take_while(|&&byte| allowed(byte));
        return refusal(2, 1 + before.filter(|&&byte| byte == b'\n').count());
    }
    if text.last() != Some(&b'\n') {
        return refusal(2, 0);
    }
    if !text.starts_with(NAMES_LINE) {
        return refusal(3, 1);
    }
    Ok(())
}

fn allowed(byte: u8) -> bool {
    matches!(byte, b'\n' | b' ' | b'-' | b'0'..=b'9' | b'a'..=b'z')
}

/// Without an early end, so that many bytes are tested at once.
fn has_forbidden(text: &[u8]) -> bool {
    text.iter().fold(false, |found, &byte| found | !allowed(byte))
}

// ---- then line by line, each tested in the order 4, 9, 7, 6, 5, 8

fn lines(text: &[u8], into: &mut Workload) -> Result<(), Refusal> {
    let mut state = State {
        relations: 0,
        sets: [0; MAX_RELATIONS],
        keys: 0,
        child: [0; MAX_KEYS],
        parent: [0; MAX_KEYS],
        programs: 0,
        program: Program::new(),
    };
    let mut place = NAMES_LINE.len();
    let mut number = 1;
    while place < text.len() {
        number += 1;
        let Some((line, next)) = form(text, place) else {
            return refusal(4, number);
        };
        let fault = fault(&state, &line);
        if fault != 0 {
            return refusal(fault, number);
        }
        take(&mut state, &line);
        into.lines[into.count] = line;
        into.count += 1;
        place = next;
    }
    if state.program.depth > 0 {
        return refusal(7, number);
    }
    Ok(())
}

fn fault(state: &State, line: &Line) -> u8 {
    if past_bound(state, line) {
        9
    } else if out_of_order(state, line) {
        7
    } else if wrong_id(state, line) {
        6
    } else if wrong_set(state, line) {
        5
    } else if wrong_link(state, line) {
        8
    } else {
        0
    }
}

// ---- 4: the form of a line

/// The line that begins at `start` and where the next begins, or nothing if it is no value line.
fn form(text: &[u8], start: usize) -> Option<(Line, usize)> {
    let kind = kind_of(text.get(start..start + 2)?)?;
    let has = &FIELDS[kind as usize];
    let (id, at) = number_field(text, start + 2, has.id)?;
    let (rel, at) = number_field(text, at, has.rel)?;
    let (to, at) = number_field(text, at, has.to)?;
    let (reads, at) = set_field(text, at, has.reads)?;
    let (writes, at) = set_field(text, at, has.writes)?;
    let (tests, at) = set_field(text, at, has.tests)?;
    if text[at] != b'\n' {
        return None;
    }
    Some((Line { kind, id, rel, to, reads, writes, tests }, at + 1))
}

fn kind_of(letters: &[u8]) -> Option<u8> {
    Some(match letters {
        b"is" => IS,
        b"ks" => KS,
        b"ps" => PS,
        b"ku" => KU,
        b"pu" => PU,
        b"kd" => KD,
        b"pd" => PD,
        b"kl" => KL,
        b"rl" => RL,
        b"fk" => FK,
        b"pr" => PR,
        b"lo" => LO,
        b"br" => BR,
        b"el" => EL,
        b"en" => EN,
        b"li" => LI,
        _ => return None,
    })
}

/// A space and a `-`, or a space and digits in a base, of at most so many; and the place after. What follows is tested by the next field.
/// The text ends with 0A and no field passes one, so `at` always lies within the text.
fn digits_field<const BASE: u64>(text: &[u8], at: usize, present: bool, most: usize) -> Option<(u64, usize)> {
    if text[at] != b' ' {
        return None;
    }
    if !present {
        return if text[at + 1] == b'-' { Some((0, at + 2)) } else { None };
    }
    let start = at + 1;
    let mut end = start;
    let mut value = 0u64;
    while end < start + most {
        let digit = match text[end] {
            byte @ b'0'..=b'9' => byte - b'0',
            byte @ b'a'..=b'f' if BASE == 16 => byte - b'a' + 10,
            _ => break,
        };
        value = value * BASE + digit as u64;
        end += 1;
    }
    if end == start || (text[start] == b'0' && end > start + 1) {
        return None;
    }
    Some((value, end))
}

fn number_field(text: &[u8], at: usize, present: bool) -> Option<(u8, usize)> {
    let (value, end) = digits_field::<10>(text, at, present, 3)?;
    if value > 255 {
        return None;
    }
    Some((value as u8, end))
}

fn set_field(text: &[u8], at: usize, present: bool) -> Option<(u64, usize)> {
    digits_field::<16>(text, at, present, 16)
}

// ---- 9: one more than a bound. Counts are those of the lines so far, whether or not this line is in order.

fn past_bound(state: &State, line: &Line) -> bool {
    let program = &state.program;
    match line.kind {
        RL => state.relations == MAX_RELATIONS,
        FK => state.keys == MAX_KEYS,
        PR => state.programs == MAX_PROGRAMS,
        LI => program.links == MAX_LINKS,
        LO | BR => program.lines == MAX_PROGRAM_LINES || program.depth == MAX_DEPTH,
        EL | EN => program.lines == MAX_PROGRAM_LINES,
        _ => program.lines == MAX_PROGRAM_LINES || program.statements == MAX_STATEMENTS,
    }
}

// ---- 7: order and blocks

fn out_of_order(state: &State, line: &Line) -> bool {
    let program = &state.program;
    match line.kind {
        RL => state.keys > 0 || state.programs > 0,
        FK => state.programs > 0,
        PR => program.depth > 0,
        LI => state.programs == 0 || program.depth > 0,
        EL => program.links > 0 || program.innermost() != Some(BR),
        EN => program.links > 0 || !matches!(program.innermost(), Some(LO | EL)),
        _ => state.programs == 0 || program.links > 0,
    }
}

// ---- 6: an id out of count, or naming nothing

fn wrong_id(state: &State, line: &Line) -> bool {
    let program = &state.program;
    let no_relation = |id: u8| id as usize >= state.relations;
    let no_statement = |id: u8| id as usize >= program.statements;
    match line.kind {
        RL => line.id as usize != state.relations,
        FK => line.id as usize != state.keys || no_relation(line.rel) || no_relation(line.to),
        PR => line.id as usize != state.programs,
        LI => line.id as usize >= state.keys || no_statement(line.rel) || no_statement(line.to),
        LO | BR | EL | EN => false,
        _ => line.id as usize != program.statements || no_relation(line.rel),
    }
}

// ---- 5: a set against the rules

fn wrong_set(state: &State, line: &Line) -> bool {
    if line.kind == RL {
        return line.reads == 0;
    }
    if !is_statement(line.kind) {
        return false;
    }
    let whole = state.sets[line.rel as usize];
    if (line.reads | line.writes | line.tests) & !whole != 0 {
        return true;
    }
    match line.kind {
        KS | KL => line.reads == 0,
        KU | PU => line.writes == 0,
        IS | KD | PD => line.writes != whole,
        _ => false,
    }
}

// ---- 8: a link against the rules

fn wrong_link(state: &State, line: &Line) -> bool {
    if line.kind != LI {
        return false;
    }
    let child = &state.program.known[line.rel as usize];
    let parent = &state.program.known[line.to as usize];
    let key = line.id as usize;
    child.rel != state.child[key]
        || parent.rel != state.parent[key]
        || !matches!(parent.kind, IS | KS | KU | KD | KL)
        || parent.around & !child.around != 0
}

// ---- a line without fault is taken

fn take(state: &mut State, line: &Line) {
    match line.kind {
        RL => {
            state.sets[state.relations] = line.reads;
            state.relations += 1;
        }
        FK => {
            state.child[state.keys] = line.rel;
            state.parent[state.keys] = line.to;
            state.keys += 1;
        }
        PR => {
            state.programs += 1;
            start_program(&mut state.program);
        }
        LI => state.program.links += 1,
        _ => take_program_line(&mut state.program, line),
    }
}

/// Known statements and blocks of the program before need no clearing: counts say which are of this one.
fn start_program(program: &mut Program) {
    program.statements = 0;
    program.lines = 0;
    program.links = 0;
    program.depth = 0;
}

fn take_program_line(program: &mut Program, line: &Line) {
    let own = 1u64 << program.lines;
    match line.kind {
        LO | BR => {
            let around = program.around(program.depth) | own;
            program.blocks[program.depth] = Block { kind: line.kind, around };
            program.depth += 1;
        }
        EL => {
            let around = program.around(program.depth - 1) | own;
            program.blocks[program.depth - 1] = Block { kind: EL, around };
        }
        EN => program.depth -= 1,
        _ => {
            let around = program.around(program.depth);
            program.known[program.statements] = Statement { kind: line.kind, rel: line.rel, around };
            program.statements += 1;
        }
    }
    program.lines += 1;
}
