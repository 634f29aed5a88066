//! Lines made by hand, and lines written out as a text; kinds drawn with or without kl.

use crate::random::Random;
use crate::reader::NAMES_LINE;
use crate::workload::*;

pub fn text_of(lines: &[Line]) -> Vec<u8> {
    let mut text = NAMES_LINE.to_vec();
    for line in lines {
        text.extend_from_slice(line_text(line).as_bytes());
    }
    text
}

pub fn line_text(line: &Line) -> String {
    let has = &FIELDS[line.kind as usize];
    let number = |present: bool, value: u8| if present { value.to_string() } else { "-".to_string() };
    let set = |present: bool, value: u64| if present { format!("{value:x}") } else { "-".to_string() };
    format!(
        "{} {} {} {} {} {} {}\n",
        std::str::from_utf8(NAMES[line.kind as usize]).unwrap(),
        number(has.id, line.id),
        number(has.rel, line.rel),
        number(has.to, line.to),
        set(has.reads, line.reads),
        set(has.writes, line.writes),
        set(has.tests, line.tests)
    )
}

pub fn plain(kind: u8, id: usize) -> Line {
    Line { kind, id: id as u8, ..EMPTY_LINE }
}

pub fn relation(id: usize, set: u64) -> Line {
    Line { reads: set, ..plain(RL, id) }
}

pub fn key(id: usize, child: usize, parent: usize) -> Line {
    Line { rel: child as u8, to: parent as u8, ..plain(FK, id) }
}

pub fn link(key: usize, child: usize, parent: usize) -> Line {
    Line { rel: child as u8, to: parent as u8, ..plain(LI, key) }
}

/// A statement with the sets that its kind has; others are dropped.
pub fn statement(kind: u8, id: usize, rel: usize, reads: u64, writes: u64, tests: u64) -> Line {
    let has = &FIELDS[kind as usize];
    let keep = |present: bool, set: u64| if present { set } else { 0 };
    Line {
        rel: rel as u8,
        reads: keep(has.reads, reads),
        writes: keep(has.writes, writes),
        tests: keep(has.tests, tests),
        ..plain(kind, id)
    }
}

/// One of these kinds; where locks are drawn, half of the key selects and a quarter of the key updates become kl.
pub fn pick_kind(random: &mut Random, kinds: &[u8]) -> u8 {
    let kind = *random.pick(kinds);
    let part = match kind {
        KS if random.locks() => 2,
        KU if random.locks() => 1,
        _ => return kind,
    };
    if random.chance(part, 4) { KL } else { kind }
}

/// This kind, or where locks are drawn perhaps kl.
pub fn kind_or_lock(random: &mut Random, kind: u8) -> u8 {
    if random.locks() { pick_kind(random, &[kind]) } else { kind }
}
