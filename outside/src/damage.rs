//! Damaged texts from a seed: lines changed, dropped, doubled or swapped, so that the faults after the form are met too; and bytes
//! changed, with every sort of wrong field, missing 0A, forbidden bytes and too many bytes.

use crate::generator::{valid, Size};
use crate::lines::*;
use crate::random::Random;
use crate::reader::NAMES_LINE;
use crate::workload::*;

// ---- damage to lines, so that the faults after the form are met too

pub fn damaged_lines(random: &mut Random, size: Size) -> Vec<u8> {
    let mut lines = valid(random, size);
    if lines.is_empty() {
        return text_of(&lines);
    }
    let at = random.below(lines.len());
    match random.below(12) {
        0 => {
            lines.remove(at);
        }
        1 => lines.insert(at, lines[at]),
        2 => {
            let other = random.below(lines.len());
            lines.swap(at, other);
        }
        3 => lines.insert(at, plain(*random.pick(&[LO, BR, EL, EN]), 0)),
        4 => change_number(random, &mut lines),
        5 | 6 => change_set(random, &mut lines),
        7 | 8 => change_link(random, &mut lines),
        9 => {
            lines[at].kind = any_kind(random);
        }
        10 => {
            let kinds = [RL, FK, PR, LI, KS, KU];
            let line = Line { rel: 0, to: 0, reads: 1, writes: 1, ..plain(pick_kind(random, &kinds), random.below(3)) };
            lines.insert(at, line);
        }
        _ => drop_block_line(random, &mut lines),
    }
    text_of(&lines)
}

/// Any kind of line; kl only where locks are drawn.
fn any_kind(random: &mut Random) -> u8 {
    let kind = random.below(15 + random.locks() as usize) as u8;
    match kind {
        15 => KL,
        kind if kind >= KL => kind + 1,
        kind => kind,
    }
}

fn change_number(random: &mut Random, lines: &mut [Line]) {
    let at = random.below(lines.len());
    let value = *random.pick(&[0, 1, 2, 3, 31, 32, 33, 254, 255]);
    match random.below(3) {
        0 => lines[at].id = value,
        1 => lines[at].rel = value,
        _ => lines[at].to = value,
    }
}

fn change_set(random: &mut Random, lines: &mut [Line]) {
    let mut with_sets: Vec<usize> = (0..lines.len()).filter(|&at| is_statement(lines[at].kind) || lines[at].kind == RL).collect();
    if random.locks() && random.chance(1, 2) && with_sets.iter().any(|&at| lines[at].kind == KL) {
        with_sets.retain(|&at| lines[at].kind == KL);
    }
    let at = *random.pick(&with_sets);
    let value = match random.below(4) {
        0 => 0,
        1 => u64::MAX,
        2 => 1 << random.below(64),
        _ => random.word(),
    };
    match random.below(3) {
        0 => lines[at].reads = value,
        1 => lines[at].writes = value,
        _ => lines[at].tests = value,
    }
}

/// A link drawn without looking at its rules, after a program that has statements.
fn change_link(random: &mut Random, lines: &mut Vec<Line>) {
    let keys = lines.iter().filter(|line| line.kind == FK).count();
    let ends: Vec<usize> = (1..=lines.len())
        .filter(|&at| is_statement(lines[at - 1].kind) || matches!(lines[at - 1].kind, EN | LI))
        .filter(|&at| at == lines.len() || matches!(lines[at].kind, PR | LI))
        .collect();
    if keys == 0 || ends.is_empty() {
        return change_number(random, lines);
    }
    let at = *random.pick(&ends);
    let statements = lines[..at].iter().rev().take_while(|line| line.kind != PR).filter(|line| is_statement(line.kind)).count();
    lines.insert(at, link(random.below(keys), random.below(statements), random.below(statements)));
}

fn drop_block_line(random: &mut Random, lines: &mut Vec<Line>) {
    let flow: Vec<usize> = (0..lines.len()).filter(|&at| is_flow(lines[at].kind)).collect();
    if flow.is_empty() {
        lines.push(plain(*random.pick(&[LO, BR]), 0));
    } else {
        lines.remove(*random.pick(&flow));
    }
}

// ---- damage to bytes

pub fn damaged_bytes(random: &mut Random, size: Size) -> Vec<u8> {
    let mut text = text_of(&valid(random, size));
    let at = random.below(text.len());
    match random.below(14) {
        0 => text[at] = *random.pick(b"\n -0123456789abcdefghijklmnopqrstuvwxyz"),
        1 => text[at] = random.below(256) as u8,
        2 => {
            text.remove(at);
        }
        3 => text.insert(at, *random.pick(b" \n-019af")),
        4 => {
            text.pop();
        }
        5 => text.truncate(at),
        6 => pad(random, &mut text),
        7 => text[random.below(NAMES_LINE.len())] = *random.pick(b" \n-az09"),
        8..=12 => change_field(random, &mut text),
        _ => {
            if random.chance(1, 8) {
                text.clear();
            } else {
                // A forbidden byte after a fault of another line: the whole-text tests come first.
                change_field(random, &mut text);
                let at = random.below(text.len());
                text[at] = *random.pick(b"AZ_\t\r\x00\xff,{");
            }
        }
    }
    text
}

/// To just below, at, or over the bound on bytes, with lines or with one long line.
fn pad(random: &mut Random, text: &mut Vec<u8>) {
    let length = *random.pick(&[MAX_BYTES - 1, MAX_BYTES, MAX_BYTES, MAX_BYTES + 1, MAX_BYTES + 1, 40_000, 70_000, 200_000]);
    let byte = *random.pick(b" 0a\n");
    while text.len() < length {
        text.push(byte);
    }
    text.truncate(length);
    if random.chance(3, 4) {
        text[length - 1] = b'\n';
    }
}

/// One field of one line after the names becomes another token, right or wrong.
fn change_field(random: &mut Random, text: &mut Vec<u8>) {
    let starts: Vec<usize> = (NAMES_LINE.len()..text.len()).filter(|&at| matches!(text[at - 1], b' ' | b'\n')).collect();
    if starts.is_empty() {
        text.extend_from_slice(b"lo - - - - - -\n");
        return;
    }
    let start = *random.pick(&starts);
    let end = (start..text.len()).find(|&at| matches!(text[at], b' ' | b'\n')).unwrap_or(text.len());
    let tokens: [&[u8]; 23] = [
        b"-", b"0", b"1", b"2", b"3", b"00", b"01", b"256", b"255", b"1000", b"-1", b"", b"f", b"g", b"ffffffffffffffff",
        b"10000000000000000", b"8000000000000000", b"a b", b"- -", b"en", b"li", b"7",
        b"kl", // only where locks are drawn
    ];
    let count = tokens.len() - !random.locks() as usize;
    text.splice(start..end, random.pick(&tokens[..count]).iter().copied());
}
