//! `kinds [--one]`: the table of kinds (Req 04), worked out by brute force and printed as Req 05 asks. For each kind left, kind entered
//! and letter: 0 where the letter holds for none of the sets that the rules allow two statements on one relation, 1 where for all, 2 where for
//! some. The reader says which sets are allowed, edges.rs which letters hold. Tried are all relations within three attributes.
//! A letter asks no more of sets than whether two of them meet; so where it is 2 it must hold exactly where its two sets meet, and two attributes
//! must show both. `--one` tells on standard error what relations of one attribute alone would make of the table.

use outside::edges::*;
use outside::lines::{plain, relation, statement, text_of};
use outside::reader::read;
use outside::workload::*;
use std::io::Write;
use std::process::exit;

const KINDS: usize = 8;
const LETTERS: [u8; 5] = *b"ABCDE";

/// Attributes 0, 1 and 63, so that both ends of a word are tried.
const ATTRIBUTES: u64 = 1 << 63 | 3;

/// What became of a letter between two kinds, over all sets that were tried.
#[derive(Clone, Copy, Default, Debug)]
struct Seen {
    held: bool,
    failed: bool,
    /// Once it held although its sets did not meet, or failed although they did.
    against_meeting: bool,
}

type Table = [[[Seen; LETTERS.len()]; KINDS]; KINDS];

impl Seen {
    fn digit(&self) -> u8 {
        match (self.held, self.failed) {
            (true, true) => 2,
            (true, false) => 1,
            (false, true) => 0,
            (false, false) => panic!("no sets were tried"),
        }
    }

    fn take(&mut self, other: &Seen) {
        self.held |= other.held;
        self.failed |= other.failed;
        self.against_meeting |= other.against_meeting;
    }
}

fn main() {
    let words: Vec<String> = std::env::args().skip(1).collect();
    if !(words.is_empty() || words == ["--one"]) {
        eprintln!("usage: kinds [--one]");
        exit(2);
    }
    let (one, two, three) = (table_of(1), table_of(2), table_of(3));
    let mut table = one;
    each(|p, q, letter| {
        table[p][q][letter].take(&two[p][q][letter]);
        table[p][q][letter].take(&three[p][q][letter]);
    });
    each(|p, q, letter| {
        let fault = fault_of(&table[p][q][letter], &two[p][q][letter]);
        assert!(fault.is_empty(), "{} from {} to {}: {fault}", LETTERS[letter] as char, name(p), name(q));
    });
    if !words.is_empty() {
        tell_one(&table, &one);
    }
    if std::io::stdout().write_all(printed(&table).as_bytes()).is_err() {
        exit(1);
    }
}

fn each(mut act: impl FnMut(usize, usize, usize)) {
    for p in 0..KINDS {
        for q in 0..KINDS {
            for letter in 0..LETTERS.len() {
                act(p, q, letter);
            }
        }
    }
}

/// All relations of so many attributes, and on each all pairs of statements, a statement with itself and one with its like included.
fn table_of(size: u32) -> Table {
    let mut table = Table::default();
    for whole in parts_of(ATTRIBUTES).into_iter().filter(|set| set.count_ones() == size) {
        let statements = statements_on(whole);
        for p in &statements {
            for q in &statements {
                for (letter, seen) in LETTERS.iter().zip(&mut table[p.kind as usize][q.kind as usize]) {
                    let held = holds(*letter, p, q);
                    seen.take(&Seen { held, failed: !held, against_meeting: held != (meeting(*letter, p, q) != 0) });
                }
            }
        }
    }
    table
}

/// Every statement that a text may have on a relation with this set. Sets that reach outside it are tried too, and the reader refuses them.
fn statements_on(whole: u64) -> Vec<Spot> {
    let mut spots = Vec::new();
    for kind in IS..=KL {
        let has = &FIELDS[kind as usize];
        let tried = |present: bool| if present { parts_of(ATTRIBUTES) } else { vec![0] };
        for reads in tried(has.reads) {
            for writes in tried(has.writes) {
                for tests in tried(has.tests) {
                    let text = text_of(&[relation(0, whole), plain(PR, 0), statement(kind, 0, 0, reads, writes, tests)]);
                    match read(&text) {
                        Ok(_) => spots.push(Spot { kind, reads, writes, tests, ..EMPTY_SPOT }),
                        Err(refusal) => assert_eq!(refusal.number, 5, "refused by its sets alone"),
                    }
                }
            }
        }
    }
    spots
}

/// All sets within one, the empty one first.
fn parts_of(set: u64) -> Vec<u64> {
    let mut parts = vec![0];
    while parts[parts.len() - 1] != set {
        parts.push(parts[parts.len() - 1].wrapping_sub(set) & set);
    }
    parts
}

/// What is wrong with an entry that should hang on its sets' meeting alone and show itself on relations of two attributes.
fn fault_of(seen: &Seen, by_two: &Seen) -> &'static str {
    if seen.digit() == 2 && seen.against_meeting {
        "hangs on something other than a meeting of its sets"
    } else if seen.digit() != by_two.digit() {
        "relations of two attributes do not show it"
    } else {
        ""
    }
}

fn tell_one(table: &Table, one: &Table) {
    let (mut certain, mut impossible) = (0, 0);
    each(|p, q, letter| match (table[p][q][letter].digit(), one[p][q][letter].digit()) {
        (2, 1) => certain += 1,
        (2, 0) => impossible += 1,
        _ => {}
    });
    let entries = KINDS * KINDS * LETTERS.len();
    eprintln!("of {entries} entries {certain} hang that relations of one attribute make certain, {impossible} that they make impossible");
}

fn name(kind: usize) -> &'static str {
    std::str::from_utf8(NAMES[kind]).unwrap()
}

fn printed(table: &Table) -> String {
    let mut text = String::from("from to a b c d e\n");
    for (p, row) in table.iter().enumerate() {
        for (q, entry) in row.iter().enumerate() {
            let digits: Vec<String> = entry.iter().map(|seen| seen.digit().to_string()).collect();
            text += &format!("{} {} {}\n", name(p), name(q), digits.join(" "));
        }
    }
    text
}
