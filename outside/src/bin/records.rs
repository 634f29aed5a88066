//! `records SEED COUNT [--locks]`: every edge record that the proved code puts into a lent area against this implementation's, on generated
//! texts, in one process; the rest of the area must stay as it was, all of it where the area is too short or the text
//! is refused. Built without RATTLE_LIB it compares this implementation with itself, which shows only that it runs.

use outside::arguments::words_and_locks;
use outside::edges::*;
use outside::generator::text_number;
use outside::outcome::saved;
use outside::stages::*;

#[cfg(rattle)]
#[path = "../rattle.rs"]
mod rattle;


#[cfg(rattle)]
const OTHER: (&str, fn(&[u8], &mut Desk, &mut [Edge]) -> u32) = ("the proved code", rattle::edges);
#[cfg(not(rattle))]
const OTHER: (&str, fn(&[u8], &mut Desk, &mut [Edge]) -> u32) = ("itself (built without RATTLE_LIB)", edges_stage);

/// What untouched cells hold.
const MARK: Edge = Edge { node: 77, leaves: 77, into: 77, enters: 77, sharing: 77, lowest: 77, flow: b'?', letter: b'?' };

fn main() {
    let (words, locks) = words_and_locks();
    let number = |at: usize| words.get(at).and_then(|word| word.parse::<u64>().ok()).expect("usage: records SEED COUNT [--locks]");
    let (seed, count) = (number(1), number(2));
    let (mut desk, mut own) = (Desk::new(), vec![MARK; MOST_EDGES]);
    let (mut records, mut refused) = (0, 0);
    for k in 0..count {
        let text = text_number(seed, k, locks);
        let result = edges_stage(&text, &mut desk, &mut own);
        if result >> 31 == 1 {
            refused += 1;
            compare(&text, k, &[], result, 10);
        } else {
            let edges = &own[..result as usize];
            compare(&text, k, edges, result, edges.len() + 10);
            compare(&text, k, edges, result, edges.len());
            if !edges.is_empty() {
                compare(&text, k, &[], outside::stages::refused(20, 0), edges.len() - 1);
            }
            records += edges.len();
        }
    }
    println!("{count} texts, {records} edge records and {refused} refusals alike with {}", OTHER.0);
}

/// The other side on an area of so many cells: the result, the records at its front, and the rest as it was.
fn compare(text: &[u8], number: u64, edges: &[Edge], result: u32, room: usize) {
    let mut area = vec![MARK; room];
    let other = OTHER.1(text, &mut Desk::new(), &mut area);
    let front = area[..edges.len()] == *edges;
    let rest = area[edges.len()..].iter().all(|cell| *cell == MARK);
    if other != result || !front || !rest {
        let place = saved(&format!("records-{number}"), text);
        println!("DIFFERENT: text {number} ({place}), room {room}: results {result:x} and {other:x}");
        println!("records alike: {front}, rest untouched: {rest}");
        std::process::exit(1);
    }
}
