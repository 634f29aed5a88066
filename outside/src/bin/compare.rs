//! `compare PROGRAM SEED COUNT [report|facts|edges|unfoldings] [--locks]`: runs a program on COUNT generated texts, standard input to
//! standard output, and compares with this implementation. PROGRAM may have arguments ("target/outside report").
//! The first difference is printed, its text saved under found/; then the histogram and the count of checks. `--locks`: the texts have kl.

use outside::arguments::words_and_locks;
use outside::facts::facts;
use outside::generator::text_number;
use outside::outcome::*;
use outside::report::*;
use std::collections::BTreeMap;
use std::sync::atomic::{AtomicUsize, Ordering};
use std::sync::Mutex;

/// What the workers share: the next text, the first difference, and the outcomes so far.
struct Shared {
    program: String,
    mode: String,
    seed: u64,
    locks: bool,
    next: AtomicUsize,
    end: AtomicUsize,
    difference: Mutex<Option<(usize, String)>>,
    outcomes: Mutex<BTreeMap<String, usize>>,
}

fn main() {
    let (words, locks) = words_and_locks();
    let (Some(program), Some(Ok(seed)), Some(Ok(count))) =
        (words.get(1), words.get(2).map(|w| w.parse()), words.get(3).map(|w| w.parse()))
    else {
        eprintln!("usage: compare PROGRAM SEED COUNT [report|facts|edges|unfoldings] [--locks]");
        std::process::exit(2);
    };
    let shared = Shared {
        program: program.clone(),
        mode: words.get(4).cloned().unwrap_or("report".to_string()),
        seed,
        locks,
        next: AtomicUsize::new(0),
        end: AtomicUsize::new(count),
        difference: Mutex::new(None),
        outcomes: Mutex::new(BTreeMap::new()),
    };
    std::thread::scope(|scope| {
        for _ in 0..2 {
            scope.spawn(|| work(&shared));
        }
    });
    finish(&shared);
}

fn work(shared: &Shared) {
    loop {
        let number = shared.next.fetch_add(1, Ordering::Relaxed);
        if number >= shared.end.load(Ordering::Relaxed) {
            return;
        }
        let text = text_number(shared.seed, number as u64, shared.locks);
        match judged(shared, &text) {
            Ok(outcome) => *shared.outcomes.lock().unwrap().entry(outcome).or_insert(0) += 1,
            Err(difference) => {
                shared.end.fetch_min(number, Ordering::Relaxed);
                let mut first = shared.difference.lock().unwrap();
                if first.as_ref().is_none_or(|(other, _)| number < *other) {
                    *first = Some((number, difference));
                }
            }
        }
    }
}

fn judged(shared: &Shared, text: &[u8]) -> Result<String, String> {
    let ran = run(&shared.program, text).map_err(|error| format!("cannot run: {error}"))?;
    let expected = match shared.mode.as_str() {
        "facts" => facts(text),
        "edges" => list_edges(text),
        "unfoldings" => list_unfoldings(text),
        _ => return check_report(text, &ran),
    };
    check_same(&expected, &ran)?;
    Ok(if shared.mode == "facts" { told_by_facts(&expected) } else { told_by_listing(&expected) })
}

/// `refused N`, `robust` or `danger`: the first line of facts is `refused N LINE` or `verdict WORD ...`.
fn told_by_facts(facts: &str) -> String {
    let words: Vec<&str> = facts.split([' ', '\n']).take(2).collect();
    if words[0] == "refused" { words.join(" ") } else { words[1].to_string() }
}

fn told_by_listing(listing: &str) -> String {
    let refused = listing.strip_prefix(REFUSED_NAMES).and_then(|rest| rest.split(' ').next());
    refused.map_or("listed".to_string(), |number| format!("refused {number}"))
}

fn finish(shared: &Shared) {
    let outcomes = shared.outcomes.lock().unwrap();
    let total: usize = outcomes.values().sum();
    println!("outcome          texts");
    for (outcome, count) in outcomes.iter() {
        println!("{outcome:<12} {count:>9}");
    }
    let compared = if shared.mode == "report" { "status, every byte of the report, walks" } else { "status, the whole listing" };
    let locks = if shared.locks { ", with kl" } else { "" };
    println!("{total} texts compared alike (seed {}{locks}): {compared}", shared.seed);
    if let Some((number, difference)) = &*shared.difference.lock().unwrap() {
        let name = format!("{}-{number}{}", shared.seed, if shared.locks { "-locks" } else { "" });
        let place = saved(&name, &text_number(shared.seed, *number as u64, shared.locks));
        println!("DIFFERENT: text {number} ({place}): {difference}");
        std::process::exit(1);
    }
}
