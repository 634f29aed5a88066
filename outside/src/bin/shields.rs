//! `shields SEED COUNT [TEXT...] [--locks]`: what Req 02 changed: reports and edges by the shield and by the one before Req 02, on COUNT
//! texts as `compare` draws them, on COUNT small ones with late parents, and on the texts. Back edges may only vanish, every other record must stay,
//! and no robust verdict may turn into danger. How many reports changed is printed; of the texts, which.

use outside::arguments::words_and_locks;
use outside::edges::*;
use outside::generator::any_text;
use outside::late::late_parents;
use outside::lines::text_of;
use outside::random::Random;
use outside::shields::*;

#[derive(Default)]
struct Tally {
    texts: usize,
    refused: usize,
    reports: usize,
    robust_then: usize,
    robust_now: usize,
    other_walks: usize,
    edges: usize,
    back_then: usize,
    back_now: usize,
}

fn main() {
    let (words, locks) = words_and_locks();
    let number = |at: usize| words.get(at).and_then(|word| word.parse::<u64>().ok()).expect("usage: shields SEED COUNT [TEXT...] [--locks]");
    let (seed, count) = (number(1), number(2));
    let random = |k: u64| Random::numbered(seed, k).with_locks(locks);
    let (mut drawn, mut late, mut given) = (Tally::default(), Tally::default(), Tally::default());
    for k in 0..count {
        compare(&any_text(&mut random(k)), &mut drawn);
        compare(&text_of(&late_parents(&mut random(k))), &mut late);
    }
    show("drawn as for compare", &drawn);
    show("with late parents", &late);
    for path in words.iter().skip(3) {
        let text = std::fs::read(path).unwrap_or_else(|error| panic!("{path}: {error}"));
        if let Some((then, now)) = compare(&text, &mut given) {
            println!("{path}:\n{then}now\n{now}");
        }
    }
    if words.len() > 3 {
        show("texts", &given);
    }
}

/// The reports by the shield before Req 02 and now, where they differ.
fn compare(text: &[u8], tally: &mut Tally) -> Option<(String, String)> {
    tally.texts += 1;
    let (Ok(then), Ok(now)) = (unfolded_by(Shield::Before, text), unfolded_by(Shield::Now, text)) else {
        tally.refused += 1;
        return None;
    };
    let (edges_then, edges_now) = (list(&then.unfoldings, &then.spots), list(&now.unfoldings, &now.spots));
    check_vanished(text, &edges_then, &edges_now);
    let back = |edges: &[Edge]| edges.iter().filter(|edge| edge.flow == b'b').count();
    tally.edges += edges_now.len() - back(&edges_now);
    tally.back_then += back(&edges_then);
    tally.back_now += back(&edges_now);
    let (then, now) = (report_by(Shield::Before, text), report_by(Shield::Now, text));
    let is_robust = |report: &str| report.lines().nth(1).is_some_and(|line| line.starts_with("robust"));
    assert!(is_robust(&now) || !is_robust(&then), "robust turned into danger:\n{}", String::from_utf8_lossy(text));
    tally.robust_then += is_robust(&then) as usize;
    tally.robust_now += is_robust(&now) as usize;
    let walk = |report: &str| report.lines().skip(2).map(str::to_string).collect::<Vec<_>>();
    tally.other_walks += (!is_robust(&now) && walk(&now) != walk(&then)) as usize;
    tally.reports += (then != now) as usize;
    if then != now { Some((then, now)) } else { None }
}

/// What is left out is back by D; the rest stands in the same order.
fn check_vanished(text: &[u8], then: &[Edge], now: &[Edge]) {
    let mut left = now.iter().peekable();
    for edge in then {
        if left.peek() == Some(&edge) {
            left.next();
        } else {
            assert_eq!((edge.flow, edge.letter), (b'b', b'D'), "an edge has vanished:\n{}", String::from_utf8_lossy(text));
        }
    }
    assert!(left.next().is_none(), "an edge has appeared:\n{}", String::from_utf8_lossy(text));
}

fn show(word: &str, tally: &Tally) {
    let Tally { texts, refused, reports, robust_then, robust_now, other_walks, edges, back_then, back_now } = tally;
    println!(
        "{word}: {texts} texts ({refused} refused), {reports} reports changed: robust {robust_then} then, {robust_now} now, no robust one \
         lost; {other_walks} dangerous with another first walk; forward edges {edges}, alike; back edges {back_then} then, {back_now} now, \
         none new"
    );
}
