//! `brute SEED COUNT [TEXT|--late|--loosened|--weakened] [--locks]`: brute force against demand 3, independent of any proof. COUNT robust and COUNT
//! dangerous random small workloads (or the workload of a text file, COUNT schedules); for each, random schedules that obey the rules; for
//! each schedule all orders of its transactions are tried in the serial run. Robust ones must never fail; how often dangerous
//! ones do is printed, so that a check which cannot fail is noticed.
//!
//! `--late`: COUNT workloads that are robust and were dangerous by the shield before Req 02 (Req 02). None of their schedules may
//! fail; beside it, how often schedules of the same texts without their links do. `--loosened`: COUNT workloads that only a wrong shield
//! calls robust, with the near parent anywhere too. Some of their schedules must fail.
//!
//! `--locks`: the same with kl in every workload (Req 03). `--weakened`: COUNT workloads that are robust by their kl and dangerous
//! with ks there, under the whole ban on writing or locking and under weaker ones, each of which lets something through that the ban forbids.
//! Under the whole ban no schedule may fail, under each of the weaker ones some must.

use outside::arguments::words_and_locks;
use outside::generator::*;
use outside::late::late_parents;
use outside::lines::text_of;
use outside::random::Random;
use outside::reader::*;
use outside::schedule::*;
use outside::serial::*;
use outside::shields::*;
use outside::special::linked;
use outside::verdict::*;
use outside::workload::*;

const SCHEDULES: usize = 40;

/// What was found for workloads of one verdict.
#[derive(Default)]
struct Tally {
    workloads: usize,
    with_back_edges: usize,
    by_links: usize,
    by_locks: usize,
    schedules: usize,
    given_up: usize,
    overlapping: usize,
    raced: usize,
    held_up: usize,
    failed: usize,
    failing_workloads: usize,
}

fn main() {
    let (words, locks) = words_and_locks();
    let usage = "usage: brute SEED COUNT [TEXT|--late|--loosened|--weakened] [--locks]";
    let number = |at: usize| words.get(at).and_then(|word| word.parse::<u64>().ok()).expect(usage);
    let (mut random, count) = (Random::new(number(1)).with_locks(locks), number(2) as usize);
    let (mut robust, mut danger) = (Tally::default(), Tally::default());
    match words.get(3).map(String::as_str) {
        Some("--late") => return try_late(&mut random, count),
        Some("--loosened") => return try_loosened(&mut random, count),
        Some("--weakened") => return try_weakened(&mut random.with_locks(true), count),
        _ => {}
    }
    if let Some(path) = words.get(3) {
        let text = std::fs::read(path).expect("a text");
        try_workload(&mut random, &text, count, &mut robust, &mut danger, usize::MAX);
    }
    while words.len() < 4 && (robust.workloads < count || danger.workloads < count) {
        let lines = if random.chance(1, 2) { valid(&mut random, Size::Tiny) } else { linked(&mut random) };
        let text = text_of(&lines);
        if locks && !has_locks(&text) {
            continue;
        }
        try_workload(&mut random, &text, SCHEDULES, &mut robust, &mut danger, count);
    }
    show("robust", &robust);
    show("danger", &danger);
    end(robust.failed);
}

fn end(failed: usize) {
    if failed > 0 {
        println!("DEMAND 3 FAILS: {failed} schedules of robust workloads have no serial order");
        std::process::exit(1);
    }
}

// ---- the shield's two sides

/// The next drawn text that is robust by one shield and not by the other; about one in twenty is.
fn draw_between(random: &mut Random, robust: Shield, danger: Shield) -> Vec<u8> {
    for _ in 0..100_000 {
        let lines = match random.below(8) {
            0 => valid(random, Size::Tiny),
            1 => linked(random),
            _ => late_parents(random),
        };
        let text = text_of(&lines);
        if is_robust(robust, &text) && read(&text).is_ok() && !is_robust(danger, &text) && (!random.locks() || has_locks(&text)) {
            return text;
        }
    }
    println!("NO WORKLOAD is robust by the shield {robust:?} and dangerous by {danger:?}");
    std::process::exit(1);
}

fn try_late(random: &mut Random, count: usize) {
    let (mut late, mut unlinked) = (Tally::default(), Tally::default());
    let (mut loops, mut branches, mut own) = (0, 0, 0);
    for _ in 0..count {
        let text = draw_between(random, Shield::Now, Shield::Before);
        let workload = read(&text).expect("robust");
        let any = |test: &dyn Fn(&Line) -> bool| workload.taken().iter().any(test) as usize;
        loops += any(&|line| line.kind == LO);
        branches += any(&|line| line.kind == BR);
        own += any(&|line| line.kind == LI && line.rel == line.to);
        try_schedules(random, &text, &workload, SCHEDULES, true, Ban::Whole, &mut late);
        let without = without_links(&text);
        try_schedules(random, &without, &read(&without).expect("as before"), SCHEDULES, false, Ban::Whole, &mut unlinked);
    }
    println!("robust, and danger by the shield before Req 02; {loops} with a loop, {branches} with a branch, {own} with a link to itself");
    show("robust now", &late);
    show("the same without their links", &unlinked);
    end(late.failed);
}

fn try_loosened(random: &mut Random, count: usize) {
    let mut loosened = Tally::default();
    for _ in 0..count {
        let text = draw_between(random, Shield::Anywhere, Shield::Now);
        let workload = read(&text).expect("robust by a wrong rule");
        try_schedules(random, &text, &workload, SCHEDULES, false, Ban::Whole, &mut loosened);
    }
    show("danger, and robust were the near parent to stand anywhere", &loosened);
    if loosened.failed == 0 {
        println!("A WRONG SHIELD IS NOT NOTICED");
        std::process::exit(1);
    }
}

// ---- the ban's parts

/// The next drawn text that is robust, and dangerous with ks for its kl; about one in five is.
fn draw_by_locks(random: &mut Random) -> Vec<u8> {
    for _ in 0..100_000 {
        let lines = match random.below(3) {
            0 => valid(random, Size::Tiny),
            1 => linked(random),
            _ => late_parents(random),
        };
        let text = text_of(&lines);
        if has_locks(&text) && read(&text).is_ok() && is_robust(Shield::Now, &text) && by_locks(&text) {
            return text;
        }
    }
    println!("NO WORKLOAD is robust and dangerous with ks for its kl");
    std::process::exit(1);
}

fn try_weakened(random: &mut Random, count: usize) {
    use Ban::*;
    let bans = [Whole, LetsLockBehindLock, LetsLockBehindWrite, LetsWriteBehindLock, LetsAllOfLocks];
    let mut tallies: [Tally; 5] = Default::default();
    for _ in 0..count {
        let text = draw_by_locks(random);
        let workload = read(&text).expect("robust");
        for (ban, tally) in bans.iter().zip(&mut tallies) {
            try_schedules(random, &text, &workload, SCHEDULES, *ban == Whole, *ban, tally);
        }
    }
    for (ban, tally) in bans.iter().zip(&tallies) {
        show(&format!("robust by their kl, ban {ban:?}"), tally);
    }
    end(tallies[0].failed);
    if tallies[1..].iter().any(|tally| tally.failed == 0) {
        println!("A WEAKER BAN IS NOT NOTICED");
        std::process::exit(1);
    }
}

// ---- schedules of a workload

/// Tries schedules of one workload, unless enough of its verdict were tried.
fn try_workload(random: &mut Random, text: &[u8], schedules: usize, robust: &mut Tally, danger: &mut Tally, enough: usize) {
    let Ok(workload) = read(text) else { return };
    let Some(verdict) = judge(&workload, &mut [EMPTY_STEP; MAX_STEPS]) else { return };
    let tally = if verdict.steps == 0 { robust } else { danger };
    // Robust workloads without back edges are many and dull: one in six is kept.
    let dull = verdict.back == 0 && !by_links(text) && !(has_locks(text) && by_locks(text));
    if tally.workloads >= enough || verdict.edges == 0 || (dull && !random.chance(1, 6)) {
        return;
    }
    try_schedules(random, text, &workload, schedules, verdict.steps == 0, Ban::Whole, tally);
}

fn try_schedules(random: &mut Random, text: &[u8], workload: &Workload, schedules: usize, robust: bool, ban: Ban, tally: &mut Tally) {
    let verdict = judge(workload, &mut [EMPTY_STEP; MAX_STEPS]).expect("not 22");
    tally.workloads += 1;
    tally.with_back_edges += (verdict.back > 0) as usize;
    tally.by_links += (verdict.steps == 0 && by_links(text)) as usize;
    tally.by_locks += (verdict.steps == 0 && by_locks(text)) as usize;
    let before = tally.failed;
    for _ in 0..schedules {
        try_schedule(random, text, workload, robust, ban, tally);
    }
    tally.failing_workloads += (tally.failed > before) as usize;
}

/// Whether the verdict would be danger without the links.
fn by_links(text: &[u8]) -> bool {
    is_dangerous(&without_links(text))
}

/// Whether the verdict would be danger with a ks for each kl.
fn by_locks(text: &[u8]) -> bool {
    is_dangerous(&without_locks(text))
}

fn is_dangerous(text: &[u8]) -> bool {
    let Ok(workload) = read(text) else { return false };
    judge(&workload, &mut [EMPTY_STEP; MAX_STEPS]).is_some_and(|verdict| verdict.steps > 0)
}

fn has_locks(text: &[u8]) -> bool {
    text.split(|&byte| byte == b'\n').any(|line| line.starts_with(b"kl"))
}

fn without_locks(text: &[u8]) -> Vec<u8> {
    let line = |line: &[u8]| if line.starts_with(b"kl") { [b"ks", &line[2..]].concat() } else { line.to_vec() };
    text.split_inclusive(|&byte| byte == b'\n').map(line).collect::<Vec<_>>().concat()
}

fn without_links(text: &[u8]) -> Vec<u8> {
    let lines = text.split_inclusive(|&byte| byte == b'\n').filter(|line| !line.starts_with(b"li"));
    lines.collect::<Vec<_>>().concat()
}

fn try_schedule(random: &mut Random, text: &[u8], workload: &Workload, robust: bool, ban: Ban, tally: &mut Tally) {
    let count = *random.pick(&[2, 2, 3, 3, 4, 5]);
    let Some(schedule) = draw(random, workload, count, ban) else {
        tally.given_up += 1;
        return;
    };
    tally.schedules += 1;
    tally.overlapping += schedule.order.windows(2).any(|pair| is_cut(&schedule, pair)) as usize;
    tally.raced += (0..schedule.order.len()).any(|now| is_raced(&schedule, now)) as usize;
    tally.held_up += schedule.held_up as usize;
    if let Some(broken) = broken_rule(&schedule, ban) {
        println!("A SCHEDULE BREAKS A RULE ({broken}):\n{}", String::from_utf8_lossy(text));
        show_schedule(&schedule);
        std::process::exit(1);
    }
    if serial_order(&schedule).is_none() {
        tally.failed += 1;
        if robust && tally.failed == 1 {
            println!("NO SERIAL ORDER, though robust:\n{}", String::from_utf8_lossy(text));
            show_schedule(&schedule);
        }
    }
}

/// Whether another transaction goes on before this one's commit.
fn is_cut(schedule: &Schedule, pair: &[(usize, usize)]) -> bool {
    pair[0].0 != pair[1].0 && !matches!(schedule.transactions[pair[0].0][pair[0].1], Operation::Commit)
}

/// Whether a tuple that is read now is written by another transaction before this one's commit.
fn is_raced(schedule: &Schedule, now: usize) -> bool {
    let (own, number) = schedule.order[now];
    let Operation::Read { tuple: read, .. } = schedule.transactions[own][number] else { return false };
    let until_commit = schedule.order[now..].iter().take_while(|&&(by, number)| by != own || number + 1 < schedule.transactions[own].len());
    let mut others = until_commit.filter(|&&(by, _)| by != own).map(|&(by, number)| &schedule.transactions[by][number]);
    others.any(|operation| matches!(operation, Operation::Change { tuple, .. } if *tuple == read))
}

// ---- the rules once more, over the finished list

/// A rule on versions that the finished schedule breaks, if any: first and last writes, the ban on writing or locking between
/// another's write or lock and its commit, and what reads see.
fn broken_rule(schedule: &Schedule, ban: Ban) -> Option<&'static str> {
    let time = |by: (usize, usize)| schedule.order.iter().position(|&other| other == by).expect("performed");
    let commit = |own: usize| time((own, schedule.transactions[own].len() - 1));
    for (tuple, writes) in schedule.versions.iter().enumerate() {
        let starts = schedule.ground.starts_visible[tuple];
        for (at, write) in writes.iter().enumerate() {
            if (write.sort == Sort::Insert) != (at == 0 && !starts) {
                return Some("an insert is the first write of a tuple that started unborn, and of no other");
            }
            if write.sort == Sort::Delete && at + 1 < writes.len() {
                return Some("a delete is a tuple's last write");
            }
        }
    }
    for (at, &(own, number)) in schedule.order.iter().enumerate() {
        let Some((tuple, locks)) = held(&schedule.transactions[own][number]) else { continue };
        let dirty = |&(by, number): &(usize, usize)| {
            by != own && held(&schedule.transactions[by][number]).is_some_and(|then| then.0 == tuple && ban.forbids(locks, then.1))
        };
        if schedule.order[at..commit(own)].iter().any(dirty) {
            return Some("no write or lock between another's write or lock and its commit");
        }
    }
    let seen = |own: usize, now: usize, tuple: usize| {
        let before: Vec<Written> = schedule.versions[tuple].iter().copied().filter(|write| time(write.by) < now).collect();
        let own_latest = before.iter().rposition(|write| write.by.0 == own);
        let last = own_latest.or(before.iter().rposition(|write| commit(write.by.0) < now));
        before[..last.map_or(0, |at| at + 1)].to_vec()
    };
    (0..schedule.order.len()).find_map(|now| broken_read(schedule, now, &seen))
}

/// The tuple that an operation writes or locks, and whether it is a lock.
fn held(operation: &Operation) -> Option<(usize, bool)> {
    match operation {
        Operation::Change { tuple, .. } => Some((*tuple, false)),
        Operation::Read { tuple, lock: true, .. } => Some((*tuple, true)),
        _ => None,
    }
}

/// Whether the operation at this time reads an invisible version, or took other sources than the version that it sees has.
fn broken_read(schedule: &Schedule, now: usize, seen: &dyn Fn(usize, usize, usize) -> Vec<Written>) -> Option<&'static str> {
    let (own, number) = schedule.order[now];
    let mut sees = Vec::new();
    let took = match &schedule.transactions[own][number] {
        Operation::Read { tuple, reads, took, .. } => {
            let version = seen(own, now, *tuple);
            if !visible(schedule.ground.starts_visible[*tuple], &version) {
                return Some("reads meet visible versions");
            }
            sources(&version, *reads, &mut sees);
            took
        }
        Operation::Predicate { rel, tests, took } => {
            for tuple in (0..schedule.versions.len()).filter(|&tuple| schedule.ground.rel[tuple] == *rel) {
                let version = seen(own, now, tuple);
                sees.push(existence(&version));
                sources(&version, *tests, &mut sees);
            }
            took
        }
        _ => return None,
    };
    if sees == *took { None } else { Some("a read sees its own latest version, else the last committed one, else the first") }
}

// ---- printing

fn show(word: &str, tally: &Tally) {
    let share = |part: usize, whole: usize| 100.0 * part as f64 / whole.max(1) as f64;
    let locks = if tally.by_locks + tally.held_up == 0 { String::new() } else { format!(", {} in which locks held something up", tally.held_up) };
    let by_locks = if tally.by_locks == 0 { String::new() } else { format!(", {} danger were kl a ks", tally.by_locks) };
    println!(
        "{word}: {} workloads ({} with back edges, {} robust by their links alone{by_locks}), {} schedules ({} with overlap, \
         {} with a write of what another has read and not committed{locks}, {} given up): \
         {} without a serial order ({:.1} %), in {} workloads ({:.1} %)",
        tally.workloads,
        tally.with_back_edges,
        tally.by_links,
        tally.schedules,
        tally.overlapping,
        tally.raced,
        tally.given_up,
        tally.failed,
        share(tally.failed, tally.schedules),
        tally.failing_workloads,
        share(tally.failing_workloads, tally.workloads)
    );
}

fn show_schedule(schedule: &Schedule) {
    for (tuple, rel) in schedule.ground.rel.iter().enumerate() {
        println!("tuple {tuple} of relation {rel} starts {}", if schedule.ground.starts_visible[tuple] { "visible" } else { "unborn" });
    }
    for &(own, number) in &schedule.order {
        println!("transaction {own}: {:?}", schedule.transactions[own][number]);
    }
}
