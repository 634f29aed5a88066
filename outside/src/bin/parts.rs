//! `parts SEED COUNT [TEXT...] [--locks]`: part of a workload (Req 06), on COUNT texts as `compare` draws them that are not too large,
//! on COUNT small ones with late parents, on COUNT with blocks in blocks, and on the texts, of any size.
//! For each word of programs (at most 64 drawn ones): its part is a text that is accepted, whose nodes, edge records and first walk are the whole's
//! on the nodes of these programs; it is robust where the whole is, or where a group with one program more is. For each arm: the nodes that do not
//! take it alone, and the text that has the branch's other arm in its place, have the whole's records and first walk on these nodes; then the same
//! without both arms. The first difference is printed, its text saved under found/.
//!
//! `parts --against PROGRAM SEED COUNT [--locks]`: whether PROGRAM takes the same texts for parts (against.rs), on texts drawn alike, of any size.
//! `parts --of WHOLE [GROUP FILE...]`: answers as such a program does.

use outside::against::*;
use outside::arguments::words_and_locks;
use outside::cuts::*;
use outside::edges::*;
use outside::first_walk::{bits, first_walk};
use outside::generator::any_text;
use outside::graph::*;
use outside::late::late_parents;
use outside::lines::text_of;
use outside::outcome::saved;
use outside::parts::*;
use outside::random::Random;
use outside::reader::read;
use outside::report::{unfolded, Unfolded};
use outside::special::links_across_blocks;
use outside::unfolding::*;
use outside::verdict::*;
use outside::workload::*;
use std::collections::{BTreeMap, BTreeSet};
use std::path::Path;

const USAGE: &str = "usage: parts SEED COUNT [TEXT...] [--locks]; parts --against PROGRAM SEED COUNT [--locks]; parts --of WHOLE [GROUP FILE...]";
/// Places of a drawn text whose graphs are compared.
const MOST_PLACES: usize = 160;
/// Words that are tried of one text.
const MOST_GROUPS: usize = 64;
/// Words that another program is asked about in one run.
const MOST_ASKED: usize = 16;

/// What was compared.
#[derive(Default)]
struct Tally {
    texts: usize,
    left_out: usize,
    robust: usize,
    groups: usize,
    robust_groups: usize,
    groups_turned: usize,
    smaller: usize,
    arms: usize,
    robust_arms: usize,
    arms_turned: usize,
    branches: usize,
    branches_mixed: usize,
    edges: usize,
}

fn main() {
    let (words, locks) = words_and_locks();
    match words.get(1).map(String::as_str) {
        Some("--of") => match answer(Path::new(words.get(2).expect(USAGE)), &words[3..]) {
            Ok(answers) => print!("{answers}"),
            Err(fault) => {
                eprintln!("{fault}");
                std::process::exit(2);
            }
        },
        Some("--against") => compare(words.get(2).expect(USAGE), number(&words, 3), number(&words, 4), locks),
        _ => check(number(&words, 1), number(&words, 2), &words[3..], locks),
    }
}

fn number(words: &[String], at: usize) -> u64 {
    words.get(at).and_then(|word| word.parse().ok()).expect(USAGE)
}

fn fail(what: &str) -> ! {
    println!("DIFFERENT: {what}");
    std::process::exit(1);
}

/// The sorts of texts that are drawn: how they are shown and named, and how they are made.
const SORTS: [(&str, &str, fn(&mut Random) -> Vec<u8>); 3] = [
    ("drawn as for compare", "parts", any_text),
    ("with late parents", "parts-late", |random| text_of(&late_parents(random))),
    ("with blocks in blocks", "parts-blocks", |random| text_of(&links_across_blocks(random))),
];

/// Text `number` of each sort, with its name and with what is drawn next.
fn drawn(seed: u64, number: u64, locks: bool) -> [(Vec<u8>, String, Random); SORTS.len()] {
    SORTS.map(|(_, name, draw)| {
        let mut random = Random::numbered(seed, number).with_locks(locks);
        (draw(&mut random), format!("{name}-{seed}-{number}{}", if locks { "-locks" } else { "" }), random)
    })
}

fn check(seed: u64, count: u64, paths: &[String], locks: bool) {
    let (mut tallies, mut given) = <([Tally; SORTS.len()], Tally)>::default();
    for k in 0..count {
        for ((text, name, mut random), tally) in drawn(seed, k, locks).into_iter().zip(&mut tallies) {
            check_or_fail(&mut random, &text, &name, MOST_PLACES, tally);
        }
    }
    for path in paths {
        let text = std::fs::read(path).unwrap_or_else(|error| panic!("{path}: {error}"));
        check_or_fail(&mut Random::new(seed), &text, "parts-given", usize::MAX, &mut given);
    }
    SORTS.iter().zip(&tallies).for_each(|(sort, tally)| show(sort.0, tally));
    if !paths.is_empty() {
        show("texts", &given);
    }
}

fn check_or_fail(random: &mut Random, text: &[u8], name: &str, most: usize, tally: &mut Tally) {
    if let Err(fault) = check_text(random, text, most, tally) {
        fail(&format!("{fault} ({})", saved(name, text)));
    }
}

// ---- a whole and its parts

/// A text's graph, as its parts are held to it.
struct Whole<'a> {
    text: &'a [u8],
    lines: &'a [Line],
    unfolded: &'a Unfolded,
    graph: &'a Graph<'a, QuickPlaces>,
    edges: Vec<Edge>,
    robust: bool,
}

/// Nothing where it holds, else what is wrong.
fn ensure(holds: bool, fault: &str) -> Result<(), String> {
    if holds { Ok(()) } else { Err(fault.to_string()) }
}

fn check_text(random: &mut Random, text: &[u8], most: usize, tally: &mut Tally) -> Result<(), String> {
    tally.texts += 1;
    let Some(unfolded) = unfolded(text).ok().filter(|unfolded| unfolded.unfoldings.places <= most) else {
        tally.left_out += 1;
        return Ok(());
    };
    let (places, mut marks) = (QuickPlaces::of(&unfolded.unfoldings, &unfolded.spots), Marks::default());
    let graph = Graph::of(&places, &mut marks, unfolded.unfoldings.all().iter().map(|node| node.length as usize));
    let robust = first_walk(&graph, u64::MAX, &mut [EMPTY_STEP; MAX_STEPS]) == 0;
    let edges = list(&unfolded.unfoldings, &unfolded.spots);
    let whole = Whole { text, lines: unfolded.workload.taken(), unfolded: &unfolded, graph: &graph, edges, robust };
    tally.robust += robust as usize;
    whole.check_groups(random, tally)?;
    whole.check_arms(tally)
}

/// All words of some programs, or, where they are too many, drawn ones with none and all of them.
fn drawn_groups(random: &mut Random, all: u16, most: usize) -> BTreeSet<u16> {
    if all < most as u16 {
        return (0..=all).collect();
    }
    let mut groups = BTreeSet::from([0, all]);
    for _ in groups.len()..most {
        let word = random.word() as u16 & all;
        groups.insert(if random.chance(1, 2) { word } else { word & random.word() as u16 });
    }
    groups
}

impl Whole<'_> {
    fn check_groups(&self, random: &mut Random, tally: &mut Tally) -> Result<(), String> {
        let all = all_programs(self.lines);
        ensure(part_text(self.lines, all) == self.text, "all programs give another text")?;
        let mut robust = BTreeMap::new();
        for group in drawn_groups(random, all, MOST_GROUPS) {
            let past = random.word() as u16 & !all;
            ensure(part_lines(self.lines, group | past) == part_lines(self.lines, group), "bits past the programs count")?;
            let is_robust = self.check_group(group, tally).map_err(|fault| format!("programs {group:b}: {fault}"))?;
            robust.insert(group, is_robust);
            tally.groups += 1;
            tally.robust_groups += is_robust as usize;
            tally.groups_turned += (is_robust && !self.robust && group > 0) as usize;
        }
        ensure(robust[&0], "no programs give danger")?;
        for (&group, _) in robust.iter().filter(|(_, &robust)| robust) {
            for program in bits(group as u64) {
                let smaller = group & !(1 << program);
                let known = robust.get(&smaller).copied();
                let still = known.unwrap_or_else(|| judged_robust(&part_text(self.lines, smaller)));
                ensure(still, &format!("programs {group:b} are robust, without {program} they are not"))?;
                tally.smaller += 1;
            }
        }
        Ok(())
    }

    /// Whether the part is robust.
    fn check_group(&self, group: u16, tally: &mut Tally) -> Result<bool, String> {
        let part = read_again(&part_text(self.lines, group))?;
        let kept = nodes_of_group(&self.unfolded.unfoldings, group);
        let number = |program: u8| (group & ((1 << program) - 1)).count_ones() as u8;
        let nodes = bits(kept).map(|node| (number(self.unfolded.unfoldings.node[node].program), statements(self.unfolded, node)));
        let own = (0..part.unfoldings.nodes).map(|node| (part.unfoldings.node[node].program, statements(&part, node)));
        ensure(nodes.eq(own), "nodes")?;
        self.check_graph(kept, &part.unfoldings, &part.spots, tally)
    }

    fn check_arms(&self, tally: &mut Tally) -> Result<(), String> {
        let nodes = taken_by_nodes(self.lines);
        ensure(nodes.len() == self.graph.nodes, "as many unfoldings take arms as there are nodes")?;
        for branch in arms_of(self.lines).chunks(2) {
            let mut left = self.graph.all_nodes();
            for arm in branch {
                left &= nodes_without(&nodes, arm);
                self.check_arm(&nodes, arm, tally).map_err(|fault| format!("without {arm:?}: {fault}"))?;
            }
            let Arm { program, place, .. } = branch[0];
            let text = text_of(&lines_without_branch(self.lines, program, place));
            self.check_cut(left, &text, tally).map_err(|fault| format!("without both arms at {place} of program {program}: {fault}"))?;
            tally.branches += 1;
            tally.branches_mixed += nodes.iter().any(|node| branch.iter().all(|arm| node.takes(arm))) as usize;
        }
        Ok(())
    }

    fn check_arm(&self, nodes: &[Taken], arm: &Arm, tally: &mut Tally) -> Result<(), String> {
        let kept = nodes_without(nodes, arm);
        let alone = kept_unfoldings(&self.unfolded.unfoldings, kept);
        let spots = spots(&self.unfolded.workload, &alone);
        let robust = self.check_graph(kept, &alone, &spots[..alone.places], tally)?;
        self.check_cut(kept, &text_of(&lines_without_arm(self.lines, arm)), tally)?;
        tally.arms += 1;
        tally.robust_arms += robust as usize;
        tally.arms_turned += (robust && !self.robust) as usize;
        Ok(())
    }

    /// A text without an arm or a branch, against the nodes that are left. Its statements have other ids.
    fn check_cut(&self, kept: u64, text: &[u8], tally: &mut Tally) -> Result<(), String> {
        let cut = read_again(text)?;
        self.check_graph(kept, &cut.unfoldings, &cut.spots, tally)?;
        Ok(())
    }

    /// A graph against the whole's on the nodes that are kept: places, edges, first walk; whether it is robust.
    fn check_graph(&self, kept: u64, unfoldings: &Unfoldings, spots: &[Spot], tally: &mut Tally) -> Result<bool, String> {
        let whole = bits(kept).map(|node| places(&self.unfolded.unfoldings, &self.unfolded.spots, node));
        ensure(whole.eq((0..unfoldings.nodes).map(|node| places(unfoldings, spots, node))), "places of nodes")?;
        let edges = list(unfoldings, spots);
        ensure(edges == kept_edges(&self.edges, kept), "edge records")?;
        let (mut first, mut own) = ([EMPTY_STEP; MAX_STEPS], [EMPTY_STEP; MAX_STEPS]);
        let steps = first_walk(self.graph, kept, &mut first);
        let verdict = judge_graph(0, unfoldings, spots, &mut own);
        ensure(in_whole_numbers(&own[..verdict.steps], kept) == first[..steps], "first walk")?;
        ensure(verdict.steps == 0 || !self.robust, "danger in part of a robust whole")?;
        tally.edges += edges.len();
        Ok(verdict.steps == 0)
    }
}

fn read_again(text: &[u8]) -> Result<Unfolded, String> {
    unfolded(text).map_err(|refusal| format!("refused by {} at line {} of\n{}", refusal.number, refusal.line, String::from_utf8_lossy(text)))
}

fn judged_robust(text: &[u8]) -> bool {
    let workload = read(text).expect("a part is accepted");
    judge(&workload, &mut [EMPTY_STEP; MAX_STEPS]).expect("a part is not too large").steps == 0
}

/// The statements of a node, ids included, with their turns.
fn statements(unfolded: &Unfolded, node: usize) -> Vec<(Line, u8, u8)> {
    let places = unfolded.unfoldings.places_of(node).iter();
    places.map(|place| (unfolded.workload.lines[place.line as usize], place.turns, place.loops)).collect()
}

/// What the edge rules ask of a node's places.
fn places<'a>(unfoldings: &Unfoldings, spots: &'a [Spot], node: usize) -> &'a [Spot] {
    let node = &unfoldings.node[node];
    &spots[node.start as usize..][..node.length as usize]
}

fn show(word: &str, tally: &Tally) {
    let Tally { texts, left_out, robust, edges, .. } = tally;
    println!("{word}: {texts} texts, {left_out} of them refused or too large, {robust} robust; {edges} edge records of parts alike");
    let Tally { groups, robust_groups, groups_turned, smaller, .. } = tally;
    println!(
        "  groups: {groups}, {robust_groups} robust, {groups_turned} of these not empty and in a dangerous whole; {smaller} with one program less \
         than a robust one, robust"
    );
    let Tally { arms, robust_arms, arms_turned, branches, branches_mixed, .. } = tally;
    println!(
        "  arms: {arms}, without them {robust_arms} robust, {arms_turned} of these in a dangerous whole; {branches} branches without both, \
         {branches_mixed} of them with an unfolding that takes both"
    );
}

// ---- another program

fn compare(program: &str, seed: u64, count: u64, locks: bool) {
    let asked = Asked::of(program).unwrap_or_else(|error| panic!("{program}: {error}"));
    let (mut answers, mut texts) = (Answers::default(), 0);
    for k in 0..count {
        for (text, name, mut random) in drawn(seed, k, locks) {
            let Ok(workload) = read(&text) else { continue };
            let groups: Vec<u16> = drawn_groups(&mut random, all_programs(workload.taken()), MOST_ASKED).into_iter().collect();
            if let Err(fault) = asked.ask(&mut random, &text, workload.taken(), &groups, &mut answers) {
                fail(&format!("{fault} ({}; {} has what was asked)", saved(&name, &text), asked.folder.display()));
            }
            texts += 1;
        }
    }
    let _ = std::fs::remove_dir_all(&asked.folder);
    println!("{texts} texts: {} parts the same, {} texts that are not the part told from it, by {program}", answers.same, answers.differ);
}
