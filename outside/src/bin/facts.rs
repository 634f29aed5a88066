//! `facts SEED COUNT [TEXT...] [--locks]`: the listing of facts held to itself, to the words of its text and to the other listings (report, edges,
//! unfoldings), on COUNT generated texts and on the texts. It goes by what is printed, line by line, and uses nothing of how the facts are found: an
//! unfolding's choices are followed through its program's lines, what was taken before a fault is counted by the lines' first words. Ends with the
//! first fault; the text is saved under found/.

use outside::arguments::words_and_locks;
use outside::facts::facts;
use outside::generator::text_number;
use outside::outcome::saved;
use outside::report::*;
use std::collections::BTreeMap;

type Words<'a> = Vec<&'a str>;
type Checked = Result<(), String>;

/// Where a count of refusal 22 stops.
const STOP: usize = 513;

fn main() {
    let (words, locks) = words_and_locks();
    let number = |at: usize| words.get(at).and_then(|word| word.parse::<u64>().ok()).expect("usage: facts SEED COUNT [TEXT...] [--locks]");
    let (seed, count) = (number(1), number(2));
    let mut tally = BTreeMap::new();
    for k in 0..count {
        check(&text_number(seed, k, locks), &format!("facts-{seed}-{k}{}", if locks { "-locks" } else { "" }), &mut tally);
    }
    for path in words.iter().skip(3) {
        check(&std::fs::read(path).unwrap_or_else(|error| panic!("{path}: {error}")), "facts-text", &mut tally);
    }
    let (lines, texts): (Vec<_>, Vec<_>) = tally.iter().partition(|(word, _)| word.ends_with(" lines"));
    let show = |counts: Vec<(&String, &usize)>| counts.iter().map(|(word, count)| format!("{count} {word}")).collect::<Vec<_>>().join(", ");
    println!("facts as they should be, of texts: {}; {}", show(texts), show(lines));
}

fn check(text: &[u8], name: &str, tally: &mut BTreeMap<String, usize>) {
    let listing = facts(text);
    if let Err(fault) = Given::of(text, &listing).check() {
        println!("{}: {fault}\n{listing}", saved(name, text));
        std::process::exit(1);
    }
    let words: Words = listing.split([' ', '\n']).collect();
    let outcome = if words[0] == "refused" { words[..2].join(" ") } else { words[1].to_string() };
    *tally.entry(outcome).or_insert(0) += 1;
    for line in listing.lines() {
        *tally.entry(format!("{} lines", line.split(' ').next().unwrap_or(""))).or_insert(0) += 1;
    }
}

fn want(holds: bool, what: impl Fn() -> String) -> Checked {
    if holds { Ok(()) } else { Err(what()) }
}

fn same<T: PartialEq + std::fmt::Debug>(what: &str, told: T, wanted: T) -> Checked {
    want(told == wanted, || format!("{what}: told {told:?}, should be {wanted:?}"))
}

fn number(word: &str) -> usize {
    word.parse().unwrap_or_else(|_| panic!("not a number: {word:?}"))
}

fn numbers(words: &[&str]) -> Vec<usize> {
    words.iter().map(|word| number(word)).collect()
}

/// A text's lines in words, line k at k, and its facts in words.
struct Given<'a> {
    bytes: &'a [u8],
    text: Vec<Words<'a>>,
    facts: Vec<Words<'a>>,
}

impl<'a> Given<'a> {
    fn of(bytes: &'a [u8], listing: &'a str) -> Given<'a> {
        let mut text = vec![Vec::new()];
        text.extend(bytes.split(|&byte| byte == b'\n').map(|line| std::str::from_utf8(line).unwrap_or("").split(' ').collect::<Words>()));
        let facts = listing.strip_suffix("end\n").unwrap_or("no last line").lines().map(|line| line.split(' ').collect()).collect();
        Given { bytes, text, facts }
    }

    fn check(&self) -> Checked {
        want(self.facts.iter().flatten().all(|word| !word.is_empty()), || "a space too many".to_string())?;
        if self.facts[0][0] == "refused" { self.check_refused() } else { self.check_judged() }
    }

    /// The fields of all lines of facts with this word, without it.
    fn all(&self, word: &str) -> Vec<&[&'a str]> {
        self.facts.iter().filter(|fact| fact[0] == word).map(|fact| &fact[1..]).collect()
    }

    /// The same as numbers.
    fn tables(&self, word: &str) -> Vec<Vec<usize>> {
        self.all(word).into_iter().map(numbers).collect()
    }

    /// The word that a line of the text begins with; nothing past the end.
    fn kind(&self, line: usize) -> &'a str {
        self.text.get(line).map_or("", |words| words[0])
    }

    /// The lines of the text that begin with pr.
    fn begins(&self) -> Vec<usize> {
        (2..self.text.len()).filter(|&line| self.kind(line) == "pr").collect()
    }
}

fn is_statement(kind: &str) -> bool {
    matches!(kind, "is" | "ks" | "ps" | "ku" | "pu" | "kd" | "pd" | "kl")
}

// ---- refused texts

impl Given<'_> {
    fn check_refused(&self) -> Checked {
        let report = report(self.bytes);
        same("the refusal", format!("{REFUSED_NAMES}{}\n", self.facts[0][1..].join(" ")), report)?;
        let (refused, line) = (number(self.facts[0][1]), number(self.facts[0][2]));
        if refused == 22 {
            return self.check_unfolds();
        }
        same("lines of facts", self.facts.len(), 2)?;
        same("the second word", self.facts[1][0], "before")?;
        let told = numbers(&self.facts[1][1..]);
        let last = match refused {
            1..=3 => 1,
            7 if self.bytes.len() > 32766 => return Ok(()), // no room to ask for a line more
            _ if self.all_taken() => self.text.len() - 2,
            _ => line - 1,
        };
        same("before the fault", told, self.counts_up_to(last))
    }

    /// Whether the fault is the end's, with a block open, and no line's: a line more, which is none by its form, is met only then.
    fn all_taken(&self) -> bool {
        let lines = self.text.len() - 2;
        report(&[self.bytes, b"-\n"].concat()) == format!("{REFUSED_NAMES}4 {}\n", lines + 1)
    }

    /// The counts of `before` over lines 2 to `last`.
    fn counts_up_to(&self, last: usize) -> Vec<usize> {
        let count = |from: usize, kinds: &[&str]| (from..=last).filter(|&line| kinds.contains(&self.kind(line))).count();
        let begin = (2..=last).filter(|&line| self.kind(line) == "pr").last().unwrap_or(last + 1);
        let statements = count(begin, &["is", "ks", "ps", "ku", "pu", "kd", "pd", "kl"]);
        let (opened, closed) = (count(begin, &["lo", "br"]), count(begin, &["en"]));
        let body = statements + opened + count(begin, &["el"]) + closed;
        vec![last - 1, count(2, &["rl"]), count(2, &["fk"]), count(2, &["pr"]), statements, body, count(begin, &["li"]), opened - closed]
    }

    fn check_unfolds(&self) -> Checked {
        let told = self.tables("unfolds");
        same("lines of facts", told.len() + 1, self.facts.len())?;
        let counts = |(program, line): (usize, usize)| {
            let (unfoldings, statements) = self.count_run(&mut (line + 1));
            vec![program, line, unfoldings, statements]
        };
        same("unfoldings", &told, &self.begins().into_iter().enumerate().map(counts).collect::<Vec<_>>())?;
        let sum = |field: usize| told.iter().map(|fact| fact[field]).sum::<usize>();
        want(sum(2) > 64 || sum(3) > 512, || "no reason for 22".to_string())
    }

    /// How many unfoldings the run at `line` has and how many statements stand in them, stopped; `line` is moved after it.
    fn count_run(&self, line: &mut usize) -> (usize, usize) {
        let mut counts = (1, 0);
        loop {
            let item = match self.kind(*line) {
                "lo" => {
                    *line += 1;
                    let turn = self.count_run(line);
                    let turns = in_a_row(turn, turn);
                    (1 + turn.0 + turns.0, turn.1 + turns.1)
                }
                "br" => {
                    *line += 1;
                    let first = self.count_run(line);
                    *line += 1;
                    let second = self.count_run(line);
                    (first.0 + second.0, first.1 + second.1)
                }
                kind if is_statement(kind) => (1, 1),
                _ => return counts,
            };
            *line += 1;
            counts = in_a_row(counts, item);
        }
    }
}

/// Counts of two runs, one behind the other, stopped: no sum or product grows when its parts do not, so it may stop early.
fn in_a_row(first: (usize, usize), then: (usize, usize)) -> (usize, usize) {
    (STOP.min(first.0 * then.0), STOP.min(first.1 * then.0 + then.1 * first.0))
}

// ---- accepted texts

impl Given<'_> {
    fn check_judged(&self) -> Checked {
        let report = report(self.bytes);
        let second = report.lines().nth(1).unwrap_or("");
        same("the verdict", self.facts[0].join(" "), format!("verdict {second}"))?;
        let words = ["verdict", "program", "node", "places", "between", "step", "pair"];
        let order: Vec<Option<usize>> = self.facts.iter().map(|fact| words.iter().position(|word| *word == fact[0])).collect();
        want(order.windows(2).all(|two| two[0] <= two[1] && two[0].is_some()), || "facts out of order".to_string())?;
        let edges = list_edges(self.bytes);
        let edges: Vec<Words> = edges.lines().skip(1).map(|line| line.split(' ').collect()).collect();
        self.check_nodes()?;
        self.check_places()?;
        self.check_between(&edges)?;
        self.check_programs()?;
        if self.facts[0][1] == "robust" {
            return same("steps and pairs", (self.all("step").len(), self.all("pair").len()), (0, 0));
        }
        let steps: Words = report.lines().skip(3).collect();
        self.check_steps(&steps, &edges)?;
        self.check_pair()
    }

    /// Each node's choices, followed through its program, use every choice and pass the statements at its places; and they rise, the leftmost
    /// changing slowest. So no two are alike.
    fn check_nodes(&self) -> Checked {
        let (nodes, places, begins) = (self.tables("node"), self.tables("places"), self.begins());
        same("nodes", nodes.len(), number(self.facts[0][3]))?;
        for (m, node) in nodes.iter().enumerate() {
            let before = nodes[..m].iter().filter(|other| other[1] == node[1]).count();
            same("node, number", (node[0], node[2]), (m, before))?;
            let chosen: Vec<(usize, usize)> = node[3..].chunks(2).map(|pair| (pair[0], pair[1])).collect();
            let mut path = Path { given: self, chosen: &chosen, passed: Vec::new() };
            path.follow_run(&mut (begins[node[1]] + 1))?;
            want(path.chosen.is_empty(), || format!("node {m} chooses too much"))?;
            same("places by choices", &path.passed, &places[m][1..].to_vec())?;
            let rises = |other: &Vec<usize>| other[1] < node[1] || (other[1] == node[1] && other[3..] < node[3..]);
            want(m == 0 || rises(&nodes[m - 1]), || format!("node {m} is out of order"))?;
        }
        Ok(())
    }

    /// The places by `outside unfoldings`, which tells node, program, start, length and the statements' ids.
    fn check_places(&self) -> Checked {
        let listed = list_unfoldings(self.bytes);
        let listed: Vec<Vec<usize>> = listed.lines().skip(1).map(|line| numbers(&line.split(' ').collect::<Words>())).collect();
        let (nodes, places) = (self.tables("node"), self.tables("places"));
        same("places", places.len(), listed.len())?;
        for ((node, places), listed) in nodes.iter().zip(&places).zip(&listed) {
            let ids = places[1..].iter().map(|&line| number(self.text[line][1])).collect::<Vec<usize>>();
            same("node and program", (places[0], node[1]), (listed[0], listed[1]))?;
            same("statements", &ids, &listed[4..].to_vec())?;
        }
        Ok(())
    }

    fn check_between(&self, edges: &[Words]) -> Checked {
        let mut counts: BTreeMap<(usize, usize), (usize, usize)> = BTreeMap::new();
        for edge in edges {
            let (forward, back) = counts.entry((number(edge[0]), number(edge[2]))).or_default();
            *(if edge[4] == "f" { forward } else { back }) += 1;
        }
        let counted: Vec<Vec<usize>> = counts.iter().map(|(&(m, n), &(forward, back))| vec![m, n, forward, back]).collect();
        same("between", self.tables("between"), counted)
    }

    /// Each program's counts by the lines on nodes, places and edges between, and their sums by the verdict's.
    fn check_programs(&self) -> Checked {
        let (programs, nodes, places, between) = (self.tables("program"), self.tables("node"), self.tables("places"), self.tables("between"));
        let mut sums = vec![programs.len(), 0, 0, 0];
        for (p, (told, line)) in programs.iter().zip(self.begins()).enumerate() {
            let own: Vec<usize> = nodes.iter().filter(|node| node[1] == p).map(|node| node[0]).collect();
            let statements = own.iter().map(|&m| places[m].len() - 1).sum();
            let leaving = || between.iter().filter(|row| own.contains(&row[0]));
            let (forward, back) = leaving().fold((0, 0), |sum, row| (sum.0 + row[2], sum.1 + row[3]));
            same("program", told, &vec![p, line, own.len(), statements, forward + back, back])?;
            same("the text's program", self.text[line][1], &p.to_string())?;
            [told[2], told[4], told[5]].iter().enumerate().for_each(|(at, count)| sums[at + 1] += count);
        }
        same("sums", sums, numbers(&self.facts[0][2..]))
    }
}

/// An execution by what it chooses: the choices that are left, and the lines of the statements passed so far.
struct Path<'a> {
    given: &'a Given<'a>,
    chosen: &'a [(usize, usize)],
    passed: Vec<usize>,
}

impl Path<'_> {
    /// Follows the run at `line`, which is moved after it.
    fn follow_run(&mut self, line: &mut usize) -> Checked {
        loop {
            match self.given.kind(*line) {
                "lo" => self.follow_loop(line)?,
                "br" => self.follow_branch(line)?,
                kind if is_statement(kind) => self.passed.push(*line),
                _ => return Ok(()),
            }
            *line += 1;
        }
    }

    fn choose(&mut self, line: usize, lowest: usize) -> Result<usize, String> {
        let (&(at, choice), left) = self.chosen.split_first().ok_or(format!("nothing is chosen at line {line}"))?;
        self.chosen = left;
        same("the line of a choice", at, line)?;
        want((lowest..=2).contains(&choice), || format!("{choice} is chosen at line {line}"))?;
        Ok(choice)
    }

    fn follow_loop(&mut self, line: &mut usize) -> Checked {
        let turns = self.choose(*line, 0)?;
        let body = *line + 1;
        for _ in 0..turns {
            self.follow_run(&mut { body })?;
        }
        *line = self.partner(*line);
        Ok(())
    }

    fn follow_branch(&mut self, line: &mut usize) -> Checked {
        let arm = self.choose(*line, 1)?;
        let middle = self.partner(*line);
        self.follow_run(&mut (if arm == 1 { *line + 1 } else { middle + 1 }))?;
        *line = self.partner(middle);
        Ok(())
    }

    /// The line at which what opens on this one ends: its el or en.
    fn partner(&self, line: usize) -> usize {
        let mut depth = 0;
        let mut at = line + 1;
        while depth > 0 || !matches!(self.given.kind(at), "el" | "en") {
            match self.given.kind(at) {
                "lo" | "br" => depth += 1,
                "en" => depth -= 1,
                _ => {}
            }
            at += 1;
        }
        at
    }
}

// ---- the walk

impl Given<'_> {
    /// Each step is the report's, its record the one of that number in the list of edges, its lines those of its places.
    fn check_steps(&self, report: &[&str], edges: &[Words]) -> Checked {
        let (steps, places) = (self.all("step"), self.tables("places"));
        same("steps", steps.len(), report.len())?;
        for (k, (step, shown)) in steps.iter().zip(report).enumerate() {
            let [number_of_step, m, i, left, n, j, entered, flow, edge, letter, shared, lowest] = step[..12] else {
                return Err(format!("step {k} is too short"));
            };
            same("step", [number_of_step, m, i, j, flow].join(" ").as_str(), shown)?;
            same("the next step's node", n, steps[(k + 1) % steps.len()][1])?;
            let record = edges.get(number(edge)).ok_or(format!("there is no edge {edge}"))?;
            same("the edge", &vec![m, i, n, j, flow, letter, shared, lowest], record)?;
            same("the line left", number(left), places[number(m)][number(i) + 1])?;
            same("the line entered", number(entered), places[number(n)][number(j) + 1])?;
            self.check_shared(step)?;
        }
        Ok(())
    }

    /// The attributes by the sets in the text: fields 4, 5 and 6 of a line are reads, writes and tests.
    fn check_shared(&self, step: &[&str]) -> Checked {
        let (from, to) = match step[9] {
            "A" => (5, 5),
            "B" => (5, 4),
            "C" => (5, 6),
            "D" => (4, 5),
            _ => (6, 5),
        };
        let set = |line: &str, field: usize| u64::from_str_radix(self.text[number(line)][field], 16).unwrap_or(0);
        let both = set(step[3], from) & set(step[6], to);
        let told = numbers(&step[12..]);
        want(told.windows(2).all(|two| two[0] < two[1]), || "attributes that do not rise".to_string())?;
        same("shared attributes", told.iter().fold(0, |all, attribute| all | 1u64 << attribute), both)?;
        same("how many, and the lowest", numbers(&step[10..12]), vec![told.len(), told.first().copied().unwrap_or(64)])
    }

    /// The pair is dangerous for the reasons told, and no step before it makes one.
    fn check_pair(&self) -> Checked {
        let (steps, pairs) = (self.all("step"), self.tables("pair"));
        same("pairs", pairs.len(), 1)?;
        let reasons = |e: usize| {
            let (e, c) = (steps[e], steps[(e + 1) % steps.len()]);
            let loose = matches!(self.kind(number(e[3])), "ks" | "ps" | "pu" | "pd");
            [c[7] == "b", e[7] == "b", number(c[2]) < number(e[5]), loose].map(usize::from)
        };
        let dangerous = |e: usize| reasons(e)[0] == 1 && reasons(e)[1..].contains(&1);
        let first = (0..steps.len()).find(|&e| dangerous(e)).ok_or("no dangerous pair")?;
        let wanted = [&[first, (first + 1) % steps.len()], &reasons(first)[1..]].concat();
        same("pair", &pairs[0], &wanted)
    }
}
