//! Another program that says of texts whether they are parts of a whole (`parts --against`): what it is asked, and what it answers.
//!
//! Its arguments are `--of WHOLE`, then pairs `GROUP FILE`; for each pair it prints `GROUP FILE same` or `GROUP FILE differs`: whether the value of
//! the file's text is that of the part of the whole by this word. It may print other lines as well.

use crate::parts::*;
use crate::random::Random;
use crate::reader::read;
use crate::workload::Line;
use std::path::{Path, PathBuf};
use std::process::Command;

const WHOLE: &str = "whole.txt";

/// A program with its arguments, and the folder in which it is asked.
pub struct Asked {
    program: PathBuf,
    words: Vec<String>,
    pub folder: PathBuf,
}

/// A text that is the part by this word, or is not.
struct Pair {
    group: u16,
    file: String,
    text: Vec<u8>,
    same: bool,
}

/// How many pairs were answered as they should be.
#[derive(Default)]
pub struct Answers {
    pub same: usize,
    pub differ: usize,
}

impl Asked {
    /// The program's path may be relative to where this is run.
    pub fn of(program: &str) -> std::io::Result<Asked> {
        let mut words = program.split_whitespace().map(str::to_string);
        let program = std::fs::canonicalize(words.next().unwrap_or_default())?;
        let folder = std::env::temp_dir().join(format!("outside-parts-{}", std::process::id()));
        std::fs::create_dir_all(&folder)?;
        Ok(Asked { program, words: words.collect(), folder })
    }

    /// Asks about an accepted text and these words; for each its part, the same with bits past the programs, the part by another word, and a text
    /// that one change to the part makes.
    pub fn ask(&self, random: &mut Random, text: &[u8], lines: &[Line], groups: &[u16], answers: &mut Answers) -> Result<(), String> {
        let pairs: Vec<Pair> = groups.iter().flat_map(|&group| pairs_of(random, lines, groups, group)).collect();
        let told = self.told(text, &pairs).map_err(|error| error.to_string())?;
        let wanted: Vec<String> = pairs.iter().map(Pair::answer).collect();
        let own = |line: &&str| pairs.iter().any(|pair| line.split(' ').nth(1) == Some(&pair.file));
        let given: Vec<&str> = told.lines().filter(own).collect();
        if given != wanted {
            let at = (0..wanted.len()).find(|&at| given.get(at) != Some(&wanted[at].as_str())).unwrap_or(wanted.len());
            return Err(format!("expected {:?} but got {:?}", wanted.get(at), given.get(at)));
        }
        answers.same += pairs.iter().filter(|pair| pair.same).count();
        answers.differ += pairs.iter().filter(|pair| !pair.same).count();
        Ok(())
    }

    /// What the program prints on these pairs.
    fn told(&self, text: &[u8], pairs: &[Pair]) -> std::io::Result<String> {
        std::fs::write(self.folder.join(WHOLE), text)?;
        let mut command = Command::new(&self.program);
        command.args(&self.words).args(["--of", WHOLE]).current_dir(&self.folder);
        for pair in pairs {
            std::fs::write(self.folder.join(&pair.file), &pair.text)?;
            command.args([&pair.group.to_string(), &pair.file]);
        }
        let ran = command.output()?;
        let errors = String::from_utf8_lossy(&ran.stderr);
        if !ran.status.success() || !errors.is_empty() {
            return Err(std::io::Error::other(format!("{}, errors {errors:?}", ran.status)));
        }
        Ok(String::from_utf8_lossy(&ran.stdout).into_owned())
    }
}

impl Pair {
    fn answer(&self) -> String {
        format!("{} {} {}", self.group, self.file, if self.same { "same" } else { "differs" })
    }
}

fn pairs_of(random: &mut Random, lines: &[Line], groups: &[u16], group: u16) -> Vec<Pair> {
    let part = part_text(lines, group);
    let (other, past) = (*random.pick(groups), random.word() as u16 & !all_programs(lines));
    let mut pairs = vec![
        Pair { group, file: format!("part-{group}.txt"), text: part.clone(), same: true },
        Pair { group: group | past, file: format!("part-{group}.txt"), text: part.clone(), same: true },
        // two programs may be equal: then two words give one text
        Pair { group, file: format!("part-{other}.txt"), text: part_text(lines, other), same: part_text(lines, other) == part },
    ];
    let changed = changed(random, &part);
    pairs.extend(changed.map(|text| Pair { group, file: format!("changed-{group}.txt"), text, same: false }));
    pairs
}

/// An accepted text that differs from this one in a byte, or lacks a line of it; nothing where none is found.
fn changed(random: &mut Random, text: &[u8]) -> Option<Vec<u8>> {
    let attempts = (0..40).map(|_| if random.chance(1, 4) { without_line(random, text) } else { with_byte(random, text) });
    attempts.into_iter().find(|other| other != text && read(other).is_ok())
}

fn with_byte(random: &mut Random, text: &[u8]) -> Vec<u8> {
    let mut text = text.to_vec();
    let at = random.below(text.len());
    text[at] = *random.pick(b"01234567abcdefiklpsu");
    text
}

fn without_line(random: &mut Random, text: &[u8]) -> Vec<u8> {
    let lines: Vec<&[u8]> = text.split_inclusive(|&byte| byte == b'\n').collect();
    let gone = random.below(lines.len());
    [&lines[..gone], &lines[gone + 1..]].concat().concat()
}

/// The answers that are asked for, by this implementation.
pub fn answer(whole: &Path, pairs: &[String]) -> Result<String, String> {
    let text = |path: &Path| std::fs::read(path).map_err(|error| format!("{}: {error}", path.display()));
    let value = |path: &Path| read(&text(path)?).map_err(|refusal| format!("{}: refused by {}", path.display(), refusal.number));
    let whole = value(whole)?;
    let mut out = String::new();
    for pair in pairs.chunks(2) {
        let [group, file] = pair else { return Err("a word without a file".to_string()) };
        let part = part_lines(whole.taken(), group.parse().map_err(|_| format!("not a word: {group}"))?);
        let same = value(Path::new(file))?.taken() == part;
        out.push_str(&format!("{group} {file} {}\n", if same { "same" } else { "differs" }));
    }
    Ok(out)
}
