//! `reports PROGRAM SEED COUNT [TEXT...] [--locks]`: what a program prints on the texts and on COUNT generated ones, one report right after the
//! other, for `same.sh` to compare; without `--locks` those with a line kl are left out. A program that fails or writes errors ends it. PROGRAM `-`:
//! the texts themselves. On standard error: how many texts there were, and of which outcome.

use outside::arguments::words_and_locks;
use outside::generator::text_number;
use outside::outcome::run;
use std::collections::BTreeMap;
use std::io::Write;

fn main() {
    let (words, locks) = words_and_locks();
    let number = |at: usize| words.get(at).and_then(|word| word.parse::<u64>().ok());
    let (Some(program), Some(seed), Some(count)) = (words.get(1), number(2), number(3)) else {
        eprintln!("usage: reports PROGRAM SEED COUNT [TEXT...] [--locks]");
        std::process::exit(2);
    };
    let given = words[4..].iter().map(|path| std::fs::read(path).unwrap_or_else(|error| panic!("{path}: {error}")));
    let mut outcomes: BTreeMap<String, usize> = BTreeMap::new();
    let (mut taken, mut left_out) = (0, 0);
    let mut out = std::io::BufWriter::new(std::io::stdout());
    for text in given.chain((0..count).map(|k| text_number(seed, k, locks))) {
        // a changed byte may turn a ks into one
        if !locks && text.split(|&byte| byte == b'\n').any(|line| line.starts_with(b"kl")) {
            left_out += 1;
            continue;
        }
        taken += 1;
        let printed = if program == "-" { text } else { printed(program, &text) };
        if program != "-" {
            *outcomes.entry(outcome(&printed)).or_insert(0) += 1;
        }
        out.write_all(&printed).expect("standard output");
    }
    out.flush().expect("standard output");
    let told: Vec<String> = outcomes.iter().map(|(outcome, count)| format!("{count} {outcome}")).collect();
    let given = words.len() - 4;
    eprintln!("{taken} texts of {given} and {count} generated ones (seed {seed}), {left_out} with kl left out; {}", told.join(", "));
}

fn printed(program: &str, text: &[u8]) -> Vec<u8> {
    match run(program, text) {
        Ok(ran) if ran.status == Some(0) && ran.errors.is_empty() => ran.output,
        Ok(ran) => fail(&format!("status {:?}, errors {:?}", ran.status, String::from_utf8_lossy(&ran.errors)), text),
        Err(error) => fail(&error.to_string(), text),
    }
}

fn fail(what: &str, text: &[u8]) -> ! {
    eprintln!("{what} on\n{}", String::from_utf8_lossy(text));
    std::process::exit(1);
}

/// `robust`, `danger` or `refused N`.
fn outcome(report: &[u8]) -> String {
    let report = String::from_utf8_lossy(report);
    let word = report.lines().nth(1).unwrap_or("").split(' ').next().unwrap_or("").to_string();
    if report.starts_with("refused") { format!("refused {word}") } else { word }
}
