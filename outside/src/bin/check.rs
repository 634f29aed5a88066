//! `check MODE PROGRAM FOLDER`: runs a program on every FOLDER/NAME.txt and compares with FOLDER/NAME.out.
//! MODE report: the whole report is compared, also with the one that this implementation gives; the walk is judged by the checker too.
//! MODE reader: PROGRAM prints reports; a refusal's number and line are compared, or that the text is accepted.
//! MODE same: the whole output is compared (listings of unfoldings and edges).
//! MODE facts: the whole output is compared with the facts that this implementation lists; no output needs to be kept.

use outside::facts::facts;
use outside::outcome::*;
use outside::reader::read;
use outside::report::*;
use std::path::{Path, PathBuf};

fn main() {
    let words: Vec<String> = std::env::args().collect();
    let [_, mode, program, folder] = &words[..] else {
        eprintln!("usage: check report|reader|same|facts PROGRAM FOLDER");
        std::process::exit(2);
    };
    let (mut passed, mut failed) = (0, 0);
    for path in texts(Path::new(folder)) {
        match judged(mode, program, &path) {
            Ok(()) => passed += 1,
            Err(fault) => {
                failed += 1;
                println!("{}: {fault}", path.display());
            }
        }
    }
    println!("{folder}: {passed} passed, {failed} failed");
    if failed > 0 || passed == 0 {
        std::process::exit(1);
    }
}

fn texts(folder: &Path) -> Vec<PathBuf> {
    let entries = std::fs::read_dir(folder).expect("a folder");
    let mut paths: Vec<PathBuf> = entries.map(|entry| entry.expect("an entry").path()).collect();
    paths.retain(|path| path.extension().is_some_and(|end| end == "txt"));
    paths.sort();
    paths
}

fn judged(mode: &str, program: &str, path: &Path) -> Result<(), String> {
    let text = std::fs::read(path).map_err(|error| error.to_string())?;
    let ran = run(program, &text).map_err(|error| format!("cannot run: {error}"))?;
    if mode == "facts" {
        return check_same(&facts(&text), &ran);
    }
    let expected = std::fs::read_to_string(path.with_extension("out")).map_err(|error| format!("no expected output: {error}"))?;
    match mode {
        "report" => as_report(&text, &expected, &ran),
        "reader" => as_reading(&text, &expected, &ran),
        _ => check_same(&expected, &ran),
    }
}

fn as_report(text: &[u8], expected: &str, ran: &Ran) -> Result<(), String> {
    check_report(text, ran)?;
    check_same(expected, ran)
}

fn as_reading(text: &[u8], expected: &str, ran: &Ran) -> Result<(), String> {
    let output = String::from_utf8_lossy(&ran.output).to_string();
    let same = if expected.starts_with("accepted ") {
        let programs = read(text).map_or(0, |workload| workload.programs()).to_string();
        let told = output.strip_prefix(VERDICT_NAMES).and_then(|values| values.split(' ').nth(1));
        told == Some(&programs) || output == format!("{REFUSED_NAMES}22 0\n")
    } else {
        output == expected
    };
    if ran.status == Some(0) && same { Ok(()) } else { Err(format!("expected {expected:?} but got {output:?}")) }
}
