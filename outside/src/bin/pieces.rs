//! `pieces PROGRAM TEXT...`: runs a program on each text (a file) as a file, and by a pipe in pieces of 1, 7 and 4096 bytes, and in
//! two pieces cut at, before and after each line end, the second written when the first has been
//! read. Each report must be that of the whole text, which must be the one of this implementation. Then inputs and outputs that
//! fail: no report, and a message on standard error. The last line tells how many runs there were.

use outside::feeding::*;
use outside::outcome::*;
use outside::report::report;
use std::time::Duration;

const UNREAD: &str = "the input could not be read\n";
const UNWRITTEN: &str = "the report could not be written\n";

struct Tally {
    runs: usize,
    faults: usize,
    /// cuts of which the beginning alone is a text with another second line, so that a program which stops there shows
    telling: usize,
}

impl Tally {
    fn take(&mut self, what: &str, fault: Option<String>) {
        self.runs += 1;
        if let Some(fault) = fault {
            self.faults += 1;
            if self.faults <= 20 {
                println!("{what}: {fault}");
            }
        }
    }
}

fn main() {
    let words: Vec<String> = std::env::args().collect();
    if words.len() < 3 {
        eprintln!("usage: pieces PROGRAM TEXT...");
        std::process::exit(2);
    }
    let program = words[1].as_str();
    std::thread::spawn(|| {
        std::thread::sleep(Duration::from_secs(180));
        println!("pieces: a program hangs");
        std::process::exit(1);
    });
    let mut tally = Tally { runs: 0, faults: 0, telling: 0 };
    for path in &words[2..] {
        let text = std::fs::read(path).unwrap_or_else(|e| panic!("{path}: {e}"));
        in_pieces(&mut tally, program, path, &text);
    }
    let text = std::fs::read(&words[2]).expect("it was read");
    failing(&mut tally, program, &words[2], &text);
    // without a cut whose first piece has another verdict line, a program that reads only once would pass
    tally.faults += (tally.telling == 0) as usize;
    println!("pieces: {} runs, {} cuts that would show, {} faults", tally.runs, tally.telling, tally.faults);
    std::process::exit(if tally.faults == 0 { 0 } else { 1 });
}

/// The text whole, then in pieces.
fn in_pieces(tally: &mut Tally, program: &str, path: &str, text: &[u8]) {
    let whole = on_file(program, path).unwrap_or_else(|e| panic!("{program}: {e}"));
    tally.take(path, check_report(text, &whole).err());
    for size in [1, 7, 4096] {
        for between in [Between::Nothing, Between::Read] {
            // byte by byte with a wait after each takes long on a long text
            let count = if between == Between::Read { 6000 * size } else { text.len() };
            let (start, rest) = text.split_at(count.min(text.len()));
            let ran = on_pieces(program, start.chunks(size).chain([rest]), between);
            tally.take(&format!("{path} in pieces of {size}"), differs(&whole, ran));
        }
    }
    let expected = second_line(text);
    for cut in cuts(text) {
        let (start, rest) = text.split_at(cut);
        let ran = on_pieces(program, [start, rest].into_iter(), Between::Read);
        tally.take(&format!("{path} cut at byte {cut}"), differs(&whole, ran));
        tally.telling += (second_line(start) != expected) as usize;
    }
}

fn second_line(text: &[u8]) -> String {
    report(text).lines().nth(1).unwrap_or("").to_string()
}

/// Before, at and after each line end; and around the 65,536 bytes that are read.
fn cuts(text: &[u8]) -> Vec<usize> {
    let ends: Vec<usize> = (0..text.len()).filter(|&i| text[i] == b'\n').collect();
    ends.iter().flat_map(|&i| [i, i + 1, i + 2]).chain(65_535..65_538).filter(|&i| i <= text.len()).collect()
}

fn differs(whole: &Ran, ran: std::io::Result<Ran>) -> Option<String> {
    let ran = match ran {
        Ok(ran) => ran,
        Err(e) => return Some(e.to_string()),
    };
    if ran.output == whole.output && ran.errors.is_empty() && ran.status == Some(0) {
        return None;
    }
    let shown = |bytes: &[u8]| String::from_utf8_lossy(bytes).into_owned();
    Some(format!("status {:?}, {:?}, errors {:?}, and whole {:?}", ran.status, shown(&ran.output), shown(&ran.errors), shown(&whole.output)))
}

/// Inputs that cannot be read and outputs that cannot be written.
fn failing(tally: &mut Tally, program: &str, path: &str, text: &[u8]) {
    tally.take("closed input", says(in_shell(program, "<&-"), UNREAD));
    tally.take("a folder as input", says(in_shell(program, "</"), UNREAD));
    for cut in cuts(text) {
        let ran = on_failing_read(program, &text[..cut]);
        tally.take(&format!("a read that fails after {cut} bytes"), says(ran, UNREAD));
    }
    tally.take("a full device", says(in_shell(program, &format!("<'{path}' >/dev/full")), UNWRITTEN));
    tally.take("closed output", says(in_shell(program, &format!("<'{path}' >&-")), UNWRITTEN));
    tally.take("a pipe that nobody reads", says(on_closed_pipe(program, text, true), UNWRITTEN));
    // programs of the toolchain ignore the signal, as Rust's do, so they learn of it by their write
    tally.take("a pipe that nobody reads, by signal", says(on_closed_pipe(program, text, false), UNWRITTEN));
}

/// Nothing on standard output, this on standard error, status 0.
fn says(ran: std::io::Result<Ran>, message: &str) -> Option<String> {
    match ran {
        Ok(ran) if ran.output.is_empty() && ran.errors == message.as_bytes() && ran.status == Some(0) => None,
        Ok(ran) => {
            let shown = |bytes: &[u8]| String::from_utf8_lossy(bytes).into_owned();
            Some(format!("status {:?}, output {:?}, errors {:?}", ran.status, shown(&ran.output), shown(&ran.errors)))
        }
        Err(e) => Some(e.to_string()),
    }
}
