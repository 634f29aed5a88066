//! `outside report|facts|edges|unfoldings|read|areas < text`: the independent program on one text. `--shield-01` after `report` or `edges`: by
//! the shield before Req 02.

use outside::areas::areas;
use outside::facts::facts;
use outside::outcome::reading;
use outside::report::*;
use outside::shields::*;
use std::io::{Read, Write};
use std::process::exit;

fn main() {
    let mut text = Vec::new();
    if let Err(error) = std::io::stdin().read_to_end(&mut text) {
        eprintln!("reading failed: {error}");
        exit(1);
    }
    let words: Vec<String> = std::env::args().skip(1).collect();
    let out = match words.iter().map(String::as_str).collect::<Vec<_>>()[..] {
        ["report"] | [] => report(&text),
        ["facts"] => facts(&text),
        ["edges"] => list_edges(&text),
        ["report", "--shield-01"] => report_by(Shield::Before, &text),
        ["edges", "--shield-01"] => list_edges_by(Shield::Before, &text),
        ["unfoldings"] => list_unfoldings(&text),
        ["read"] => reading(&text),
        ["areas"] => areas(&text),
        _ => {
            eprintln!("usage: outside report|facts|edges|unfoldings|read|areas [--shield-01] < text, not {}", words.join(" "));
            exit(2);
        }
    };
    if std::io::stdout().write_all(out.as_bytes()).is_err() {
        exit(1);
    }
}
