//! `bench [NAME]`: times reading, unfolding, edges and verdict in one process, median of many runs, at small, middle and largest
//! sizes. Each stage is timed from the text on (read; read and unfold; ...), so that a side needs only calls on bytes. At the end it tells which
//! ratios of medians are above 1.2. With a name: the workloads whose names have it alone.
//!
//! `bench --growth [NAME]`: the verdicts of workloads that grow, as lines `growth SHAPE SIZE PLAIN RATTLE`, medians in microseconds.
//!
//! The Rattle side: build with `RATTLE_LIB=path/libexports_lent.a outside/build.sh bench`; the library exports the calls
//! of src/rattle.rs. Both sides' results are compared, and ratios are printed.

use outside::edges::*;
use outside::growth::*;
use outside::sizes::*;
use outside::stages::*;
use std::hint::black_box;

#[cfg(rattle)]
#[path = "../rattle.rs"]
mod rattle;


type Stage = fn(&[u8], &mut Desk, &mut [Edge]) -> u32;

/// The four stages of one side, from the text on.
struct Side {
    name: &'static str,
    stages: [Stage; 4],
}

const STAGES: [&str; 4] = ["read", "unfold", "edges", "verdict"];
const VERDICT: usize = 3;

/// The most that a median may be of plain Rust's.
const BOUND: f64 = 1.2;

fn main() {
    let mut words: Vec<String> = std::env::args().skip(1).collect();
    let growth = words.first().is_some_and(|word| word == "--growth");
    words.drain(..growth as usize);
    let name = words.first().map_or("", |word| word.as_str());
    let mut bench = Bench { sides: sides(), desk: Desk::new(), area: vec![EMPTY_EDGE; MOST_EDGES] };
    if growth { show_growth(&mut bench, name) } else { show_stages(&mut bench, name) }
}

fn show_stages(bench: &mut Bench, name: &str) {
    println!("microseconds of processor time, median and fastest of {SAMPLES} samples; each stage from the text on");
    print!("{:<28} {:>7} {:<8}", "workload", "bytes", "stage");
    bench.sides.iter().for_each(|side| print!(" {:>10}    fastest", side.name));
    println!("{}", if bench.sides.len() > 1 { "      ratio    fastest" } else { "" });
    let (mut ratios, mut above) = (0, Vec::new());
    for workload in timed().iter().filter(|workload| workload.name.contains(name)) {
        for (stage, stage_name) in STAGES.iter().enumerate() {
            print!("{:<28} {:>7} {:<8}", workload.name, workload.text.len(), stage_name);
            let times = bench.times(&workload.text, stage);
            times.iter().for_each(|time| print!(" {:>10.2} {:>10.2}", time.median, time.fastest));
            if let [this, other] = &times[..] {
                let ratio = other.median / this.median;
                print!(" {:>10.2} {:>10.2}", ratio, other.fastest / this.fastest);
                ratios += 1;
                if ratio > BOUND {
                    above.push(format!("{} {stage_name} {ratio:.2}", workload.name));
                }
            }
            println!("   {}", bench.results(&workload.text, stage));
        }
    }
    if bench.sides.len() > 1 {
        println!("{} of {ratios} ratios of medians are above {BOUND}{}", above.len(), if above.is_empty() { "" } else { ":" });
        above.iter().for_each(|ratio| println!("    {ratio}"));
    }
}

fn show_growth(bench: &mut Bench, name: &str) {
    for series in series().iter().filter(|series| series.name.contains(name)) {
        for (size, text) in &series.texts {
            print!("growth {} {size}", series.name);
            bench.times(text, VERDICT).iter().for_each(|time| print!(" {:.3}", time.median));
            println!();
            bench.results(text, VERDICT);
        }
    }
}

const SAMPLES: usize = 31;

/// Microseconds.
struct Time {
    median: f64,
    fastest: f64,
}

struct Bench {
    sides: Vec<Side>,
    desk: Box<Desk>,
    area: Vec<Edge>,
}

impl Bench {
    /// The sides' results in words; they stop the run where they differ.
    fn results(&mut self, text: &[u8], stage: usize) -> String {
        let results: Vec<u32> = self.sides.iter().map(|side| side.stages[stage](text, &mut self.desk, &mut self.area)).collect();
        assert!(results.iter().all(|result| *result == results[0]), "RESULTS DIFFER: {results:x?}");
        format!("result {:x}", results[0])
    }

    /// The sides take turns, sample by sample, so that other work on the machine hits them alike.
    fn times(&mut self, text: &[u8], stage: usize) -> Vec<Time> {
        let stages: Vec<Stage> = self.sides.iter().map(|side| side.stages[stage]).collect();
        let runs: Vec<usize> = stages.iter().map(|stage| self.runs_in_a_sample(*stage, text)).collect();
        let mut samples = vec![Vec::new(); stages.len()];
        for _ in 0..SAMPLES {
            for (side, stage) in stages.iter().enumerate() {
                samples[side].push(self.sample(*stage, text, runs[side]));
            }
        }
        samples.iter_mut().for_each(|list| list.sort_by(f64::total_cmp));
        samples.iter().map(|list| Time { median: list[SAMPLES / 2] / 1000.0, fastest: list[0] / 1000.0 }).collect()
    }

    /// About a tenth of a millisecond, at least one run.
    fn runs_in_a_sample(&mut self, stage: Stage, text: &[u8]) -> usize {
        let (begin, mut runs) = (processor_time(), 0);
        while runs < 3 || processor_time() - begin < 2_000_000 {
            black_box(stage(black_box(text), &mut self.desk, &mut self.area));
            runs += 1;
        }
        runs.max(20) / 20
    }

    /// Nanoseconds of processor time for one run.
    fn sample(&mut self, stage: Stage, text: &[u8], runs: usize) -> f64 {
        let start = processor_time();
        for _ in 0..runs {
            black_box(stage(black_box(text), &mut self.desk, &mut self.area));
        }
        (processor_time() - start) as f64 / runs as f64
    }
}

/// Nanoseconds of processor time of this thread, by the C library that Rust's own library stands on.
fn processor_time() -> u64 {
    #[repr(C)]
    struct Time {
        seconds: i64,
        nanoseconds: i64,
    }
    extern "C" {
        fn clock_gettime(clock: i32, time: *mut Time) -> i32;
    }
    const THREAD_PROCESSOR_TIME: i32 = 3;
    let mut time = Time { seconds: 0, nanoseconds: 0 };
    unsafe { clock_gettime(THREAD_PROCESSOR_TIME, &mut time) };
    time.seconds as u64 * 1_000_000_000 + time.nanoseconds as u64
}

const THIS: Side = Side { name: "plain rust", stages: [read_stage, unfold_stage, edges_stage, verdict_stage] };

#[cfg(not(rattle))]
fn sides() -> Vec<Side> {
    vec![THIS]
}

#[cfg(rattle)]
fn sides() -> Vec<Side> {
    vec![THIS, Side { name: "rattle", stages: [rattle::read, rattle::unfold, rattle::edges, rattle::verdict] }]
}
