//! The independent implementation of the rules in plain Rust: it shares nothing with the Rattle code.
//! Text -> workload -> unfoldings -> edges -> verdict with a walk -> report, a checker for walks,
//! and a generator of texts. The programs under `bin/` are thin.

pub mod against;
pub mod areas;
pub mod arguments;
pub mod cuts;
pub mod damage;
pub mod edges;
pub mod facts;
pub mod feeding;
pub mod first_walk;
pub mod generator;
pub mod graph;
pub mod groups;
pub mod growth;
pub mod late;
pub mod lines;
pub mod outcome;
pub mod parts;
pub mod plain_walk;
pub mod random;
pub mod reader;
pub mod report;
pub mod schedule;
pub mod serial;
pub mod shields;
pub mod sizes;
pub mod special;
pub mod stages;
pub mod unfolding;
pub mod verdict;
pub mod walk;
pub mod words;
pub mod workload;
