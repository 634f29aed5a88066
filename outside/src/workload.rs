//! The workload value: the values of the text's lines, in order, without the names line.
//! 1616 = 32 relations + 32 keys + 16 programs of 1 + 64 + 32 lines.

pub const MAX_LINES: usize = 1616;
pub const MAX_BYTES: usize = 32768;
pub const MAX_RELATIONS: usize = 32;
pub const MAX_KEYS: usize = 32;
pub const MAX_PROGRAMS: usize = 16;
pub const MAX_STATEMENTS: usize = 32;
pub const MAX_PROGRAM_LINES: usize = 64;
pub const MAX_LINKS: usize = 32;
pub const MAX_DEPTH: usize = 8;

/// Kinds of lines. The eight statement kinds come first, so that `kind <= KL` says "a statement".
pub const IS: u8 = 0;
pub const KS: u8 = 1;
pub const PS: u8 = 2;
pub const KU: u8 = 3;
pub const PU: u8 = 4;
pub const KD: u8 = 5;
pub const PD: u8 = 6;
/// Key select with lock (Req 03).
pub const KL: u8 = 7;
pub const RL: u8 = 8;
pub const FK: u8 = 9;
pub const PR: u8 = 10;
pub const LO: u8 = 11;
pub const BR: u8 = 12;
pub const EL: u8 = 13;
pub const EN: u8 = 14;
pub const LI: u8 = 15;

/// The two letters of each kind, by number.
pub const NAMES: [&[u8; 2]; 16] = [
    b"is", b"ks", b"ps", b"ku", b"pu", b"kd", b"pd", b"kl", b"rl", b"fk", b"pr", b"lo", b"br", b"el", b"en", b"li",
];

pub fn is_statement(kind: u8) -> bool {
    kind <= KL
}

pub fn is_flow(kind: u8) -> bool {
    (LO..=EN).contains(&kind)
}

/// One line's values; a field that the kind lacks holds 0.
#[derive(Clone, Copy, PartialEq, Eq, Debug)]
pub struct Line {
    pub kind: u8,
    pub id: u8,
    pub rel: u8,
    pub to: u8,
    pub reads: u64,
    pub writes: u64,
    pub tests: u64,
}

pub const EMPTY_LINE: Line = Line { kind: EN, id: 0, rel: 0, to: 0, reads: 0, writes: 0, tests: 0 };

pub struct Workload {
    pub count: usize,
    pub lines: [Line; MAX_LINES],
}

impl Workload {
    pub fn empty() -> Workload {
        Workload { count: 0, lines: [EMPTY_LINE; MAX_LINES] }
    }

    pub fn taken(&self) -> &[Line] {
        &self.lines[..self.count]
    }

    pub fn programs(&self) -> usize {
        self.taken().iter().filter(|line| line.kind == PR).count()
    }
}

/// Which of a kind's six fields carry a value; the others are written `-` (docs/FORMAT.md, "Which fields each kind has").
#[derive(Clone, Copy)]
pub struct Fields {
    pub id: bool,
    pub rel: bool,
    pub to: bool,
    pub reads: bool,
    pub writes: bool,
    pub tests: bool,
}

const fn fields(id: bool, rel: bool, to: bool, reads: bool, writes: bool, tests: bool) -> Fields {
    Fields { id, rel, to, reads, writes, tests }
}

pub const FIELDS: [Fields; 16] = {
    const Y: bool = true;
    const N: bool = false;
    [
        fields(Y, Y, N, N, Y, N), // is
        fields(Y, Y, N, Y, N, N), // ks
        fields(Y, Y, N, Y, N, Y), // ps
        fields(Y, Y, N, Y, Y, N), // ku
        fields(Y, Y, N, Y, Y, Y), // pu
        fields(Y, Y, N, N, Y, N), // kd
        fields(Y, Y, N, N, Y, Y), // pd
        fields(Y, Y, N, Y, N, N), // kl
        fields(Y, N, N, Y, N, N), // rl
        fields(Y, Y, Y, N, N, N), // fk
        fields(Y, N, N, N, N, N), // pr
        fields(N, N, N, N, N, N), // lo
        fields(N, N, N, N, N, N), // br
        fields(N, N, N, N, N, N), // el
        fields(N, N, N, N, N, N), // en
        fields(Y, Y, Y, N, N, N), // li
    ]
};
