//! Small workloads for the shield of Req 02: parents before their children or after them, in a loop's turn, in an arm,
//! outside of either; children that are linked to themselves.

use crate::lines::*;
use crate::random::Random;
use crate::workload::*;

const PARENTS: usize = 0;
const CHILDREN: usize = 1;
/// A key from children to children; the keys 0 and 1 lead to the parents.
const OWN: usize = 2;

/// One or two groups in each program: a parent and its children, linked.
pub fn late_parents(random: &mut Random) -> Vec<Line> {
    let mut lines = vec![relation(PARENTS, 3), relation(CHILDREN, 7), key(0, CHILDREN, PARENTS), key(1, CHILDREN, PARENTS)];
    lines.push(key(OWN, CHILDREN, CHILDREN));
    let own = random.chance(1, 4);
    for id in 0..random.between(1, 3) {
        lines.push(plain(PR, id));
        let mut program = Program { links: Vec::new(), next: 0, own };
        for _ in 0..random.between(1, 4) / 4 + 1 {
            program.add_group(random, &mut lines);
        }
        lines.append(&mut program.links);
    }
    lines
}

struct Program {
    links: Vec<Line>,
    next: usize,
    /// The parents are children too, linked to themselves.
    own: bool,
}

/// Where the parent stands among its children, and which block is around what.
#[derive(Clone, Copy, PartialEq, Eq)]
enum Block {
    None,
    LoopOfAll,
    LoopOfChildren,
    ArmOfAll,
    ArmOfChildren,
}

impl Program {
    fn add_group(&mut self, random: &mut Random, lines: &mut Vec<Line>) {
        use Block::*;
        let block = *random.pick(&[None, None, None, None, LoopOfAll, LoopOfChildren, ArmOfAll, ArmOfChildren]);
        let last = random.chance(1, 2);
        self.open(lines, block, &[LoopOfAll, ArmOfAll]);
        let before = if last { Option::None } else { Some(self.parent(random, lines)) };
        self.open(lines, block, &[LoopOfChildren, ArmOfChildren]);
        let children: Vec<usize> = (0..random.between(1, 2)).map(|_| self.child(random, lines, last)).collect();
        self.close(random, lines, block, &[LoopOfChildren, ArmOfChildren]);
        let parent = before.unwrap_or_else(|| self.parent(random, lines));
        self.close(random, lines, block, &[LoopOfAll, ArmOfAll]);
        for child in children {
            let key = if self.own { OWN } else { random.below(8) / 7 };
            self.links.extend((0..random.chance(9, 10) as usize).map(|_| link(key, child, parent)));
            // beside its parent, or without one
            let itself = self.own && !matches!(kind_of(lines, child), PS | PU | PD) && random.chance(1, 3);
            self.links.extend((0..itself as usize).map(|_| link(OWN, child, child)));
        }
        if self.own && random.chance(3, 4) {
            self.links.push(link(OWN, parent, parent));
        }
    }

    fn open(&self, lines: &mut Vec<Line>, block: Block, which: &[Block]) {
        if which.contains(&block) {
            lines.push(plain(if matches!(block, Block::LoopOfAll | Block::LoopOfChildren) { LO } else { BR }, 0));
        }
    }

    /// The second arm is empty, or has a child without a parent.
    fn close(&mut self, random: &mut Random, lines: &mut Vec<Line>, block: Block, which: &[Block]) {
        if !which.contains(&block) {
            return;
        }
        if matches!(block, Block::ArmOfAll | Block::ArmOfChildren) {
            lines.push(plain(EL, 0));
            if random.chance(1, 4) {
                self.child(random, lines, true);
            }
        }
        lines.push(plain(EN, 0));
    }

    fn add(&mut self, lines: &mut Vec<Line>, line: Line) -> usize {
        lines.push(Line { id: self.next as u8, ..line });
        self.next += 1;
        self.next - 1
    }

    fn parent(&mut self, random: &mut Random, lines: &mut Vec<Line>) -> usize {
        let kind = pick_kind(random, &[KU, KU, KU, KU, KU, KU, IS, KD, KS]);
        let (rel, whole) = if self.own { (CHILDREN, 7) } else { (PARENTS, 3) };
        let writes = if matches!(kind, IS | KD) { whole } else { 1 };
        self.add(lines, statement(kind, 0, rel, random.below(2) as u64 | matches!(kind, KS | KL) as u64, writes, 0))
    }

    /// With the parent first mostly a select, with the parent last mostly a write.
    fn child(&mut self, random: &mut Random, lines: &mut Vec<Line>, last: bool) -> usize {
        let kind = pick_kind(random, if last { &[KU, KU, KU, KU, KD, IS, KS] } else { &[KS, KS, KS, KS, PS, KU] });
        let writes = if matches!(kind, IS | KD) { 7 } else { random.between(1, 7) as u64 };
        let reads = if kind == KU { random.below(4) } else { random.between(1, 7) };
        self.add(lines, statement(kind, 0, CHILDREN, reads as u64, writes, if random.chance(1, 3) { 4 } else { 0 }))
    }
}

fn kind_of(lines: &[Line], child: usize) -> u8 {
    lines.iter().rev().find(|line| is_statement(line.kind) && line.id as usize == child).expect("of this program").kind
}
