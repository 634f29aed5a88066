//! Texts without an arm, or without a branch, made from the lines alone, with nothing unfolded: their graphs must be what `parts` leaves of the
//! whole graph (Req 06). Statements are numbered anew, and a link goes with either of its ends.

use crate::parts::{part_lines, programs_of, Arm};
use crate::workload::*;
use std::ops::RangeInclusive;

/// A block by the places of its lines in the program, from 0 after `pr`: `lo` or `br`, `el` (of a loop: `lo` again), `en`.
struct Block {
    opens: usize,
    middle: usize,
    ends: usize,
}

/// The blocks of a program, inner ones first.
fn blocks(own: &[Line]) -> Vec<Block> {
    let (mut open, mut closed): (Vec<Block>, Vec<Block>) = (Vec::new(), Vec::new());
    for (place, line) in own.iter().enumerate() {
        match line.kind {
            LO | BR => open.push(Block { opens: place, middle: place, ends: place }),
            EL => open.last_mut().expect("a branch").middle = place,
            EN => closed.push(Block { ends: place, ..open.pop().expect("a block") }),
            _ => {}
        }
    }
    closed
}

fn own_lines(lines: &[Line], program: usize) -> &[Line] {
    &programs_of(lines).nth(program).expect("a program")[1..]
}

/// The branch replaced by its other arm: where it was met, that arm is taken in every turn.
pub fn lines_without_arm(lines: &[Line], arm: &Arm) -> Vec<Line> {
    let all = blocks(own_lines(lines, arm.program));
    let branch = all.iter().find(|block| block.opens == arm.place).expect("a branch");
    let gone = if arm.second { branch.middle..=branch.ends } else { branch.opens..=branch.middle };
    without(lines, arm.program, &[branch.opens..=branch.opens, gone, branch.ends..=branch.ends])
}

/// What is left where neither arm may be taken, so that the branch is never met: a loop around it makes no turn, an arm around it is not taken
/// either, and a program that always meets it cannot be run at all.
pub fn lines_without_branch(lines: &[Line], program: usize, place: usize) -> Vec<Line> {
    let own = own_lines(lines, program);
    match blocks(own).iter().find(|block| block.opens < place && place < block.ends) {
        None => part_lines(lines, !(1 << program)),
        Some(block) if own[block.opens].kind == LO => without(lines, program, &[block.opens..=block.ends]),
        Some(block) => lines_without_arm(lines, &Arm { program, place: block.opens, second: place > block.middle }),
    }
}

/// The lines without some of a program's, its statements numbered anew.
fn without(lines: &[Line], program: usize, gone: &[RangeInclusive<usize>]) -> Vec<Line> {
    let start = (0..lines.len()).filter(|&at| lines[at].kind == PR).nth(program).expect("a program") + 1;
    let own = own_lines(lines, program);
    let (mut numbers, mut next) = ([None; MAX_STATEMENTS], 0..);
    let stays = |place: &usize| !gone.iter().any(|places| places.contains(place));
    let left = (0..own.len()).filter(stays).filter_map(|place| {
        let line = own[place];
        if is_statement(line.kind) {
            let number = next.next();
            numbers[line.id as usize] = number;
            return Some(Line { id: number?, ..line });
        }
        if line.kind == LI {
            return Some(Line { rel: numbers[line.rel as usize]?, to: numbers[line.to as usize]?, ..line });
        }
        Some(line)
    });
    [&lines[..start], &left.collect::<Vec<_>>(), &lines[start + own.len()..]].concat()
}
