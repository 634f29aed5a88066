//! The shield's rule beside two others, to compare it with: the one before Req 02, which it replaced, and one that is wrong.

use crate::edges::*;
use crate::reader::*;
use crate::report::*;
use crate::verdict::*;

/// Where the parents stand by which two places are shielded.
#[derive(Clone, Copy, PartialEq, Eq, Debug)]
pub enum Shield {
    /// Since Req 02: the near parent before its child, the far one anywhere.
    Now,
    /// Before Req 02: both before their children.
    Before,
    /// Wrong: both anywhere.
    Anywhere,
}

impl Shield {
    fn turn(self, spots: &mut [Spot]) {
        for spot in spots {
            match self {
                Shield::Now => {}
                Shield::Before => spot.far = spot.near,
                Shield::Anywhere => spot.near = spot.far,
            }
        }
    }
}

/// As `unfolded`, with the spots of another shield.
pub fn unfolded_by(shield: Shield, text: &[u8]) -> Result<Unfolded, Refusal> {
    let mut unfolded = unfolded(text)?;
    shield.turn(&mut unfolded.spots);
    Ok(unfolded)
}

pub fn judge_by(shield: Shield, text: &[u8], walk: &mut [Step; MAX_STEPS]) -> Result<Verdict, Refusal> {
    let unfolded = unfolded_by(shield, text)?;
    Ok(judge_graph(unfolded.workload.programs(), &unfolded.unfoldings, &unfolded.spots, walk))
}

pub fn is_robust(shield: Shield, text: &[u8]) -> bool {
    judge_by(shield, text, &mut [EMPTY_STEP; MAX_STEPS]).is_ok_and(|verdict| verdict.steps == 0)
}

/// As `report`, by another shield.
pub fn report_by(shield: Shield, text: &[u8]) -> String {
    let mut walk = [EMPTY_STEP; MAX_STEPS];
    match judge_by(shield, text, &mut walk) {
        Err(refusal) => refused(refusal.number, refusal.line),
        Ok(verdict) => judged(&verdict, &walk[..verdict.steps]),
    }
}

/// As `list_edges`, by another shield.
pub fn list_edges_by(shield: Shield, text: &[u8]) -> String {
    match unfolded_by(shield, text) {
        Err(refusal) => refused(refusal.number, refusal.line),
        Ok(unfolded) => listed_edges(&unfolded),
    }
}
