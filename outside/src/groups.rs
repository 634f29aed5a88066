//! Places grouped by relation: an edge stands only between places over one relation, so no other pair is looked at.

use crate::edges::Spot;
use crate::unfolding::*;
use crate::workload::MAX_RELATIONS;
use std::ops::Range;

/// The places of one node over one relation: where they stand in `order`, side by side.
#[derive(Clone, Copy)]
pub struct Run {
    pub node: u8,
    from: u16,
    to: u16,
}

impl Run {
    pub fn range(&self) -> Range<usize> {
        self.from as usize..self.to as usize
    }
}

/// The places in the order of their relations, within one in their own order. One serves many texts.
#[derive(Default)]
pub struct Groups {
    pub order: Vec<u16>,
    pub spots: Vec<Spot>,
    runs: Vec<Run>,
    /// Where each relation's runs end and the next one's start.
    ends: [u16; MAX_RELATIONS],
    pub relations: usize,
}

impl Groups {
    pub fn of(unfoldings: &Unfoldings, spots: &[Spot]) -> Groups {
        let mut groups = Groups::default();
        groups.sort(unfoldings, spots);
        groups
    }

    pub fn runs(&self, rel: usize) -> &[Run] {
        let start = if rel == 0 { 0 } else { self.ends[rel - 1] };
        &self.runs[start as usize..self.ends[rel] as usize]
    }

    /// Two passes: how many places and runs each relation has, then each place to the end of its relation's last run or into a new one.
    pub fn sort(&mut self, unfoldings: &Unfoldings, spots: &[Spot]) {
        let (mut places, mut runs, mut last) = ([0u16; MAX_RELATIONS], [0u16; MAX_RELATIONS], [usize::MAX; MAX_RELATIONS]);
        self.relations = 0;
        for (m, node) in unfoldings.all().iter().enumerate() {
            for spot in &spots[node.start as usize..][..node.length as usize] {
                let rel = spot.rel as usize;
                places[rel] += 1;
                runs[rel] += (last[rel] != m) as u16;
                last[rel] = m;
                self.relations = self.relations.max(rel + 1);
            }
        }
        let (mut place, mut run) = (0, 0);
        for rel in 0..self.relations {
            (place, places[rel]) = (place + places[rel], place);
            (run, runs[rel]) = (run + runs[rel], run);
            self.ends[rel] = run;
        }
        self.order.resize(unfoldings.places, 0);
        self.runs.resize(run as usize, Run { node: 0, from: 0, to: 0 });
        self.put_places(unfoldings, spots, &mut places, &mut runs);
        self.spots.clear();
        self.spots.extend(self.order.iter().map(|&place| spots[place as usize]));
    }

    /// `places` and `runs`: where each relation's next ones go.
    fn put_places(&mut self, unfoldings: &Unfoldings, spots: &[Spot], places: &mut [u16; MAX_RELATIONS], runs: &mut [u16; MAX_RELATIONS]) {
        let mut last = [u8::MAX; MAX_RELATIONS];
        for (m, node) in unfoldings.all().iter().enumerate() {
            for number in node.start..node.start + node.length {
                let rel = spots[number as usize].rel as usize;
                let at = places[rel];
                places[rel] += 1;
                self.order[at as usize] = number;
                if last[rel] != m as u8 {
                    self.runs[runs[rel] as usize] = Run { node: m as u8, from: at, to: at };
                    runs[rel] += 1;
                    last[rel] = m as u8;
                }
                self.runs[runs[rel] as usize - 1].to = at + 1;
            }
        }
    }
}
