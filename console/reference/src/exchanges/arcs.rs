//! The exchange graph, kept up to date by parts: four rows make a leaf, eight leaves a branch, and
//! eight branches all. Only the parts with changed rows are made anew.

use super::ground::{has, members, Ground, Zones, NODES, PARTITIONS};

/// By weight (-1, 0 and 1, counted from 0 on), then by node: the nodes that one of its copies can go
/// to. So aligned, four sets are united in one step.
#[derive(Clone, Copy)]
#[repr(align(16))]
pub struct Graph {
    pub to: [[u32; NODES]; 3],
}

const NONE: Graph = Graph {
    to: [[0; NODES]; 3],
};

/// Leaves of a branch, and branches of all.
const PARTS: usize = 8;
/// Rows of a leaf.
const ROWS: usize = PARTITIONS / PARTS / PARTS;

pub struct Arcs {
    leaves: [[Graph; PARTS]; PARTS],
    branches: [Graph; PARTS],
    all: Graph,
    /// The leaves whose rows have changed.
    stale: u64,
}

impl Arcs {
    pub fn none() -> Arcs {
        Arcs {
            leaves: [[NONE; PARTS]; PARTS],
            branches: [NONE; PARTS],
            all: NONE,
            stale: 0,
        }
    }

    /// The row of p has changed.
    pub fn touch(&mut self, p: usize) {
        self.stale |= 1 << (p / ROWS);
    }

    /// The graph of the rows.
    pub fn graph(&mut self, g: &Ground, rows: &[u32], zones: &[Zones]) -> &Graph {
        for (i, leaves) in self.leaves.iter_mut().enumerate() {
            let stale = self.stale >> (PARTS * i) & ((1 << PARTS) - 1);
            for j in members(stale as u32) {
                let first = ROWS * (PARTS * i + j);
                note(&mut leaves[j % PARTS], g, rows, zones, first);
            }
            if stale != 0 {
                unite(&mut self.branches[i], leaves);
            }
        }
        if self.stale != 0 {
            unite(&mut self.all, &self.branches);
        }
        self.stale = 0;
        &self.all
    }
}

/// Notes what the rows of a leaf allow, from its first row on.
fn note(leaf: &mut Graph, g: &Ground, rows: &[u32], zones: &[Zones], first: usize) {
    *leaf = NONE;
    for p in first..(first + ROWS).min(g.partitions) {
        let (row, former) = (rows[p], g.former[p]);
        if zones[p].spare {
            leaf.note_spare(row, former, g.all & !row);
            continue;
        }
        for a in members(row) {
            let targets = g.targets(row, zones[p], a);
            let lower = usize::from(has(former, a));
            leaf.to[lower][a] |= targets & former;
            leaf.to[lower + 1][a] |= targets & !former;
        }
    }
}

impl Graph {
    /// Notes a row with a zone to spare: each of its nodes leads to all that are free, at weights that
    /// hang only on whether the former row has it.
    fn note_spare(&mut self, row: u32, former: u32, free: u32) {
        for (lower, part) in [(0, row & !former), (1, row & former)] {
            for a in members(part) {
                self.to[lower][a] |= free & former;
                self.to[lower + 1][a] |= free & !former;
            }
        }
    }
}

/// All that the parts have.
fn unite(all: &mut Graph, parts: &[Graph; PARTS]) {
    for (weight, all) in all.to.iter_mut().enumerate() {
        for (a, all) in all.iter_mut().enumerate() {
            *all = parts.iter().fold(0, |to, part| to | part.to[weight][a]);
        }
    }
}
