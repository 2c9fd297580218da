//! The rows of a run, with all that is kept of them: zones, holders, copies, room and arcs.

use super::arcs::{Arcs, Graph};
use super::ground::{flip, has, members, Ground, Partitions, Zones, NODES, PARTITIONS};

pub struct Held {
    pub rows: [u32; PARTITIONS],
    zones: [Zones; PARTITIONS],
    /// For each node the partitions that it holds.
    holders: [Partitions; NODES],
    copies: [u32; NODES],
    /// The nodes below their caps.
    room: u32,
    arcs: Arcs,
}

impl Held {
    pub fn none() -> Held {
        Held {
            rows: [0; PARTITIONS],
            zones: [Zones::default(); PARTITIONS],
            holders: [[0; PARTITIONS / 64]; NODES],
            copies: [0; NODES],
            room: 0,
            arcs: Arcs::none(),
        }
    }

    /// The rows that a run begins with.
    pub fn fill(&mut self, g: &Ground, rows: &[u32; PARTITIONS]) {
        self.rows = *rows;
        for (p, &row) in rows[..g.partitions].iter().enumerate() {
            self.zones[p] = g.zones(row);
            self.arcs.touch(p);
            for a in members(row) {
                flip(&mut self.holders[a], p);
                self.copies[a] += 1;
            }
        }
        members(g.all).for_each(|b| self.look_for_room(g, b));
    }

    fn look_for_room(&mut self, g: &Ground, b: usize) {
        self.room &= !(1 << b);
        self.room |= u32::from(self.copies[b] < g.caps[b]) << b;
    }

    /// Whether no node has more copies than its cap.
    pub fn is_within(&self, g: &Ground) -> bool {
        let mut copies = self.copies.iter().zip(&g.caps);
        copies.all(|(copies, cap)| copies <= cap)
    }

    pub fn has_room(&self, b: usize) -> bool {
        has(self.room, b)
    }

    /// The exchange graph. From a node with room all nodes are reached over the store.
    pub fn graph(&mut self, g: &Ground) -> Graph {
        let mut graph = *self.arcs.graph(g, &self.rows, &self.zones);
        members(self.room).for_each(|b| graph.to[1][b] = g.all);
        graph
    }

    /// The nodes that may take the place of node a in the row of p.
    pub fn targets(&self, g: &Ground, p: usize, a: usize) -> u32 {
        g.targets(self.rows[p], self.zones[p], a)
    }

    /// The nodes that may give way to node b in the row of p.
    pub fn sources(&self, g: &Ground, p: usize, b: usize) -> u32 {
        g.sources(self.rows[p], self.zones[p], b)
    }

    /// Whether the row of p allows node u to give way to node v.
    pub fn allows(&self, g: &Ground, p: usize, u: usize, v: usize) -> bool {
        has(self.targets(g, p, u), v)
    }

    /// The first partition, from one on, in which u can give way to v at the weight; the number of
    /// partitions where there is none.
    pub fn witness(&self, g: &Ground, from: usize, weight: usize, u: usize, v: usize) -> usize {
        let mut unseen = !0 << (from % 64);
        for i in from / 64..PARTITIONS / 64 {
            let (had_u, had_v) = (g.had[u][i], g.had[v][i]);
            let suited = match weight {
                0 => !had_u & had_v,
                1 => !(had_u ^ had_v),
                _ => had_u & !had_v,
            };
            let mut left = unseen & suited & self.holders[u][i] & !self.holders[v][i];
            while left != 0 {
                let p = (64 * i + left.trailing_zeros() as usize) % PARTITIONS;
                if self.allows(g, p, u, v) {
                    return p;
                }
                left &= left - 1;
            }
            unseen = !0;
        }
        g.partitions
    }

    /// Node u gives way to node v in the row of p.
    pub fn exchange(&mut self, g: &Ground, p: usize, u: usize, v: usize) {
        self.rows[p] = self.rows[p] & !(1 << u) | 1 << v;
        self.zones[p] = g.zones(self.rows[p]);
        self.arcs.touch(p);
        flip(&mut self.holders[u], p);
        flip(&mut self.holders[v], p);
        self.copies[u] -= 1;
        self.copies[v] += 1;
        self.look_for_room(g, u);
        self.look_for_room(g, v);
    }
}
