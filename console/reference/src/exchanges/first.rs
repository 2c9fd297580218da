//! The first of the nearest layouts: rows compared from partition 0, in a row ids from the left, the
//! smaller first.
//!
//! The pairs (partition, node) are settled one by one in that order. One that the rows lack is let in
//! where some nearest layout has it beside all pairs settled before. The levels of the last search
//! hold for every nearest layout, so none is searched for anew: nearest layouts differ only by
//! exchanges that cost what the levels fall by, the *even* ones. So (p, b) is let in by a ring of even
//! exchanges of pairs that are not yet settled: b gives way in some row, and so on from node to node,
//! until one gets a copy that can give way to b in row p.

use super::circuit::Circuit;
use super::ground::{has, members, Ground, NODES};
use super::held::Held;
use super::search::{Levels, Walk};

/// The nodes after b.
fn after(b: usize) -> u32 {
    !1 << b
}

/// The nodes before b.
fn before(b: usize) -> u32 {
    (1 << b) - 1
}

pub struct Order<'a> {
    g: &'a Ground,
    held: &'a mut Held,
    level: [u8; NODES],
    /// For each node those one level below it, those at its level, and those one level above.
    even: [[u32; NODES]; 3],
    /// For each node at least those that it leads to: by an even exchange of pairs that are not yet
    /// settled, or over the store. Rows that are settled or have changed leave others behind, which are
    /// taken off only where they are met.
    leads: [u32; NODES],
}

impl<'a> Order<'a> {
    /// The rows of a finished run, no pair of which is settled.
    pub fn new(g: &'a Ground, held: &'a mut Held, levels: &Levels) -> Order<'a> {
        let graph = held.graph(g);
        let (mut level, mut even, mut leads) = ([0; NODES], [[0; NODES]; 3], [0; NODES]);
        for distance in Levels::range(g) {
            let near = [distance - 1, distance, distance + 1].map(|d| levels.at(d));
            for b in members(near[1]) {
                level[b] = distance as u8;
                (0..3).for_each(|h| even[h][b] = near[h]);
                leads[b] = (0..3).fold(0, |to, h| to | graph.to[h][b] & near[h]);
            }
        }
        Order {
            g,
            held,
            level,
            even,
            leads,
        }
    }

    /// Settles all pairs: the rows are then those of the first layout.
    pub fn settle(&mut self) {
        for p in 0..self.g.partitions {
            self.settle_row(p);
        }
    }

    fn settle_row(&mut self, p: usize) {
        let mut untried = self.wanting(p, !0);
        while untried != 0 {
            let b = untried.trailing_zeros() as usize % NODES;
            untried &= untried - 1;
            if self.let_in(p, b) {
                untried = self.wanting(p, after(b));
            }
        }
    }

    /// Those of the nodes that a later node of the row could give way to evenly.
    fn wanting(&self, p: usize, nodes: u32) -> u32 {
        let earlier = |a| self.targets(p, a) & before(a);
        members(self.held.rows[p] & nodes).fold(0, |all, a| all | earlier(a)) & nodes
    }

    /// The nodes that may take the place of node a in the row evenly.
    fn targets(&self, p: usize, a: usize) -> u32 {
        self.held.targets(self.g, p, a) & self.alike(p, a)
    }

    /// The nodes whose exchange with node a, either way, is even in row p.
    fn alike(&self, p: usize, a: usize) -> u32 {
        let former = self.g.former[p];
        let h = usize::from(has(former, a));
        former & self.even[h][a] | !former & self.even[h + 1][a]
    }

    /// Brings the pair (p, b) in, if any nearest layout has it beside all pairs before; whether one
    /// has. The shortest ring can be turned as it stands: two even exchanges that can be crossed are
    /// even crossed as well, and one of them would shorten it.
    fn let_in(&mut self, p: usize, b: usize) -> bool {
        let givers = self.givers(p, b);
        while let Some(walk) = self.walk(b, givers) {
            match self.ring(p, b, walk) {
                Ok(ring) => {
                    self.turn(p, b, &ring);
                    return true;
                }
                Err((u, v)) => self.leads[u] &= !(1 << v),
            }
        }
        false
    }

    /// The later nodes of the row that may give way to b evenly.
    fn givers(&self, p: usize, b: usize) -> u32 {
        let later = after(b) & self.alike(p, b);
        self.held.sources(self.g, p, b) & later
    }

    /// A shortest way from b to one of the givers and to b again, by waves of the nodes that are reached
    /// in one step, in two, and on; nothing where no giver is reached.
    fn walk(&self, b: usize, givers: u32) -> Option<Walk> {
        let mut waves = [1 << b; NODES];
        let (mut steps, mut wave, mut seen) = (0, 1 << b, 1 << b);
        while wave & givers == 0 {
            let next = members(wave).fold(0, |to, u| to | self.leads[u]);
            wave = next & !seen;
            if wave == 0 {
                return None;
            }
            seen |= wave;
            steps += 1;
            waves[steps] = wave;
        }
        Some(self.walk_back(&waves[..steps], wave & givers))
    }

    /// From the first of the givers met back through the waves.
    fn walk_back(&self, waves: &[u32], met: u32) -> Walk {
        let mut at = met.trailing_zeros() as usize % NODES;
        let mut nodes = [at as u8; NODES + 1];
        for (wave, node) in waves.iter().rev().zip(&mut nodes[1..]) {
            let leads_here = |u: &usize| has(self.leads[*u], at);
            at = members(*wave).find(leads_here).expect("a way back");
            *node = at as u8;
        }
        Walk {
            arcs: waves.len() + 1,
            nodes,
        }
    }

    /// The walk with a partition for each of its arcs, p for the last; else an arc that is no longer
    /// there.
    fn ring(&self, p: usize, b: usize, walk: Walk) -> Result<Circuit, (usize, usize)> {
        let partitions = [p as u16; NODES];
        let mut ring = Circuit { walk, partitions };
        for i in 0..walk.arcs - 1 {
            let (u, v) = ring.arc(i);
            ring.partitions[i] = self.place(p, b, u, v).ok_or((u, v))? as u16;
        }
        Ok(ring)
    }

    /// Where u leads to v: over the store, or in the first row with such an exchange of pairs after
    /// (p, b).
    fn place(&self, p: usize, b: usize, u: usize, v: usize) -> Option<usize> {
        let (from, to) = (self.level[u], self.level[v]);
        if from == to && self.held.has_room(u) {
            return Some(self.g.partitions);
        }
        let first = if u.min(v) > b { p } else { p + 1 };
        let weight = usize::from(to + 1 - from);
        let row = self.held.witness(self.g, first, weight, u, v);
        (row < self.g.partitions).then_some(row)
    }

    /// Makes the exchanges of the ring, and adds what nodes lead to by the rows that have changed, and
    /// over the store where one has got room.
    fn turn(&mut self, p: usize, b: usize, ring: &Circuit) {
        for (q, u, v) in ring.exchanges(self.g) {
            self.held.exchange(self.g, q, u, v);
        }
        for i in 0..ring.walk.arcs {
            let (q, (_, v)) = (ring.partitions[i] as usize, ring.arc(i));
            if q == self.g.partitions {
                self.leads[v] |= self.even[1][v];
            } else {
                self.widen(q, if q == p { after(b) } else { !0 });
            }
        }
    }

    /// Adds the even exchanges of the row among these nodes.
    fn widen(&mut self, q: usize, nodes: u32) {
        for a in members(self.held.rows[q] & nodes) {
            self.leads[a] |= self.targets(q, a) & nodes;
        }
    }
}
