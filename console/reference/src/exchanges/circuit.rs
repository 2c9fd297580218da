//! A cycle with a partition for each of its arcs, freed of crossed pairs and turned.

use super::arcs::Graph;
use super::ground::{has, Ground, NODES};
use super::held::Held;
use super::search::Walk;

/// Arc i is made in partition i, or over the store of free room where that is the number of
/// partitions.
#[derive(Clone, Copy)]
pub struct Circuit {
    pub walk: Walk,
    pub partitions: [u16; NODES],
}

impl Circuit {
    /// The cycle of the graph with the first partition for each arc.
    pub fn new(g: &Ground, held: &Held, graph: &Graph, walk: Walk) -> Circuit {
        let mut circuit = Circuit {
            walk,
            partitions: [0; NODES],
        };
        for i in 0..walk.arcs {
            let (u, v) = circuit.arc(i);
            let weight = graph.to.iter().position(|to| has(to[u], v));
            let weight = weight.expect("an arc of the cycle");
            circuit.partitions[i] = held.witness(g, 0, weight, u, v) as u16;
        }
        circuit
    }

    /// The nodes that arc i goes from and to.
    pub fn arc(&self, i: usize) -> (usize, usize) {
        let nodes = &self.walk.nodes;
        (nodes[i + 1] as usize % NODES, nodes[i] as usize % NODES)
    }

    /// What is left of the cycle after a turn: each arc in the next partition that allows it at the
    /// cost that it had, or over the store where it was. Whether all its arcs are still there.
    pub fn move_on(&mut self, g: &Ground, held: &Held) -> bool {
        (0..self.walk.arcs).all(|i| {
            let (last, (u, v)) = (self.partitions[i] as usize, self.arc(i));
            if last == g.partitions {
                return held.has_room(u);
            }
            let weight = (1 + self.cost(g, i, u)) as usize;
            let next = held.witness(g, last, weight, u, v);
            self.partitions[i] = next as u16;
            next < g.partitions
        })
    }

    /// What arc i, or one from another node in its place, loses of the former layout.
    fn cost(&self, g: &Ground, i: usize, from: usize) -> i32 {
        let p = self.partitions[i] as usize;
        if p == g.partitions {
            return 0;
        }
        let to = self.walk.nodes[i];
        (g.former[p] >> from & 1) as i32 - (g.former[p] >> to & 1) as i32
    }

    /// Whether the arcs i and j are made in one row and can be crossed there.
    fn can_cross(&self, g: &Ground, held: &Held, i: usize, j: usize) -> bool {
        let p = self.partitions[i] as usize;
        if self.partitions[j] as usize != p || p == g.partitions {
            return false;
        }
        let ((from_i, to_i), (from_j, to_j)) = (self.arc(i), self.arc(j));
        held.allows(g, p, from_j, to_i) && held.allows(g, p, from_i, to_j)
    }

    /// The first pair of arcs that can be crossed.
    fn crossed(&self, g: &Ground, held: &Held) -> Option<(usize, usize)> {
        let arcs = self.walk.arcs;
        (0..arcs)
            .flat_map(|i| (i + 1..arcs).map(move |j| (i, j)))
            .find(|&(i, j)| self.can_cross(g, held, i, j))
    }

    /// Frees the circuit of pairs of arcs that can be crossed, going on with a part that gains; how
    /// often it was split.
    pub fn uncross(&mut self, g: &Ground, held: &Held) -> u32 {
        let mut splits = 0;
        while let Some((i, j)) = self.crossed(g, held) {
            let first = self.arc(i).0;
            let between = (i + 1..j).map(|t| self.cost(g, t, self.arc(t).0));
            if between.sum::<i32>() + self.cost(g, j, first) < 0 {
                self.keep_inner(i, j);
            } else {
                self.keep_outer(i, j);
            }
            splits += 1;
        }
        splits
    }

    fn keep_inner(&mut self, i: usize, j: usize) {
        self.walk.nodes.copy_within(i + 1..=j, 0);
        self.partitions.copy_within(i + 1..=j, 0);
        self.walk.arcs = j - i;
        self.walk.nodes[j - i] = self.walk.nodes[0];
    }

    fn keep_outer(&mut self, i: usize, j: usize) {
        let arcs = self.walk.arcs;
        self.walk.nodes.copy_within(j + 1..=arcs, i + 1);
        self.partitions.copy_within(j + 1..arcs, i + 1);
        self.walk.arcs = arcs - (j - i);
    }

    /// The exchanges of the circuit: partition, and the nodes from and to.
    pub fn exchanges(&self, g: &Ground) -> impl Iterator<Item = (usize, usize, usize)> + '_ {
        let partitions = g.partitions;
        let all = (0..self.walk.arcs).map(|i| (self.partitions[i] as usize, self.arc(i)));
        all.filter(move |(p, _)| *p < partitions)
            .map(|(p, (u, v))| (p, u, v))
    }
}
