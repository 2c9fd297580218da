//! The search for a simple negative cycle, level by level.

use super::arcs::Graph;
use super::ground::{has, members, Ground, NODES};
use std::ops::RangeInclusive;

/// The nodes of a cycle and the first one again: arc i goes from node i + 1 to node i.
#[derive(Clone, Copy)]
pub struct Walk {
    pub arcs: usize,
    pub nodes: [u8; NODES + 1],
}

/// Sets of nodes by distance. All nodes begin at the distance N + 1, and fall by 1 at most on each
/// level, so that none comes below 2.
type ByDistance = [u32; NODES + 3];

/// Where the nodes stand in the end: no arc leads further down than its weight.
pub struct Levels {
    at_most: ByDistance,
}

impl Levels {
    /// The distances at which nodes can stand.
    pub fn range(g: &Ground) -> RangeInclusive<usize> {
        2..=g.nodes + 1
    }

    /// The nodes at a distance.
    pub fn at(&self, distance: usize) -> u32 {
        self.at_most[distance] & !self.at_most[distance - 1]
    }
}

/// What a search comes to.
pub enum Found {
    /// A simple negative cycle.
    Cycle(Walk),
    /// There is none.
    None(Levels),
}

struct Search<'a> {
    graph: &'a Graph,
    /// The nodes that stand at a distance or below.
    at_most: ByDistance,
    /// The nodes that fell last and stand at a distance.
    fell: ByDistance,
    /// The least distance.
    least: usize,
    /// By level: where the nodes that fell came from.
    from: [[u8; NODES]; NODES],
    /// The nodes on the way to each node that fell last.
    way: [u32; NODES],
}

/// Searches the graph for a negative cycle.
pub fn search(g: &Ground, graph: &Graph) -> Found {
    let begin = g.nodes + 1;
    let mut search = Search {
        graph,
        at_most: [0; NODES + 3],
        fell: [0; NODES + 3],
        least: begin,
        from: [[0; NODES]; NODES],
        way: std::array::from_fn(|b| 1 << b),
    };
    (search.at_most[begin], search.fell[begin]) = (g.all, g.all);
    for level in 0..g.nodes {
        let fell = search.descend(g, level);
        if fell == 0 {
            break;
        }
        if let Some(v) = search.close(level, fell) {
            return Found::Cycle(search.walk_back(level, v));
        }
    }
    Found::None(Levels {
        at_most: search.at_most,
    })
}

impl Search<'_> {
    /// One level down: the nodes that fall, to the least distance first. Only those that fell last
    /// can make others fall.
    fn descend(&mut self, g: &Ground, level: usize) -> u32 {
        let (mut falling, mut fell) = (0, [0; NODES + 3]);
        let (least, begin) = (self.least - 1, g.nodes + 1);
        for (fallen, c) in fell[least..begin].iter_mut().zip(least..) {
            let open = g.all & !self.at_most[c] & !falling;
            if open != 0 {
                *fallen = self.fall_to(c, level, open);
                falling |= *fallen;
            }
            self.at_most[c] |= falling;
        }
        self.fell = fell;
        self.least -= usize::from(self.fell[self.least - 1] != 0);
        falling
    }

    /// Those of the open nodes that fall to the distance c, each by an arc from the first node that
    /// has one.
    fn fall_to(&mut self, c: usize, level: usize, mut open: u32) -> u32 {
        let (below, here, above) = (self.fell[c - 1], self.fell[c], self.fell[c + 1]);
        let (wanted, from) = (open, &mut self.from[level]);
        for u in members(below | here | above) {
            let weight = usize::from(has(here, u)) + 2 * usize::from(has(below, u));
            let take = self.graph.to[weight][u] & open;
            members(take).for_each(|v| from[v] = u as u8);
            open &= !take;
            if open == 0 {
                break;
            }
        }
        wanted & !open
    }

    /// The first of the nodes that fell whose way comes to it again; else all ways grow by a node.
    fn close(&mut self, level: usize, fell: u32) -> Option<usize> {
        let mut grown = [0; NODES];
        for v in members(fell) {
            let way = self.way[self.from[level][v] as usize % NODES];
            if has(way, v) {
                return Some(v);
            }
            grown[v] = way | 1 << v;
        }
        self.way = grown;
        None
    }

    /// From v back along the levels until v comes again.
    fn walk_back(&self, level: usize, v: usize) -> Walk {
        let mut nodes = [v as u8; NODES + 1];
        let mut at = v;
        for (from, arcs) in self.from[..=level].iter().rev().zip(1..) {
            at = from[at] as usize;
            nodes[arcs] = at as u8;
            if at == v {
                return Walk { arcs, nodes };
            }
        }
        unreachable!("a way back that meets its start comes to it");
    }
}
