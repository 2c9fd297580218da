//! What does not change during a run, and sets of nodes and of partitions.

use crate::Cluster;

/// The most nodes of a cluster.
pub const NODES: usize = 32;
/// The most partitions of a cluster.
pub const PARTITIONS: usize = 256;

/// A set of partitions.
pub type Partitions = [u64; PARTITIONS / 64];

/// The members of a set of nodes, rising.
pub fn members(mut set: u32) -> impl Iterator<Item = usize> {
    std::iter::from_fn(move || {
        if set == 0 {
            return None;
        }
        let b = set.trailing_zeros() as usize % NODES;
        set &= set - 1;
        Some(b)
    })
}

pub fn has(set: u32, b: usize) -> bool {
    set >> b & 1 == 1
}

/// Puts the partition into the set, or takes it out.
pub fn flip(set: &mut Partitions, p: usize) {
    set[p / 64] ^= 1 << (p % 64);
}

/// The zones of a row: whether it has one to spare, and the nodes of all of them.
#[derive(Clone, Copy, Default)]
pub struct Zones {
    pub spare: bool,
    pub nodes: u32,
}

pub struct Ground {
    pub partitions: usize,
    pub nodes: usize,
    pub redundancy: u32,
    /// The set of all nodes.
    pub all: u32,
    /// For each node the nodes of its zone.
    pub mates: [u32; NODES],
    pub caps: [u32; NODES],
    /// For each partition its former nodes.
    pub former: [u32; PARTITIONS],
    /// For each node its former partitions.
    pub had: [Partitions; NODES],
}

impl Ground {
    pub fn new(c: &Cluster, zone: &[usize; NODES], caps: [u32; NODES], former: &[u32]) -> Ground {
        let mut ground = Ground {
            partitions: c.partitions(),
            nodes: c.nodes.len(),
            redundancy: c.redundancy as u32,
            all: ((1u64 << c.nodes.len()) - 1) as u32,
            mates: [0; NODES],
            caps,
            former: [0; PARTITIONS],
            had: [[0; PARTITIONS / 64]; NODES],
        };
        let mut in_zone = [0; NODES];
        (0..ground.nodes).for_each(|b| in_zone[zone[b]] |= 1 << b);
        ground.mates = std::array::from_fn(|b| in_zone[zone[b]]);
        ground.former[..former.len()].copy_from_slice(former);
        for (p, row) in former.iter().enumerate() {
            members(*row).for_each(|b| flip(&mut ground.had[b], p));
        }
        ground
    }

    /// How many zones the row touches, and their nodes.
    fn touched(&self, row: u32) -> (u32, u32) {
        let (mut left, mut count, mut nodes) = (row, 0, 0);
        while left != 0 {
            let mates = self.mates[left.trailing_zeros() as usize % NODES];
            left &= !mates;
            nodes |= mates;
            count += 1;
        }
        (count, nodes)
    }

    pub fn zones(&self, row: u32) -> Zones {
        let (count, nodes) = self.touched(row);
        Zones {
            spare: count > self.redundancy,
            nodes,
        }
    }

    /// Whether the row touches as many zones as it has to.
    pub fn is_valid(&self, row: u32) -> bool {
        self.touched(row).0 >= self.redundancy
    }

    /// The nodes that may take the place of node a in the row.
    pub fn targets(&self, row: u32, zones: Zones, a: usize) -> u32 {
        let free = self.all & !row;
        if zones.spare || self.mates[a] & row & !(1 << a) != 0 {
            free
        } else {
            free & (self.mates[a] | !zones.nodes)
        }
    }

    /// The nodes of the row that may give way to node b, which it lacks.
    pub fn sources(&self, row: u32, zones: Zones, b: usize) -> u32 {
        if zones.spare || !has(zones.nodes, b) {
            return row;
        }
        let in_company = |a: &usize| self.mates[*a] & row & !(1 << a) != 0;
        let others = members(row & !self.mates[b]).filter(in_company);
        others.fold(row & self.mates[b], |all, a| all | 1 << a)
    }
}
