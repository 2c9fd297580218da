//! Random small clusters with former layouts to which several layouts are nearest.

use crate::ceilings;
use crate::listing::effort;
use crate::random::Random;
use crate::{Cluster, Layout, Node};

/// The most layouts that a cluster here has, so that they can be listed.
const LAYOUTS: u64 = 10_000;

/// A cluster and a former layout.
pub fn case(r: &mut Random) -> (Cluster, Layout) {
    loop {
        let c = match r.chance(50) {
            true => cluster(r),
            false => wide(r),
        };
        if effort(&c) <= LAYOUTS {
            let former = former(&c, r);
            return (c, former);
        }
    }
}

/// A cluster of any shape.
fn cluster(r: &mut Random) -> Cluster {
    let number = r.between(2, 6);
    let replication = r.between(1, number.min(4));
    let zones = r.between(1, number);
    let redundancy = r.between(1, replication.min(zones));
    of_nodes(number, zones, replication, redundancy, r)
}

/// Wide rows in few zones: most nodes are in every row, and those that could give way to another may
/// be the only ones of their zone.
fn wide(r: &mut Random) -> Cluster {
    let number = r.between(3, 6);
    let replication = number - r.between(1, 2);
    let zones = r.between(1, 3);
    let redundancy = r.between(1, replication.min(zones));
    of_nodes(number, zones, replication, redundancy, r)
}

/// Disks that are all equal, or of two sizes; at times ceilings, which are then all equal or of two kinds.
fn of_nodes(number: u64, zones: u64, replication: u64, redundancy: u64, r: &mut Random) -> Cluster {
    let bits = r.between(0, 3) as u32;
    let disks = [0; 2].map(|_| r.between(1, 3 << bits) as u32);
    let has_ceilings = r.chance(30);
    let ceilings = [0; 2].map(|_| match has_ceilings {
        true => ceilings::any(1 << bits, r),
        false => Node::NO_CEILING,
    });
    let kinds = r.between(1, 2);
    let mut id = 0;
    let nodes = (0..number).map(|_| {
        id += r.between(1, 3) as u32;
        Node {
            id,
            zone: r.below(zones) as u16,
            capacity: disks[r.below(kinds) as usize],
            ceiling: ceilings[r.below(kinds) as usize],
        }
    });
    Cluster {
        bits,
        replication: replication as usize,
        redundancy: redundancy as usize,
        nodes: nodes.collect(),
    }
}

/// No former copies, former copies on gone nodes alone, or rows of any length with some gone nodes.
fn former(c: &Cluster, r: &mut Random) -> Layout {
    let (known, gone) = [(0, 0), (0, 50), (70, 5), (30, 20)][r.below(4) as usize];
    let last = c.nodes.last().map_or(0, |node| node.id);
    let holds = |id: &u32, r: &mut Random| {
        let is_known = c.nodes.iter().any(|node| node.id == *id);
        r.chance(if is_known { known } else { gone })
    };
    let mut row = || (1..=last + 2).filter(|id| holds(id, r)).take(8).collect();
    (0..c.partitions()).map(|_| row()).collect()
}
