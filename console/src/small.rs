//! Small clusters for the unit tests.

use crate::{Cluster, Layout, Node};

/// A cluster of k, R and Z and of nodes as id, zone and capacity, without ceilings or former copies.
pub fn cluster(numbers: [u8; 3], nodes: &[(u32, u16, u32)]) -> Cluster {
    let [bits, replication, redundancy] = numbers;
    let node = |&(id, zone, capacity): &(u32, u16, u32)| Node {
        id,
        zone,
        capacity,
        ceiling: Node::NO_CEILING,
    };
    Cluster {
        bits,
        replication,
        redundancy,
        nodes: nodes.iter().map(node).collect(),
        former: Layout::default(),
    }
}
