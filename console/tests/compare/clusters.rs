//! Random clusters and former layouts.

use reference::random::Random;
use reference::{ceilings, report, Cluster, Layout, Node};

/// The bounds of a kind of cluster.
#[derive(Clone, Copy)]
pub struct Kind {
    pub most_bits: u64,
    pub most_nodes: u64,
    pub most_replication: u64,
    pub most_capacity: u64,
}

/// Clusters whose layouts can be listed.
pub const SMALL: Kind = Kind {
    most_bits: 2,
    most_nodes: 6,
    most_replication: 4,
    most_capacity: 12,
};

/// Clusters with too many layouts to list.
pub const MEDIUM: Kind = Kind {
    most_bits: 5,
    most_nodes: 14,
    most_replication: 6,
    most_capacity: 200,
};

/// Clusters of any size.
pub const LARGE: Kind = Kind {
    most_bits: 8,
    most_nodes: 32,
    most_replication: 8,
    most_capacity: 4_000_000,
};

/// A cluster, at times with capacities of 0, with equal capacities, with capacities at which what stays
/// free changes, with ceilings, or with more zones wanted than there are.
pub fn cluster(kind: Kind, r: &mut Random) -> Cluster {
    let bits = if r.chance(15) {
        0
    } else {
        r.between(1, kind.most_bits)
    } as u32;
    let replication = r.between(1, kind.most_replication) as usize;
    let redundancy = r.between(1, replication as u64) as usize;
    let few = if r.chance(80) { replication as u64 } else { 0 };
    let number = r.between(few, kind.most_nodes);
    let zones = r.between(1, number.max(1));
    let drawn = if r.chance(30) { at_a_sixteen } else { capacity };
    let equal = r.chance(20).then(|| drawn(kind, r).max(1));
    let mut id = 0;
    let nodes = (0..number).map(|_| {
        id += r.between(1, 3) as u32;
        Node {
            id,
            zone: zone(r.below(zones)),
            capacity: equal.unwrap_or_else(|| drawn(kind, r)) as u32,
            ceiling: Node::NO_CEILING,
        }
    });
    let mut c = Cluster {
        bits,
        replication,
        redundancy,
        nodes: nodes.collect(),
    };
    ceilings::draw(&mut c, r);
    c
}

fn capacity(kind: Kind, r: &mut Random) -> u64 {
    match r.below(10) {
        0 => 0,
        1 => 1,
        2 => u32::MAX.into(),
        _ => r.between(0, kind.most_capacity),
    }
}

/// A capacity at which what stays free of a disk changes: 15, 16, 17, 31, 32, 33 and on.
fn at_a_sixteen(kind: Kind, r: &mut Random) -> u64 {
    16 * r.between(1, (kind.most_capacity / 16).max(3)) - 1 + r.below(3)
}

/// Zone numbers from both ends of their range.
fn zone(place: u64) -> u16 {
    let place = place as u16;
    if place.is_multiple_of(2) {
        place / 2
    } else {
        u16::MAX - place / 2
    }
}

/// A former layout: at times none, at times with rows that are longer than the replication; some of
/// its nodes are gone.
pub fn former(c: &Cluster, r: &mut Random) -> Layout {
    let density = if r.chance(8) { 0 } else { r.between(10, 90) };
    let gone = [0, 5, 30][r.below(3) as usize];
    let last = c.nodes.last().map_or(3, |node| node.id + 3);
    let holds = |id: u32, r: &mut Random| {
        let known = c.nodes.iter().any(|node| node.id == id);
        r.chance(if known { density } else { gone })
    };
    let mut row = || (1..=last).filter(|id| holds(*id, r)).take(8).collect();
    (0..c.partitions()).map(|_| row()).collect()
}

/// A cluster with a former layout and another one. At times the former layout is nearly right, or
/// was so before a node went and another one got another disk or ceiling.
pub fn case(kind: Kind, r: &mut Random) -> (Cluster, Layout, Layout) {
    let mut c = cluster(kind, r);
    let (mut former, other) = (self::former(&c, r), self::former(&c, r));
    if r.chance(60) {
        return (c, former, other);
    }
    if let Some(near) = report::plan(&c, &other) {
        let percent = r.between(0, 30);
        former = moved(&c, near.layout, percent, r);
        if r.chance(50) {
            let gone = r.below(c.nodes.len() as u64) as usize;
            c.nodes.remove(gone);
        }
        let partitions = c.partitions();
        if let Some(node) = c.nodes.first_mut() {
            match r.chance(70) {
                true => node.capacity = capacity(kind, r) as u32,
                false => node.ceiling = ceilings::any(partitions, r),
            }
        }
    }
    (c, former, other)
}

/// The layout after so many percent of its copies have moved to other nodes of the cluster.
fn moved(c: &Cluster, mut layout: Layout, percent: u64, r: &mut Random) -> Layout {
    for row in &mut layout {
        for id in row.iter_mut() {
            if r.chance(percent) {
                *id = c.nodes[r.below(c.nodes.len() as u64) as usize].id;
            }
        }
        row.sort_unstable();
        row.dedup();
    }
    layout
}
