//! The two counts that decide whether a cluster has a layout at a size, and so why not at a larger
//! one.

use crate::cluster::{Cluster, Node};
use crate::layout::Layout;
use std::collections::BTreeMap;

/// What the nodes of a cluster can take at a size, a sixteenth of each disk kept free and no node above
/// its ceiling, counted in the two ways that matter.
///
/// A layout valid at the size exists just when both counts are enough: that is a theorem, and the
/// proved planner finds the size by it. The counting here is plain Rust.
#[derive(Clone, Debug, PartialEq, Eq, Hash)]
pub struct Counts {
    /// Megabytes of a partition.
    pub size: u64,
    /// Copies that each node can take, in the order of the nodes.
    pub rooms: Vec<u64>,
    /// Copies that the nodes can take, each partition once at most on each node, and no more than its
    /// ceiling.
    pub room: u64,
    /// Copies that are wanted of all partitions together.
    pub wanted: u64,
    /// Nodes, by id, that have room for every partition: a larger disk of theirs changes nothing.
    pub whole_nodes: Vec<u32>,
    /// Nodes, by id, whose disks have room for more copies than their ceilings allow: a larger disk of
    /// theirs changes nothing either.
    pub ceiling_nodes: Vec<u32>,
    /// The zones, each with the partitions that can have a copy in it.
    pub zone_rooms: Vec<(u16, u64)>,
    /// Pairs of a partition and a zone that can have a copy of it.
    pub zone_room: u64,
    /// Pairs that are wanted of all partitions together.
    pub zone_wanted: u64,
    /// Zones that have room for every partition: for the zones that a partition lies in, more disks
    /// there change nothing.
    pub whole_zones: Vec<u16>,
    /// All other zones.
    pub part_zones: Vec<u16>,
}

impl Counts {
    /// Whether the copies find no room, wherever they may lie.
    pub fn lack_room(&self) -> bool {
        self.room < self.wanted
    }

    /// Whether the partitions cannot lie in as many zones as is wanted.
    pub fn lack_zones(&self) -> bool {
        self.zone_room < self.zone_wanted
    }
}

/// Why a node holds nothing.
#[derive(Clone, Copy, Debug, PartialEq, Eq, Hash)]
#[non_exhaustive]
pub enum Unused {
    /// It may hold none: its ceiling is 0.
    Ceiling,
    /// What may be filled of its disk is smaller than one partition of the size.
    Small,
    /// Its zone holds every partition already, and none may lie there twice, since as many zones
    /// are wanted as copies.
    ZoneWhole,
    /// It could hold copies, but all of them lie on other nodes.
    Spare,
}

impl Cluster {
    /// The two counts at a size in megabytes, for a cluster that planning accepts.
    ///
    /// ```
    /// use dezghuri::{Cluster, Node};
    ///
    /// let node = |id, zone, capacity| Node { id, zone, capacity, ceiling: Node::NO_CEILING };
    /// let nodes = vec![node(1, 1, 90), node(2, 2, 32), node(3, 2, 10)];
    /// let cluster = Cluster { replication: 2, redundancy: 2, nodes, ..Cluster::default() };
    /// let size = cluster.plan(dezghuri::ENOUGH)?.size;
    /// assert_eq!(size, 30);
    /// let counts = cluster.counts(u64::from(size) + 1);
    /// assert!(counts.lack_zones());
    /// assert_eq!(counts.part_zones, [2]);
    /// # Ok::<(), dezghuri::Refused>(())
    /// ```
    pub fn counts(&self, size: u64) -> Counts {
        let partitions = self.partitions();
        let most = |node: &Node| most_copies(node, partitions, size);
        let ids_where = |is_one: &dyn Fn(&Node) -> bool| {
            let nodes = self.nodes.iter().filter(|node| is_one(node));
            nodes.map(|node| node.id).collect()
        };
        let rooms: Vec<u64> = self.nodes.iter().map(most).collect();
        let zone_rooms = self.zone_rooms(&rooms);
        let zones_where = |is_whole: bool| {
            let zones = zone_rooms.iter();
            let zones = zones.filter(|(_, room)| (*room == partitions) == is_whole);
            zones.map(|(zone, _)| *zone).collect()
        };
        Counts {
            size,
            room: rooms.iter().sum(),
            wanted: u64::from(self.replication) * partitions,
            whole_nodes: ids_where(&|node| most(node) == partitions),
            ceiling_nodes: ids_where(&|node| most(node) < disk_room(node, partitions, size)),
            zone_room: zone_rooms.iter().map(|(_, room)| room).sum(),
            zone_wanted: u64::from(self.redundancy) * partitions,
            whole_zones: zones_where(true),
            part_zones: zones_where(false),
            rooms,
            zone_rooms,
        }
    }

    /// The zones, each with the partitions that can have a copy in it where its nodes have these rooms.
    fn zone_rooms(&self, rooms: &[u64]) -> Vec<(u16, u64)> {
        let mut zones: BTreeMap<u16, u64> = BTreeMap::new();
        for (node, room) in self.nodes.iter().zip(rooms) {
            *zones.entry(node.zone).or_default() += room;
        }
        let zones = zones.into_iter();
        zones
            .map(|(zone, room)| (zone, room.min(self.partitions())))
            .collect()
    }

    /// The nodes that hold nothing in a layout of the size, by id, each with the reason.
    pub fn unused(&self, layout: &Layout, size: u32) -> Vec<(u32, Unused)> {
        let partitions = self.partitions();
        let mut copies: BTreeMap<u32, u64> = BTreeMap::new();
        for id in layout.rows().flat_map(|(_, ids)| ids) {
            *copies.entry(*id).or_default() += 1;
        }
        let held = |node: &Node| copies.get(&node.id).copied().unwrap_or(0);
        let in_zone = |zone: u16| {
            let mates = self.nodes.iter().filter(|mate| mate.zone == zone);
            mates.map(held).sum::<u64>()
        };
        let reason = |node: &Node| {
            if node.ceiling == 0 {
                Unused::Ceiling
            } else if most_copies(node, partitions, size.into()) == 0 {
                Unused::Small
            } else if self.replication == self.redundancy && in_zone(node.zone) == partitions {
                Unused::ZoneWhole
            } else {
                Unused::Spare
            }
        };
        let unused = self.nodes.iter().filter(|node| held(node) == 0);
        unused.map(|node| (node.id, reason(node))).collect()
    }

    /// How many partitions there are; no cluster that planning accepts has more than 256.
    pub fn partitions(&self) -> u64 {
        1 << self.bits.min(8)
    }
}

/// The most copies that a node can hold at a size.
fn most_copies(node: &Node, partitions: u64, size: u64) -> u64 {
    disk_room(node, partitions, size).min(node.ceiling.into())
}

/// The copies that its disk has room for, each partition once at most.
fn disk_room(node: &Node, partitions: u64, size: u64) -> u64 {
    let whole = u64::from(node.usable()).checked_div(size);
    whole.map_or(partitions, |copies| copies.min(partitions))
}

#[cfg(test)]
mod tests {
    use super::*;
    use crate::small::cluster;

    /// Example A of the paper, whose size is 23: of 100, 70 and 50 MB 94, 66 and 47 may be filled.
    /// At 24 MB the disks take 2 + 2 + 1 copies, and both zones are touched in 2 + 1 ways.
    #[test]
    fn copies_and_zones_are_counted() {
        let a = cluster([1, 3, 2], &[(1, 1, 100), (2, 1, 70), (3, 2, 50)]);
        let fit = a.counts(23);
        assert_eq!((fit.room, fit.wanted), (6, 6));
        assert_eq!((fit.zone_room, fit.zone_wanted), (4, 4));
        assert!(!fit.lack_room() && !fit.lack_zones());
        let more = a.counts(24);
        assert_eq!((more.room, more.zone_room), (5, 3));
        assert!(more.lack_room() && more.lack_zones());
        assert_eq!(more.whole_nodes, [1, 2]);
        assert_eq!((more.whole_zones, more.part_zones), (vec![1], vec![2]));
    }

    /// Node 1 of example A may hold one copy, so there is room for five at every size up to 23 MB, and
    /// a larger disk of its own changes nothing; node 2 is at its ceiling, and holds every partition.
    #[test]
    fn ceilings_are_counted() {
        let mut a = cluster([1, 3, 2], &[(1, 1, 100), (2, 1, 70), (3, 2, 50)]);
        (a.nodes[0].ceiling, a.nodes[1].ceiling) = (1, 2);
        let counts = a.counts(1);
        assert_eq!((counts.room, counts.zone_room), (5, 4));
        assert!(counts.lack_room() && !counts.lack_zones());
        assert_eq!(
            (counts.whole_nodes, counts.ceiling_nodes),
            (vec![2, 3], vec![1])
        );
        // Its disk has room for one at this size, so it is not the ceiling that binds.
        assert_eq!(a.counts(60).ceiling_nodes, []);
        a.nodes[2].ceiling = 0;
        let counts = a.counts(0);
        assert_eq!((counts.room, counts.zone_room), (3, 2));
        assert_eq!(counts.ceiling_nodes, [1, 3]);
        assert_eq!((counts.whole_zones, counts.part_zones), (vec![1], vec![2]));
    }

    #[test]
    fn the_ends_of_the_range_are_counted_too() {
        let full = cluster([8, 1, 1], &[(1, 1, u32::MAX)]);
        assert_eq!(full.counts(0).room, 256);
        assert_eq!(full.counts(1 << 32).room, 0);
        // 15 / 16 of 2^32 is the most that may be filled.
        assert_eq!(full.counts(15 << 28).room, 1);
        assert_eq!(full.counts((15 << 28) + 1).room, 0);
        assert_eq!(Cluster::default().counts(1).room, 0);
    }

    /// Box 2 has 16 MB, of which 15 may be filled; box 4 stands in a zone that holds both partitions;
    /// box 5 is not needed.
    #[test]
    fn unused_nodes_have_their_reason() {
        let nodes = [(1, 1, 90), (2, 1, 16), (3, 2, 34), (4, 2, 17), (5, 3, 17)];
        let layout: Layout = [(0, [1, 3]), (1, [1, 3])].into_iter().collect();
        let two_zones = cluster([1, 2, 2], &nodes);
        let reasons = |unused: [Unused; 3]| [2, 4, 5].into_iter().zip(unused).collect::<Vec<_>>();
        assert_eq!(
            two_zones.unused(&layout, 16),
            reasons([Unused::Small, Unused::ZoneWhole, Unused::Spare])
        );
        let mut one_zone = cluster([1, 2, 1], &nodes);
        assert_eq!(
            one_zone.unused(&layout, 16),
            reasons([Unused::Small, Unused::Spare, Unused::Spare])
        );
        for node in [1, 3] {
            one_zone.nodes[node].ceiling = 0;
        }
        assert_eq!(
            one_zone.unused(&layout, 16),
            reasons([Unused::Ceiling, Unused::Ceiling, Unused::Spare])
        );
    }
}
