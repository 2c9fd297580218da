//! What is told of why the size is no larger, against a listing of all layouts.

use crate::clusters::{self, SMALL};
use crate::{soak_factor, soak_seed};
use dezghuri::Unused;
use reference::random::Random;
use reference::records::cluster_record;
use reference::{listing, Cluster, Node};

/// The largest size of a layout, by listing all; 0 where there is none.
fn size(c: &Cluster) -> u64 {
    let none = vec![Vec::new(); c.partitions()];
    listing::list(c, &none).map_or(0, |listed| listed.size)
}

/// The size once these nodes have disks as large as can be.
fn size_with_larger(c: &Cluster, is_larger: impl Fn(&Node) -> bool) -> u64 {
    let mut c = c.clone();
    for node in c.nodes.iter_mut().filter(|node| is_larger(node)) {
        node.capacity = u32::MAX;
    }
    size(&c)
}

/// Which of the two counts fall short at the size above the largest, where ceilings bind, and why nodes
/// hold nothing.
#[derive(Default)]
struct Seen {
    room: u64,
    zones: u64,
    both: u64,
    ceilings: u64,
    ceiling: u64,
    small: u64,
    zone_whole: u64,
    spare: u64,
}

impl Seen {
    /// Without the zones that are wanted only the room for copies counts, and of as many copies as
    /// zones only the zones; so a listing tells which of the two falls short.
    fn try_counts(&mut self, c: &Cluster) {
        let known = dezghuri::Cluster::from_record(&cluster_record(c, &Vec::new())).unwrap();
        let largest = size(c);
        if largest > 0 {
            let fits = known.counts(largest);
            assert!(!fits.lack_room() && !fits.lack_zones());
        }
        let counts = known.counts(largest + 1);
        let in_any_zones = Cluster {
            redundancy: 1,
            ..c.clone()
        };
        let one_in_each_zone = Cluster {
            replication: c.redundancy,
            ..c.clone()
        };
        assert_eq!(counts.lack_room(), size(&in_any_zones) <= largest);
        assert_eq!(counts.lack_zones(), size(&one_in_each_zone) <= largest);
        assert!(counts.lack_room() || counts.lack_zones());
        let has_room =
            |id: u32| counts.whole_nodes.contains(&id) || counts.ceiling_nodes.contains(&id);
        let larger = size_with_larger(c, |node| has_room(node.id));
        assert_eq!(larger, largest, "no larger disk of these would help");
        for node in 0..c.nodes.len() {
            let mut higher = known.clone();
            higher.nodes[node].ceiling = Node::NO_CEILING;
            let more = higher.counts(largest + 1).room > counts.room;
            let id = c.nodes[node].id;
            assert_eq!(
                more,
                counts.ceiling_nodes.contains(&id),
                "its ceiling binds"
            );
        }
        self.ceilings += u64::from(!counts.ceiling_nodes.is_empty());
        if counts.lack_zones() {
            let larger = size_with_larger(c, |node| counts.whole_zones.contains(&node.zone));
            assert_eq!(larger, largest, "more disk there would not help");
        }
        match (counts.lack_room(), counts.lack_zones()) {
            (true, true) => self.both += 1,
            (true, false) => self.room += 1,
            _ => self.zones += 1,
        }
    }

    /// An unused node can be taken away; the reason is as told.
    fn try_unused(&mut self, c: &Cluster) {
        let known = dezghuri::Cluster::from_record(&cluster_record(c, &Vec::new())).unwrap();
        let Ok(plan) = known.plan(dezghuri::ENOUGH) else {
            return;
        };
        for (id, why) in known.unused(&plan.layout, plan.size) {
            let mut without = c.clone();
            without.nodes.retain(|node| node.id != id);
            assert_eq!(size(&without), u64::from(plan.size));
            let node = c.nodes.iter().find(|node| node.id == id).unwrap();
            assert_eq!(why == Unused::Ceiling, node.ceiling == 0);
            let is_small = node.ceiling > 0 && node.usable() < plan.size;
            assert_eq!(why == Unused::Small, is_small);
            self.ceiling += u64::from(why == Unused::Ceiling);
            if why == Unused::ZoneWhole {
                self.zone_whole += 1;
                zone_is_whole(c, node.zone, &plan);
            }
            self.small += u64::from(why == Unused::Small);
            self.spare += u64::from(why == Unused::Spare);
        }
    }
}

/// Every partition has a copy in the zone, and no row that there is has two.
fn zone_is_whole(c: &Cluster, zone: u16, plan: &dezghuri::Plan) {
    let of_zone = |id: &u32| c.nodes.iter().any(|n| n.id == *id && n.zone == zone);
    for (_, ids) in plan.layout.rows() {
        assert!(ids.iter().any(of_zone));
    }
    for row in listing::rows(c) {
        assert!(row.iter().filter(|&&b| c.nodes[b].zone == zone).count() < 2);
    }
}

fn try_small(seed: u64, cases: u64) -> Seen {
    let mut r = Random::new(seed);
    let mut seen = Seen::default();
    let mut tried = 0;
    while tried < cases {
        let c = clusters::cluster(SMALL, &mut r);
        if listing::effort(&c) > 2_000 || c.nodes.is_empty() {
            continue;
        }
        tried += 1;
        seen.try_counts(&c);
        seen.try_unused(&c);
    }
    seen
}

#[test]
fn what_binds_is_told_truly() {
    let seen = try_small(21, 2_000);
    let all = [
        seen.room,
        seen.zones,
        seen.both,
        seen.ceilings,
        seen.ceiling,
        seen.small,
        seen.zone_whole,
        seen.spare,
    ];
    assert!(all.iter().all(|number| *number > 25), "{all:?}");
}

#[test]
#[ignore = "make soak"]
fn soak_what_binds() {
    try_small(soak_seed(22), 2_000 * soak_factor());
}
