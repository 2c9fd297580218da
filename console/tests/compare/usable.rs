//! What may be filled of a disk, all but a sixteenth of it, through planning, check and figures. The
//! numbers are worked out by hand.

use crate::lent;
use reference::cells::cells_of;
use reference::random::Random;
use reference::records::cluster_record;
use reference::{Cluster, Node};

/// Capacities, and what may be filled of each: all below 16, and from each multiple of 16 on one
/// megabyte less.
const KNOWN: [(u32, u32); 9] = [
    (0, 0),
    (1, 1),
    (15, 15),
    (16, 15),
    (17, 16),
    (31, 30),
    (32, 30),
    (33, 31),
    (u32::MAX, 4_026_531_840),
];

/// Nodes 7, 8 and on of these capacities, in zones of their own.
fn cluster(bits: u32, replication: usize, capacities: &[u32]) -> Cluster {
    let node = |(b, capacity): (u16, &u32)| Node {
        id: 7 + u32::from(b),
        zone: b,
        capacity: *capacity,
        ceiling: Node::NO_CEILING,
    };
    Cluster {
        bits,
        replication,
        redundancy: 1,
        nodes: (0..).zip(capacities).map(node).collect(),
    }
}

fn record(c: &Cluster) -> Vec<u8> {
    cluster_record(c, &vec![])
}

#[test]
fn one_copy_on_one_node_takes_all_that_may_be_filled() {
    let r = &mut Random::new(1);
    for (capacity, usable) in KNOWN {
        let record = record(&cluster(0, 1, &[capacity]));
        let size = lent::plan(&record, 2048, r).map(|planned| planned.size);
        let expected = if usable > 0 { Ok(usable) } else { Err((9, 0)) };
        assert_eq!(size, expected, "{capacity}");
    }
}

#[test]
fn one_megabyte_more_is_refused_with_the_node() {
    let r = &mut Random::new(1);
    let cells = cells_of(&vec![vec![7]]);
    for (capacity, usable) in KNOWN {
        let record = record(&cluster(0, 1, &[capacity]));
        let more = lent::check(&record, &cells, usable + 1, r);
        assert_eq!(more, (12, 0, 7), "{capacity}");
        let more = lent::figures(&record, &cells, usable + 1, r);
        assert_eq!(more, Err((12, 0, 7)), "{capacity}");
        if usable > 0 {
            let fits = lent::check(&record, &cells, usable, r);
            assert_eq!(fits, (0, 0, 0), "{capacity}");
            let (_, hope) = lent::figures(&record, &cells, usable, r).expect("it fits");
            assert_eq!(hope, usable.into(), "{capacity}");
        }
    }
}

/// The size rounds down by itself, so several copies may leave more than a sixteenth free.
#[test]
fn several_copies_fit_to_the_last_megabyte() {
    let r = &mut Random::new(1);
    for bits in 0..4 {
        let cells = cells_of(&vec![vec![7]; 1 << bits]);
        for capacity in 1..=100 {
            let c = cluster(bits, 1, &[capacity]);
            for size in 1..=capacity + 1 {
                let fits = size << bits <= c.nodes[0].usable();
                let expected = if fits { (0, 0, 0) } else { (12, 0, 7) };
                let checked = lent::check(&record(&c), &cells, size, r);
                assert_eq!(checked, expected, "{size} on {capacity}");
            }
        }
    }
}

/// Example A as it was planned before, at 25 MB, fills the disk of 50 MB, of which 47 may be filled;
/// at 33 MB 66 of 70 MB are filled, and at 47 MB 94 of 100.
#[test]
fn a_layout_that_fills_a_disk_is_refused() {
    let r = &mut Random::new(1);
    let a = record(&cluster(1, 3, &[100, 70, 50]));
    let cells = cells_of(&vec![vec![7, 8, 9]; 2]);
    let mut check = |size| lent::check(&a, &cells, size, r);
    assert_eq!(check(23), (0, 0, 0));
    for size in [24, 25] {
        assert_eq!(check(size), (12, 0, 9), "the last node");
    }
    assert_eq!((check(33), check(34)), ((12, 0, 9), (12, 0, 8)));
    assert_eq!((check(47), check(48)), ((12, 0, 8), (12, 0, 7)));
}

/// Of 32 disks of 15 MB nothing is lost, though a sixteenth of all together is 30 MB; of 32 disks of
/// 31 MB each loses one, though a sixteenth of all together is 62 MB.
#[test]
fn each_disk_is_rounded_by_itself() {
    let r = &mut Random::new(1);
    let cells = cells_of(&vec![vec![7]]);
    for (capacity, size, hope) in [(15, 15, 480), (31, 30, 960)] {
        let record = record(&cluster(0, 1, &[capacity; 32]));
        let planned = lent::plan(&record, 2048, r).expect("a layout exists");
        assert_eq!(planned.size, size);
        let figures = lent::figures(&record, &cells, size, r).expect("it fits");
        assert_eq!(figures.1, hope);
    }
}

#[test]
fn records_hold_the_whole_capacity() {
    let r = &mut Random::new(1);
    let c = cluster(0, 1, &[100, 16, u32::MAX]);
    let (read, _) = lent::read_cluster(&record(&c), r).expect("a cluster");
    assert_eq!(read, c);
    let known = dezghuri::Cluster::from_record(&record(&c)).expect("a cluster");
    let capacities = known.nodes.iter().map(|node| node.capacity);
    assert!(capacities.eq([100, 16, u32::MAX]));
    assert_eq!(known.to_record(), record(&c));
}

/// The package counts by the same rule as the proved functions.
#[test]
fn the_package_has_the_same_rule() {
    for (capacity, usable) in KNOWN {
        let node = dezghuri::Node {
            id: 7,
            zone: 0,
            capacity,
            ceiling: Node::NO_CEILING,
        };
        assert_eq!(node.usable(), usable);
    }
}
