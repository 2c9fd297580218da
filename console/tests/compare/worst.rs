//! The largest clusters: 256 partitions, eight copies, 32 nodes. Each call has to end in practice.

use crate::lent;
use dezghuri::ffi::LAYOUT_RECORD_BYTES;
use reference::cells::cells_of;
use reference::random::Random;
use reference::records::{cluster_record, read_layout, Numbers};
use reference::{capacity_for, exchanges, is_valid, report, sent, Cluster, Layout, Node};
use std::time::{Duration, Instant};

/// A call on the largest cluster takes some milliseconds; this is far beyond.
const PATIENCE: Duration = Duration::from_secs(20);

fn largest(redundancy: usize, zones: u32, capacity: impl Fn(u32) -> u32) -> Cluster {
    let node = |b: u32| Node {
        id: b + 1,
        zone: (b % zones) as u16,
        capacity: capacity(b),
        ceiling: Node::NO_CEILING,
    };
    Cluster {
        bits: 8,
        replication: 8,
        redundancy,
        nodes: (0..32).map(node).collect(),
    }
}

/// Just enough for 64 copies of 100 MB, which are a node's part of all 2,048.
fn just_enough(_: u32) -> u32 {
    capacity_for(6400)
}

/// Eight former copies in each row, drawn by lot.
fn drawn(r: &mut Random) -> Layout {
    let row = |r: &mut Random| {
        let mut ids: Vec<u32> = (1..=32).collect();
        while ids.len() > 8 {
            ids.remove(r.below(ids.len() as u64) as usize);
        }
        ids
    };
    (0..256).map(|_| row(r)).collect()
}

/// Each row eight nodes next to each other, far from any dealt row.
fn neighbours() -> Layout {
    let row = |p: u32| {
        let mut ids: Vec<u32> = (0..8).map(|i| (p * 5 + 3 * i) % 32 + 1).collect();
        ids.sort_unstable();
        ids
    };
    (0..256).map(row).collect()
}

fn ends(c: &Cluster, former: &Layout) {
    let known = report::plan(c, former).expect("a layout exists");
    let record = cluster_record(c, former);
    let begun = Instant::now();
    let planned = lent::plan(&record, 65_535, &mut Random::new(1)).expect("a layout exists");
    assert!(begun.elapsed() < PATIENCE, "{:?}", begun.elapsed());
    assert_eq!(u64::from(planned.size), known.size);
    assert!(is_valid(c, &planned.layout, known.size));
    assert!(planned.finished && planned.improvements <= 2048);
    assert_eq!(planned.sent as usize, sent(&known.layout, former));
    assert_eq!(planned.sent as usize, sent(&planned.layout, former));
    let first = exchanges::finished_from(c, former, &known.layout);
    assert_eq!(planned.layout, first, "from where the report's method ends");
}

#[test]
fn the_largest_clusters_end() {
    let mut r = Random::new(41);
    for zones in [32, 8] {
        for redundancy in [1, 5, 8] {
            ends(&largest(redundancy, zones, just_enough), &drawn(&mut r));
            ends(&largest(redundancy, zones, just_enough), &neighbours());
            ends(
                &largest(redundancy, zones, |b| 5000 + 97 * b),
                &drawn(&mut r),
            );
            ends(
                &largest(redundancy, zones, |b| u32::MAX - b),
                &drawn(&mut r),
            );
            ends(
                &largest(redundancy, zones, |b| 5000 + 97 * b),
                &vec![Vec::new(); 256],
            );
            let mut bound = largest(redundancy, zones, |b| 5000 + 97 * b);
            bound.nodes.iter_mut().for_each(|node| node.ceiling = 64);
            ends(&bound, &drawn(&mut r));
            bound
                .nodes
                .iter_mut()
                .step_by(2)
                .for_each(|n| n.ceiling = 70);
            ends(&bound, &neighbours());
        }
    }
}

/// All 2,048 copies are sent where there were none before, and where all former ones went with their
/// nodes; a layout record takes that number. All layouts are then nearest. In the first of them 64 rows
/// have nodes 1 to 8, one of each zone, until these have all copies that they take; then come 64 rows
/// of nodes 9 to 16, and so on.
#[test]
fn the_most_copies_are_sent_and_written() {
    let r = &mut Random::new(1);
    let c = largest(8, 8, just_enough);
    let eight = |p: u32| (p / 64 * 8 + 1..=p / 64 * 8 + 8).collect();
    let first: Layout = (0..256).map(eight).collect();
    for former in [vec![Vec::new(); 256], vec![(33..=40).collect(); 256]] {
        let planned = lent::plan(&cluster_record(&c, &former), 0, r).expect("a layout exists");
        assert_eq!((planned.sent, planned.finished), (2048, true));
        assert_eq!(planned.layout, first);
        let numbers = Numbers {
            bits: 8,
            replication: 8,
            size: planned.size,
            sent: 2048,
            verdict: 1,
            improvements: 0,
        };
        let cells = cells_of(&planned.layout);
        let record = lent::write_layout(&numbers, &cells, LAYOUT_RECORD_BYTES, r);
        let record = record.expect("a layout");
        assert_eq!(lent::read_layout(&record, r), Ok((numbers, cells)));
        assert_eq!(read_layout(&record), Ok((numbers, planned.layout)));
    }
}

/// The header promises both of every call; planning the largest cluster is the one that takes most, and each plan
/// is certified on the same stack, and asked for its worst loss: of eight copies no four nodes have all.
#[test]
fn threads_with_little_stack_call_at_once() {
    let (c, former) = (largest(4, 9, |b| 5000 + 97 * b), neighbours());
    let record = cluster_record(&c, &former);
    let expected = lent::plan(&record, 2048, &mut Random::new(1));
    std::thread::scope(|scope| {
        for seed in 0..4 {
            let (record, expected) = (&record, &expected);
            let called = move || {
                let r = &mut Random::new(seed);
                let planned = lent::plan(record, 2048, r);
                assert_eq!(&planned, expected);
                let cells = cells_of(&planned.expect("a layout exists").layout);
                let four = lent::worst_loss(record, &cells, 4, r);
                assert_eq!(four, Ok((0, vec![1, 2, 3, 4])));
            };
            let thread = std::thread::Builder::new().stack_size(64 * 1024);
            thread.spawn_scoped(scope, called).expect("a thread starts");
        }
    });
}
