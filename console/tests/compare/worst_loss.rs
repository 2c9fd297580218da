//! The worst loss of so many nodes and the loss of given ones, against a listing of all sets of nodes; their
//! refusals, which are those of check at size 1, and their buffers.

use crate::clusters::{self, Kind, LARGE, MEDIUM, SMALL};
use crate::lent;
use crate::moves::{alter, alter_cluster, some_layout, some_row};
use crate::records::damaged;
use crate::{soak_factor, soak_seed};
use reference::cells::cells_of;
use reference::losses::{self, listed, lost, worst};
use reference::random::Random;
use reference::records::cluster_record;
use reference::{is_valid, Cluster, Layout, Node};
use std::collections::BTreeSet;

/// A layout in which few different rows stand for all partitions, so that few nodes can cost much.
fn clumped(c: &Cluster, r: &mut Random) -> Option<Layout> {
    let rows: Option<Vec<Vec<u32>>> = (0..r.between(1, 6)).map(|_| some_row(c, r)).collect();
    let rows = rows?;
    let mut row = || rows[r.below(rows.len() as u64) as usize].clone();
    let layout = (0..c.partitions()).map(|_| row()).collect();
    is_valid(c, &layout, 1).then_some(layout)
}

/// All ids so much higher, up to the highest there can be.
fn raise(c: &mut Cluster, layout: &mut Layout, r: &mut Random) {
    let last = c.nodes.last().map_or(0, |node| node.id);
    let highest = u64::from(u32::MAX - last);
    let more = if r.chance(50) {
        highest
    } else {
        r.between(0, highest)
    } as u32;
    c.nodes.iter_mut().for_each(|node| node.id += more);
    layout.iter_mut().flatten().for_each(|id| *id += more);
}

/// A cluster with a layout that is valid at size 1: a plan, any that is drawn, or one of few rows.
fn some_case(kind: Kind, r: &mut Random) -> (Cluster, Layout) {
    loop {
        let mut c = clusters::cluster(kind, r);
        if r.chance(60) {
            for node in &mut c.nodes {
                (node.capacity, node.ceiling) = (u32::MAX, Node::NO_CEILING);
            }
        }
        let few = r.chance(40).then(|| clumped(&c, r)).flatten();
        if let Some(layout) = few.or_else(|| some_layout(&c, r)) {
            return (c, layout);
        }
    }
}

/// Ids in any order, at times none, at times more than once, at times of no node.
fn some_ids(c: &Cluster, r: &mut Random) -> Vec<u32> {
    let some_id = |r: &mut Random| match r.below(8) {
        0 => 0,
        1 => r.number() as u32,
        _ => {
            let id = c.nodes[r.below(c.nodes.len() as u64) as usize].id;
            id.wrapping_add(r.below(8) as u32 / 7)
        }
    };
    let most = if r.chance(20) { 100 } else { 12 };
    (0..r.below(most)).map(|_| some_id(r)).collect()
}

/// What was seen of random cases.
#[derive(Debug, Default)]
struct Seen {
    /// Questions about the worst loss, those of them that cost something, whose nodes are not the lowest of all,
    /// and of whose sets several cost as much.
    worst: u64,
    costly: u64,
    higher: u64,
    tied: u64,
    /// Questions about given nodes, and those of them that cost something, but not all.
    given: u64,
    part: u64,
}

impl Seen {
    /// Every number of nodes that can be asked for, and those that cannot.
    fn try_worst(&mut self, c: &Cluster, layout: &Layout, r: &mut Random) {
        let (record, cells) = (cluster_record(c, &vec![]), cells_of(layout));
        let most = losses::MOST_LOST.min(c.nodes.len() as u32);
        for number in 0..=most {
            let listed = listed(c, layout, number);
            let expected = worst(&listed);
            let answered = lent::worst_loss(&record, &cells, number, r);
            assert_eq!(answered.as_ref(), Ok(expected), "{c:?} {layout:?}");
            let lowest = c.nodes.iter().map(|node| node.id).take(number as usize);
            let as_costly = listed.iter().filter(|(lost, _)| *lost == expected.0);
            self.worst += 1;
            self.costly += u64::from(expected.0 > 0);
            self.higher += u64::from(!lowest.eq(expected.1.iter().copied()));
            self.tied += u64::from(expected.0 > 0 && as_costly.count() > 1);
        }
        for number in most + 1..=5 {
            let answered = lent::worst_loss(&record, &cells, number, r);
            assert_eq!(answered, Err((4, 0, 0)), "{number}: {c:?}");
        }
    }

    /// Some ids, those of each zone, none, and all.
    fn try_given(&mut self, c: &Cluster, layout: &Layout, r: &mut Random) {
        let (record, cells) = (cluster_record(c, &vec![]), cells_of(layout));
        let zones: BTreeSet<u16> = c.nodes.iter().map(|node| node.zone).collect();
        let of_zone = |zone: u16| {
            let nodes = c.nodes.iter().filter(move |node| node.zone == zone);
            nodes.map(|node| node.id).collect()
        };
        let mut lists: Vec<Vec<u32>> = zones.into_iter().map(of_zone).collect();
        lists.extend((0..6).map(|_| some_ids(c, r)));
        for ids in lists {
            let expected = lost(layout, &ids);
            let answered = lent::loss(&record, &cells, &ids, r);
            assert_eq!(answered, Ok(expected), "{ids:?} {c:?} {layout:?}");
            self.given += 1;
            self.part += u64::from(expected > 0 && expected < layout.len() as u32);
        }
        let all: Vec<u32> = c.nodes.iter().rev().map(|node| node.id).collect();
        let partitions = c.partitions() as u32;
        assert_eq!(lent::loss(&record, &cells, &all, r), Ok(partitions));
        assert_eq!(lent::loss(&record, &cells, &[], r), Ok(0));
    }
}

fn try_losses(seed: u64, cases: u64, kind: Kind) -> Seen {
    let mut r = Random::new(seed);
    let mut seen = Seen::default();
    for _ in 0..cases {
        let (mut c, mut layout) = some_case(kind, &mut r);
        if r.chance(30) {
            raise(&mut c, &mut layout, &mut r);
        }
        seen.try_worst(&c, &layout, &mut r);
        seen.try_given(&c, &layout, &mut r);
    }
    seen
}

#[test]
fn losses_are_those_of_all_sets_listed() {
    for (seed, cases, kind) in [(181, 2000, SMALL), (182, 300, MEDIUM), (183, 40, LARGE)] {
        let seen = try_losses(seed, cases, kind);
        let enough = [
            (seen.costly, seen.worst, 5),
            (seen.higher, seen.worst, 10),
            (seen.tied, seen.worst, 30),
            (seen.part, seen.given, 20),
        ];
        let is_enough = |(some, all, part): &(u64, u64, u64)| some * part > *all;
        assert!(enough.iter().all(is_enough), "{seen:?}");
    }
}

/// 32 nodes and 256 partitions with every number of copies, in every number of zones. As many nodes as there are
/// copies cost something: for one copy four of the numbers do, for two three, for three two, for four one.
fn try_largest(seed: u64) {
    let mut r = Random::new(seed);
    let mut seen = Seen::default();
    for replication in 1..=8 {
        for redundancy in 1..=replication {
            let node = |b: u32| Node {
                id: 3 * b + 2,
                zone: (b % 9) as u16,
                capacity: r.between(100, 900) as u32,
                ceiling: Node::NO_CEILING,
            };
            let c = Cluster {
                bits: 8,
                replication,
                redundancy,
                nodes: (0..32).map(node).collect(),
            };
            let record = cluster_record(&c, &clusters::former(&c, &mut r));
            let plan = lent::plan(&record, r.below(2049) as u16, &mut r);
            let layout = plan.expect("there is room").layout;
            seen.try_worst(&c, &layout, &mut r);
            seen.try_given(&c, &layout, &mut r);
        }
    }
    assert_eq!(seen.worst, 36 * 5);
    assert_eq!(seen.costly, 4 + 2 * 3 + 3 * 2 + 4, "{seen:?}");
    assert!(seen.higher > 10, "{seen:?}");
}

#[test]
fn the_largest_layouts_lose_what_is_listed() {
    try_largest(184);
}

/// A record and cells, with faults at times in each of them.
fn some_call(r: &mut Random) -> (Vec<u8>, Vec<u32>) {
    let kind = [SMALL, MEDIUM][r.below(2) as usize];
    let (mut c, layout) = some_case(kind, r);
    let mut cells = cells_of(&layout);
    cells.extend(lent::pattern(r.below(4) as usize, r));
    if r.chance(20) {
        alter(&mut cells, 8 * c.partitions(), 2048, r);
    }
    alter_cluster(&mut c, r);
    let mut record = cluster_record(&c, &clusters::former(&c, r));
    if r.chance(20) {
        record = damaged(record, r);
    }
    if r.chance(2) {
        record.truncate(4 * r.below(3) as usize);
    }
    if r.chance(6) {
        cells.truncate(2048 - r.between(1, 3) as usize);
    }
    (record, cells)
}

/// Calls, most of them with a fault or several; how many had each refusal. But for that of a bad number all
/// refusals are those of the proved check, too.
fn try_calls(seed: u64, cases: u64) -> [u64; 13] {
    let mut r = Random::new(seed);
    let mut refusals = [0; 13];
    for _ in 0..cases {
        let (record, cells) = some_call(&mut r);
        let wide = |(refusal, byte, place): losses::Refused| (refusal, byte as u64, place);
        let checked = match lent::check(&record, &cells, 1, &mut r) {
            (0, 0, 0) => Ok(()),
            refused => Err(refused),
        };
        let number = match r.below(4) {
            0 => 5 + r.number() as u32 / 2 * r.below(2) as u32,
            _ => r.below(6) as u32,
        };
        let answered = lent::worst_loss(&record, &cells, number, &mut r);
        let expected = losses::worst_answer(&record, &cells, number);
        assert_eq!(answered, expected.map_err(wide), "{number}");
        let refused = answered.map(|_| ());
        assert!(refused == checked || refused == Err((4, 0, 0)));
        refusals[refused.err().map_or(0, |(refusal, ..)| refusal as usize)] += 1;

        let ids: Vec<u32> = (0..r.below(9)).map(|_| r.below(20) as u32).collect();
        let answered = lent::loss(&record, &cells, &ids, &mut r);
        let expected = losses::answer(&record, &cells, &ids);
        assert_eq!(answered, expected.map_err(wide), "{ids:?}");
        assert_eq!(answered.map(|_| ()), checked);
    }
    refusals
}

#[test]
fn refusals_are_those_of_check_and_of_the_number() {
    let refusals = try_calls(185, 8000);
    for refusal in [0, 1, 2, 3, 4, 5, 6, 7, 8, 10, 11, 12] {
        assert!(refusals[refusal] > 30, "{refusal}: {refusals:?}");
    }
}

/// The Rust package names what the C functions answer.
#[test]
fn the_package_has_the_same_losses() {
    let mut r = Random::new(186);
    for _ in 0..300 {
        let (c, rows) = some_case(SMALL, &mut r);
        let known = dezghuri::Cluster::from_record(&cluster_record(&c, &vec![])).unwrap();
        let layout: dezghuri::Layout = (0..).zip(&rows).collect();
        for number in 0..=losses::MOST_LOST.min(c.nodes.len() as u32) {
            let answered = known.worst_loss(&layout, number).expect("it is valid");
            let expected = listed(&c, &rows, number);
            assert_eq!(&(answered.lost, answered.nodes), worst(&expected));
        }
        let ids = some_ids(&c, &mut r);
        assert_eq!(known.loss(&layout, &ids), Ok(lost(&rows, &ids)));
    }
}

#[test]
#[ignore = "make soak"]
fn soak_losses() {
    try_losses(soak_seed(187), 2000 * soak_factor(), SMALL);
    try_losses(soak_seed(188), 300 * soak_factor(), MEDIUM);
    try_losses(soak_seed(189), 40 * soak_factor(), LARGE);
    (0..soak_factor()).for_each(|more| try_largest(soak_seed(190) + (more << 32)));
    try_calls(soak_seed(191), 8000 * soak_factor());
}
