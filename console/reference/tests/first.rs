//! The first of the nearest layouts by the method of exchanges: against a listing of all layouts, and
//! by hand.

use reference::exchanges::{finished_from, layout, plan, Path};
use reference::listing::{each_valid, list, Listed};
use reference::random::Random;
use reference::{capacity_for, is_valid, sent, tied, Cluster, Layout, Node};

const PATHS: [Path; 2] = [Path::Searched, Path::Repeated];

/// Both paths come to the first layout at every allowance that finishes, with as many improvements as
/// the least of them, and with one less they are stopped; how many that is on the path of the proved
/// planner.
fn finishes_first(c: &Cluster, former: &Layout, listed: &Listed) -> u32 {
    let improvements = PATHS.map(|path| {
        let at = |allowance| plan(c, former, allowance, path).expect("a layout exists");
        let least = at(2048).improvements;
        for allowance in [least, least + 1, 2048] {
            let planned = at(allowance);
            assert!(planned.finished);
            assert_eq!(planned.improvements, least);
            assert_eq!(layout(c, &planned.rows), listed.first, "{c:?} {former:?}");
        }
        if least > 0 {
            let stopped = at(least - 1);
            assert!(!stopped.finished);
            assert_eq!(stopped.improvements, least - 1);
            let stopped = layout(c, &stopped.rows);
            assert!(is_valid(c, &stopped, listed.size));
            assert!(sent(&stopped, former) > listed.least_sent);
        }
        least
    });
    improvements[1]
}

/// From whichever of the nearest layouts a run has come to, it is ordered to the first.
fn ordered_from_all(c: &Cluster, former: &Layout, listed: &Listed) {
    each_valid(c, listed.size, |nearest| {
        if sent(nearest, former) == listed.least_sent {
            let ordered = finished_from(c, former, nearest);
            assert_eq!(ordered, listed.first, "{c:?} {former:?} {nearest:?}");
        }
    });
}

#[test]
fn the_first_of_all_nearest_layouts() {
    let mut r = Random::new(9);
    let (mut planned, mut several, mut improved) = (0, 0, 0);
    for _ in 0..10_000 {
        let (c, former) = tied::case(&mut r);
        let Some(listed) = list(&c, &former) else {
            continue;
        };
        planned += 1;
        several += u32::from(listed.nearest > 1);
        improved += u32::from(finishes_first(&c, &former, &listed) > 0);
        if planned % 20 == 0 {
            ordered_from_all(&c, &former, &listed);
        }
    }
    assert!(planned > 5000, "too few of the clusters have a layout");
    assert!(several * 2 > planned, "too few have several nearest ones");
    assert!(improved * 10 > planned, "too few of the layouts improve");
}

/// One copy of each of four partitions on four nodes that take one each.
fn one_each() -> Cluster {
    let node = |id| Node {
        id,
        zone: 1,
        capacity: capacity_for(100),
        ceiling: Node::NO_CEILING,
    };
    Cluster {
        bits: 2,
        replication: 1,
        redundancy: 1,
        nodes: (1..=4).map(node).collect(),
    }
}

/// Nothing is sent only where row 0 has node 1 or 2, row 1 node 2 or 3, row 2 node 1 or 3, and row 3
/// node 4: rows 1, 2, 3, 4 or rows 2, 3, 1, 4. To come from these to those, three rows change at once:
/// no two of them can swap their nodes without one that is sent.
#[test]
fn three_rows_change_at_once() {
    let former = vec![vec![1, 2], vec![2, 3], vec![1, 3], vec![4]];
    let later = vec![vec![2], vec![3], vec![1], vec![4]];
    let first = finished_from(&one_each(), &former, &later);
    assert_eq!(first, [[1], [2], [3], [4]]);
}

/// Row 0 was on node 2 alone and stays there, though node 1 comes before: what is sent counts first.
#[test]
fn nothing_is_sent_for_the_sake_of_order() {
    let former = vec![vec![2], vec![1], vec![3, 4], vec![3, 4]];
    let later = vec![vec![2], vec![1], vec![4], vec![3]];
    let first = finished_from(&one_each(), &former, &later);
    assert_eq!(first, [[2], [1], [3], [4]]);
}

/// The earliest row decides, and in it the leftmost ids: of two rows of two, row 0 gets nodes 1 and 2,
/// and row 1 what is left.
#[test]
fn the_earliest_row_and_the_leftmost_id_decide() {
    let mut c = one_each();
    (c.bits, c.replication) = (1, 2);
    let none = vec![Vec::new(); 2];
    for later in [[[2, 3], [1, 4]], [[1, 4], [2, 3]], [[3, 4], [1, 2]]] {
        let later = later.map(Vec::from).to_vec();
        assert_eq!(finished_from(&c, &none, &later), [[1, 2], [3, 4]]);
    }
}

/// Each node takes a copy of both rows. Node 4 is alone in its zone, so both rows need it, and it does
/// not give way to node 3, which comes before it.
#[test]
fn the_only_node_of_its_zone_stays() {
    let mut c = one_each();
    (c.bits, c.replication, c.redundancy) = (1, 3, 2);
    for node in &mut c.nodes {
        node.zone = u16::from(node.id == 4);
        node.capacity = capacity_for(200);
    }
    let none = vec![Vec::new(); 2];
    let planned = plan(&c, &none, 0, Path::Repeated).expect("a layout exists");
    assert_eq!((planned.size, planned.finished), (100, true));
    assert_eq!(layout(&c, &planned.rows), [[1, 2, 4], [1, 2, 4]]);
}
