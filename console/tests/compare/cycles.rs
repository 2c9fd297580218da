//! Two cases that chance hardly ever makes: a cycle that has to be split, and an improvement that a
//! search of 4N + 1 rounds does not find.

use crate::lent;
use reference::random::Random;
use reference::records::cluster_record;
use reference::{capacity_for, exchanges, is_valid, listing, report, sent, Cluster, Layout, Node};

/// Found by a search through millions of small clusters.
fn split_case() -> (Cluster, Layout) {
    let nodes = [
        (1, 2, 2),
        (2, 1, 1),
        (3, 1, 1),
        (4, 4, 1),
        (5, 0, 1),
        (6, 2, 2),
        (7, 0, 1),
    ];
    let node = |(id, zone, capacity)| Node {
        id,
        zone,
        capacity,
        ceiling: Node::NO_CEILING,
    };
    let c = Cluster {
        bits: 1,
        replication: 4,
        redundancy: 3,
        nodes: nodes.map(node).to_vec(),
    };
    (c, vec![vec![2, 4, 5, 6, 7], vec![2, 4]])
}

#[test]
fn a_cycle_is_split_where_its_exchanges_would_spoil_a_row() {
    let (c, former) = split_case();
    let splits = exchanges::splits(&c, &former);
    assert_eq!(
        (splits.split, splits.needed),
        (1, 1),
        "the case does its duty"
    );
    let listed = listing::list(&c, &former).expect("a layout exists");
    let r = &mut Random::new(1);
    let record = cluster_record(&c, &former);
    for allowance in 0..=splits.cycles as u16 + 1 {
        let planned = lent::plan(&record, allowance, r).expect("a layout exists");
        assert_eq!(u64::from(planned.size), listed.size);
        assert!(
            is_valid(&c, &planned.layout, listed.size),
            "allowance {allowance}"
        );
        assert_eq!(planned.sent as usize, sent(&planned.layout, &former));
    }
    let planned = lent::plan(&record, 2048, r).expect("a layout exists");
    assert_eq!(planned.sent as usize, listed.least_sent);
    assert_eq!(planned.layout, listed.first);
}

/// A chain through 30 of 32 nodes, each step of which takes six arcs in the report's graph.
///
/// Zone A has fourteen small nodes a and a large one, zone B a large one and fifteen small nodes b,
/// zone C one node in every row. The dealt beginning gives each small node one partition: the row
/// of an a has the large node of B in it, the row of a b that of A, so that in either row a small
/// node of the other zone would stand in a zone that is covered already. Every such row had one
/// small node of the other zone more before: the row of b0 had a0, that of a0 had b1, that of b1 had
/// a1, and so on; and one row had b0 where it now has the large node of A. Only by moving along the
/// whole chain, up to the last b, which has room, does that row get b0 back, and nothing is sent.
fn chain() -> (Cluster, Layout) {
    const SIZE: u32 = 100;
    let small = |n: usize, zone: u16| std::iter::repeat_n((zone, 1), n);
    let mut room: Vec<(u16, u32)> = small(14, 1).chain([(1, 18), (2, 17)]).collect();
    room.extend(small(14, 2).chain([(2, 2), (3, 32)]));
    let node = |((zone, copies), id)| Node {
        id,
        zone,
        capacity: capacity_for(copies * SIZE),
        ceiling: Node::NO_CEILING,
    };
    let nodes: Vec<Node> = room.into_iter().zip(1..).map(node).collect();
    let c = Cluster {
        bits: 5,
        replication: 3,
        redundancy: 2,
        nodes,
    };
    let (a, b) = (|i: u32| 1 + i, |i: u32| 17 + i);
    let (large_a, large_b, in_all) = (15, 16, 32);
    let mut former: Layout = Vec::new();
    for p in 0..32 {
        former.push(match p {
            0..14 => vec![a(p), large_b, b(p + 1), in_all],
            14 => vec![large_b, b(0), in_all],
            15 | 16 => vec![large_a, large_b, in_all],
            17..31 => vec![a(p - 17), large_a, b(p - 17), in_all],
            _ => vec![large_a, b(14), in_all],
        });
    }
    (c, former)
}

#[test]
fn the_chain_is_found_that_4n_plus_1_rounds_miss() {
    let (c, former) = chain();
    let r = &mut Random::new(1);
    let record = cluster_record(&c, &former);
    let first = lent::plan(&record, 0, r).expect("a layout exists");
    assert_eq!((first.size, first.sent, first.finished), (100, 1, false));

    let rounds = 4 * c.nodes.len() + 1;
    let cut = report::improve_cut(&c, &former, 100, &first.layout, rounds);
    assert_eq!(sent(&cut, &former), 1, "the cut search finds nothing");
    let uncut = report::improve_cut(&c, &former, 100, &first.layout, 6 * c.nodes.len());
    assert_eq!(sent(&uncut, &former), 0, "more rounds find the chain");

    let planned = lent::plan(&record, 2048, r).expect("a layout exists");
    assert_eq!((planned.sent, planned.finished), (0, true));
    assert_eq!(planned.improvements, 1);
    assert!(is_valid(&c, &planned.layout, 100));
}
