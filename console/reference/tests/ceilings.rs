//! Ceilings, worked out by hand, by each of the unverified programs alike.

use reference::cells::{cells_of, check, hope};
use reference::exchanges::{self, Path};
use reference::records::{cluster_record, read_cluster};
use reference::{is_valid, listing, report, sent, Cluster, Layout, Node};

/// A cluster of k, R, Z and of nodes as id, zone, capacity and ceiling.
fn cluster(numbers: [u32; 3], nodes: &[(u32, u16, u32, u16)]) -> Cluster {
    let node = |&(id, zone, capacity, ceiling): &(u32, u16, u32, u16)| Node {
        id,
        zone,
        capacity,
        ceiling,
    };
    Cluster {
        bits: numbers[0],
        replication: numbers[1] as usize,
        redundancy: numbers[2] as usize,
        nodes: nodes.iter().map(node).collect(),
    }
}

/// Size, copies to be sent and the first layout, as the listing and the method of exchanges have them;
/// the report's method comes to one of the nearest. Nothing where there is no layout.
fn planned(c: &Cluster, former: &Layout) -> Option<(u64, usize, Layout)> {
    let listed = listing::list(c, former);
    let flow = report::plan(c, former);
    let exchanged = exchanges::plan(c, former, 2048, Path::Repeated);
    let (Some(listed), Some(flow), Some(exchanged)) = (&listed, &flow, &exchanged) else {
        assert!(listed.is_none() && flow.is_none() && exchanged.is_none());
        return None;
    };
    assert_eq!(
        (flow.size, u64::from(exchanged.size)),
        (listed.size, listed.size)
    );
    assert!(is_valid(c, &flow.layout, listed.size));
    assert_eq!(sent(&flow.layout, former), listed.least_sent);
    assert_eq!(exchanges::layout(c, &exchanged.rows), listed.first);
    Some((listed.size, listed.least_sent, listed.first.clone()))
}

/// Of 10 and 99 MB 10 and 93 may be filled, but node 2 may hold nothing.
#[test]
fn a_ceiling_of_0_holds_nothing_and_limits_nothing_else() {
    let c = |ceiling| cluster([1, 1, 1], &[(1, 1, 10, 256), (2, 1, 99, ceiling)]);
    let former = vec![vec![2], vec![2]];
    let expected = (5, 2, vec![vec![1], vec![1]]);
    assert_eq!(planned(&c(0), &former), Some(expected));
    assert_eq!(planned(&c(256), &former), Some((46, 0, former.clone())));
}

/// The disk of 100 MB would take two partitions of 47 MB.
#[test]
fn there_is_no_layout_by_ceilings_alone() {
    let one = |ceiling| {
        planned(
            &cluster([1, 1, 1], &[(1, 1, 100, ceiling)]),
            &vec![vec![]; 2],
        )
    };
    assert_eq!((one(0), one(1)), (None, None));
    let expected = (47, 2, vec![vec![1], vec![1]]);
    assert_eq!(one(2), Some(expected.clone()));
    assert_eq!(one(256), Some(expected));
}

/// Example L, whose row 1 2 3 of 9 MB lies in one zone. With a ceiling of 0 for node 3 node 4, in the
/// other zone and of 1 MB, has to take a copy.
#[test]
fn a_ceiling_forces_another_zone() {
    let c = |ceiling| {
        let nodes = [
            (1, 1, 9, 256),
            (2, 1, 9, 256),
            (3, 1, 9, ceiling),
            (4, 2, 1, 256),
        ];
        cluster([0, 3, 1], &nodes)
    };
    let former = vec![vec![1, 2, 3]];
    assert_eq!(planned(&c(1), &former), Some((9, 0, former.clone())));
    assert_eq!(planned(&c(0), &former), Some((1, 1, vec![vec![1, 2, 4]])));
}

/// Of 47 MB 45 may be filled: at 15 MB node 1 takes the three copies that it had. With a ceiling of 2
/// one of them is sent to node 3, the last of the three by the order of rows.
#[test]
fn a_ceiling_makes_more_be_sent() {
    let c = |ceiling| {
        cluster(
            [2, 1, 1],
            &[(1, 1, 47, ceiling), (2, 1, 15, 256), (3, 1, 15, 256)],
        )
    };
    let former = vec![vec![1], vec![1], vec![1], vec![2]];
    assert_eq!(planned(&c(3), &former), Some((15, 0, former.clone())));
    let expected = vec![vec![1], vec![1], vec![3], vec![2]];
    assert_eq!(planned(&c(2), &former), Some((15, 1, expected)));
}

/// A ceiling of 256 is legal for one partition too; one above is refused at the byte of its node.
#[test]
fn ceilings_are_0_to_256() {
    let read = |ceiling| {
        let c = cluster([0, 1, 1], &[(1, 1, 5, 256), (2, 1, 9, ceiling)]);
        let read = read_cluster(&cluster_record(&c, &vec![vec![]]));
        read.map(|(read, _)| assert_eq!(read, c))
    };
    assert_eq!([0, 1, 255, 256].map(read), [Ok(()); 4]);
    assert_eq!([257, 512, u16::MAX].map(read), [Err((4, 27)); 3]);
    let c = cluster([0, 1, 1], &[(1, 1, 5, 256), (2, 1, 9, 256)]);
    assert_eq!(planned(&c, &vec![vec![]]), Some((9, 1, vec![vec![2]])));
}

/// A node of the older ten bytes has a wrong length, also where the record ends within it.
#[test]
fn a_node_has_twelve_bytes() {
    let head = [1, 0, 1, 0, 2, 0, 1, 1, 3, 0, 1, 1];
    let node = [4, 0, 10, 0, 0, 0, 1, 0, 1, 0, 0, 0, 9];
    for end in 3..=node.len() {
        let record = [&head[..], &node[..end]].concat();
        assert_eq!(read_cluster(&record), Err((3, 12)), "{end}");
    }
    let twelve = [4, 0, 12, 0, 0, 0, 1, 0, 1, 0, 0, 0, 9, 1, 0];
    for end in 3..twelve.len() {
        let record = [&head[..], &twelve[..end]].concat();
        assert_eq!(read_cluster(&record), Err((1, 12)), "{end}");
    }
    assert!(read_cluster(&[&head[..], &twelve].concat()).is_ok());
}

/// Nodes are looked at in order, capacity and ceiling of each together, after all rows.
#[test]
fn check_refuses_a_ceiling_that_is_passed() {
    let c = |first, second| cluster([1, 2, 1], &[(7, 1, 20, first), (8, 1, 10, second)]);
    let cells = cells_of(&vec![vec![7, 8]; 2]);
    assert_eq!(check(&c(2, 2), &cells, 5), (0, 0));
    assert_eq!(check(&c(2, 2), &cells, 6), (12, 8));
    assert_eq!(check(&c(2, 1), &cells, 1), (12, 8));
    assert_eq!(check(&c(1, 2), &cells, 6), (12, 7));
    assert_eq!(
        check(&c(1, 1), &cells_of(&vec![vec![7, 8], vec![7, 7]]), 1),
        (10, 1)
    );
    assert_eq!(hope(&c(0, 0)), hope(&c(256, 256)), "ceilings play no part");
}
