//! The table of examples of document 01, with the copies to be sent as change request 2026-01 has
//! them, the size of A as 2026-02 has it, of several nearest layouts the first, as 2026-03 has it, and
//! the ceiling 256 for each node, as 2026-05 has it; the other numbers stay.

use crate::lent::{self, Planned};
use reference::cells::cells_of;
use reference::random::Random;
use reference::records::cluster_record;
use reference::{Cluster, Layout, Node};

/// A cluster of k, R, Z and of nodes as id, zone and capacity, without ceilings.
fn cluster(numbers: [u32; 3], nodes: &[(u32, u16, u32)]) -> Cluster {
    let node = |&(id, zone, capacity): &(u32, u16, u32)| Node {
        id,
        zone,
        capacity,
        ceiling: Node::NO_CEILING,
    };
    Cluster {
        bits: numbers[0],
        replication: numbers[1] as usize,
        redundancy: numbers[2] as usize,
        nodes: nodes.iter().map(node).collect(),
    }
}

fn planned(c: &Cluster, former: &[&[u32]]) -> Result<Planned, (u32, u64)> {
    let mut rows: Layout = former.iter().map(|row| row.to_vec()).collect();
    rows.resize(c.partitions(), Vec::new());
    let record = cluster_record(c, &rows);
    let planned = lent::plan(&record, 2048, &mut Random::new(1))?;
    assert!(planned.finished);
    Ok(planned)
}

/// Size and copies to be sent.
fn outcome(c: &Cluster, former: &[&[u32]]) -> Result<(u32, u32), (u32, u64)> {
    planned(c, former).map(|planned| (planned.size, planned.sent))
}

const THREE: [(u32, u16, u32); 3] = [(1, 1, 100), (2, 1, 70), (3, 2, 50)];
const FOUR: [(u32, u16, u32); 4] = [(1, 1, 9), (2, 1, 9), (3, 1, 9), (4, 2, 1)];

/// Nothing was there before, so all of three copies of two partitions are sent. Of 100, 70 and 50 MB
/// 94, 66 and 47 may be filled, each with both partitions: 23 MB is the most for node 3.
#[test]
fn a_b_three_copies_in_two_zones() {
    let a = planned(&cluster([1, 3, 2], &THREE), &[]).unwrap();
    let expected = Planned {
        size: 23,
        sent: 6,
        finished: true,
        improvements: 0,
        layout: vec![vec![1, 2, 3], vec![1, 2, 3]],
    };
    assert_eq!(a, expected);
    assert_eq!(outcome(&cluster([1, 3, 3], &THREE), &[]), Err((9, 0)));
}

#[test]
fn c_d_one_large_box_and_none() {
    let c = planned(&cluster([0, 1, 1], &[(1, 1, 5), (2, 1, 9)]), &[]).unwrap();
    assert_eq!((c.size, c.sent, c.layout), (9, 1, vec![vec![2]]));
    assert_eq!(outcome(&cluster([0, 1, 1], &[]), &[]), Err((9, 0)));
}

/// Of E both partitions go from node 2 to node 1. Of F each node takes one, so one of the two goes to
/// node 2: the second, since node 1 comes first in row 0. What a node then drops does not count.
#[test]
fn e_f_size_before_nearness() {
    let e = cluster([1, 1, 1], &[(1, 1, 10), (2, 1, 4)]);
    let e = planned(&e, &[&[2], &[2]]).unwrap();
    assert_eq!((e.size, e.sent), (5, 2));
    assert_eq!(e.layout, [[1], [1]]);
    let f = cluster([1, 1, 1], &[(1, 1, 10), (2, 1, 10)]);
    let f = planned(&f, &[&[1], &[1]]).unwrap();
    assert_eq!((f.size, f.sent), (10, 1));
    assert_eq!(f.layout, [[1], [2]]);
}

#[test]
fn g_sizes_are_whole() {
    let g = |capacity| outcome(&cluster([2, 1, 1], &[(1, 1, capacity)]), &[]);
    assert_eq!(g(3), Err((9, 0)));
    assert_eq!(g(4), Ok((1, 4)));
    assert_eq!(g(7), Ok((1, 4)));
    assert_eq!(g(8), Ok((2, 4)));
}

/// Of H the copy went with node 9, so it is sent to node 1. Of I both nodes have a copy, and the first
/// of them keeps it: nothing is sent.
#[test]
fn h_i_gone_nodes_and_long_former_rows() {
    let h = cluster([0, 1, 1], &[(1, 1, 10)]);
    assert_eq!(outcome(&h, &[&[9]]), Ok((10, 1)));
    let i = cluster([0, 1, 1], &[(1, 1, 5), (2, 1, 5)]);
    let i = planned(&i, &[&[1, 2]]).unwrap();
    assert_eq!((i.size, i.sent), (5, 0));
    assert_eq!(i.layout, [[1]]);
}

/// Of K node 4, in the other zone, has to get a copy, and of the three nodes that have one the first
/// two keep it; of L the row stays.
#[test]
fn k_l_zones_before_nearness() {
    let k = planned(&cluster([0, 3, 2], &FOUR), &[&[1, 2, 3]]).unwrap();
    assert_eq!((k.size, k.sent), (1, 1));
    assert_eq!(k.layout, [[1, 2, 4]]);
    let l = planned(&cluster([0, 3, 1], &FOUR), &[&[1, 2, 3]]).unwrap();
    assert_eq!((l.size, l.sent), (9, 0));
    assert_eq!(l.layout, [[1, 2, 3]]);
}

#[test]
fn m_faults_of_a_layout() {
    let r = &mut Random::new(1);
    let record = cluster_record(&cluster([0, 3, 2], &FOUR), &vec![vec![]]);
    let mut check = |row: [u32; 3], size| {
        let (refusal, _, place) = lent::check(&record, &cells_of(&vec![row.to_vec()]), size, r);
        (refusal, place)
    };
    assert_eq!(check([1, 2, 3], 1), (11, 0));
    assert_eq!(check([1, 1, 4], 1), (10, 0));
    assert_eq!(check([1, 2, 4], 2), (12, 4));
    assert_eq!(check([1, 2, 4], 1), (0, 0));
}

#[test]
fn n_records_without_a_cluster() {
    let r = &mut Random::new(1);
    assert_eq!(lent::read_cluster(&[], r), Err((7, 0)));
    assert_eq!(lent::read_cluster(&[1], r), Err((1, 0)));
    assert_eq!(lent::plan(&[], 0, r), Err((7, 0)));
    assert_eq!(lent::plan(&[1], 0, r), Err((1, 0)));
}

#[test]
fn the_record_of_a_has_57_bytes() {
    let record = cluster_record(&cluster([1, 3, 2], &THREE), &vec![vec![], vec![]]);
    let expected = [
        &[1, 0, 1, 1, 2, 0, 1, 3, 3, 0, 1, 2][..],
        &[4, 0, 12, 0, 0, 0, 1, 0, 1, 0, 0, 0, 100, 1, 0],
        &[4, 0, 12, 0, 0, 0, 2, 0, 1, 0, 0, 0, 70, 1, 0],
        &[4, 0, 12, 0, 0, 0, 3, 0, 2, 0, 0, 0, 50, 1, 0],
    ];
    assert_eq!(record, expected.concat());
    assert_eq!(record.len(), 57);
}
