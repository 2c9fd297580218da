//! The losses by sets in one word against those by listing.

use reference::cells::{cells_of, CELLS};
use reference::losses::{answer, loss_record, worst_answer, worst_loss_record};
use reference::random::Random;
use reference::records::cluster_record;
use reference::{Cluster, Layout, Node};
use std::collections::BTreeSet;

/// A cluster of up to twelve nodes and a row of different nodes for each partition, valid or not.
fn drawn(r: &mut Random) -> (Cluster, Layout) {
    let number = r.between(1, 12);
    let replication = r.between(1, number.min(4)) as usize;
    let mut id = 0;
    let node = |_| {
        id += r.between(1, 9) as u32;
        Node {
            id,
            zone: r.below(4) as u16,
            capacity: r.between(10, 80) as u32,
            ceiling: Node::NO_CEILING,
        }
    };
    let nodes = (0..number).map(node).collect();
    let c = Cluster {
        bits: r.between(0, 5) as u32,
        replication,
        redundancy: r.between(1, 2).min(replication as u64) as usize,
        nodes,
    };
    let mut row = || {
        let mut ids = BTreeSet::new();
        while ids.len() < replication {
            ids.insert(c.nodes[r.below(number) as usize].id);
        }
        ids.into_iter().collect()
    };
    let rows = (0..c.partitions()).map(|_| row()).collect();
    (c, rows)
}

#[test]
fn words_count_as_lists_do() {
    let mut r = Random::new(11);
    let (mut refusals, mut costly) = ([0; 13], 0);
    for _ in 0..3000 {
        let (c, rows) = drawn(&mut r);
        let record = cluster_record(&c, &vec![]);
        let mut cells = cells_of(&rows);
        if r.chance(10) {
            cells[r.below(CELLS as u64) as usize] = r.below(40) as u32;
        }
        for number in 0..=5 {
            let listed = worst_answer(&record, &cells, number);
            let quick = worst_loss_record(&record, &cells, number);
            refusals[quick.err().unwrap_or(0) as usize] += 1;
            costly += u32::from(quick.is_ok_and(|(lost, _)| lost > 0));
            let padded = listed.map(|(lost, ids)| {
                let id = |i: usize| ids.get(i).copied().unwrap_or(0);
                (lost, [0, 1, 2, 3].map(id))
            });
            assert_eq!(quick, padded.map_err(|(refusal, ..)| refusal), "{c:?}");
        }
        let ids: Vec<u32> = (0..r.below(14)).map(|_| r.below(60) as u32).collect();
        let listed = answer(&record, &cells, &ids).map_err(|(refusal, ..)| refusal);
        assert_eq!(loss_record(&record, &cells, &ids), listed, "{c:?} {ids:?}");
    }
    let met = [0, 4, 10, 11, 12].map(|refusal| refusals[refusal]);
    assert!(met.iter().all(|n| *n > 300), "{refusals:?}");
    assert!(
        costly > 1000,
        "too few of the losses cost anything: {costly}"
    );
}
