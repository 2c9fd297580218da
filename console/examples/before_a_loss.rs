//! What could be lost: the most that two nodes can cost, and what each house costs that burns down.
//!
//! `cargo run --example before_a_loss`

use dezghuri::{Cluster, Layout, Node, Refused, ENOUGH};

fn main() -> Result<(), Refused> {
    print!("{}", told()?);
    Ok(())
}

fn told() -> Result<String, Refused> {
    // Nodes 1 and 2 stand in one house, 3 and 4 in the other; the zone of a node is its house.
    let node = |id, zone| Node {
        id,
        zone,
        capacity: 100,
        ceiling: Node::NO_CEILING,
    };
    let nodes = vec![node(1, 1), node(2, 1), node(3, 2), node(4, 2)];
    let mut told = String::new();
    for redundancy in [1, 2] {
        let cluster = Cluster {
            bits: 2,
            replication: 2,
            redundancy,
            nodes: nodes.clone(),
            former: Layout::default(),
        };
        let layout = cluster.plan(ENOUGH)?.layout;
        let worst = cluster.worst_loss(&layout, 2)?;
        let (lost, ids) = (worst.lost, worst.nodes);
        told +=
            &format!("in {redundancy} of 2 houses: nodes {ids:?} cost {lost} partitions of 4\n");
        for (house, ids) in [(1, [1, 2]), (2, [3, 4])] {
            let lost = cluster.loss(&layout, &ids)?;
            told += &format!("  house {house} costs {lost}\n");
        }
    }
    Ok(told)
}

/// Each node takes two of the eight copies. The first layout has nodes 1 and 2 in the rows of two partitions and 3
/// and 4 in the others, so that a house costs two; with copies in both houses 1 and 3 in two rows, and 2 and 4.
#[test]
fn it_runs() {
    let expected = "in 1 of 2 houses: nodes [1, 2] cost 2 partitions of 4\n  house 1 costs 2\n  house 2 costs 2\n\
                    in 2 of 2 houses: nodes [1, 3] cost 2 partitions of 4\n  house 1 costs 0\n  house 2 costs 0\n";
    assert_eq!(told().unwrap(), expected);
}
