//! Why a plan is the best there is: a price for each node, and sums that anybody can check.
//!
//! `cargo run --example certify`

use dezghuri::{Cluster, Layout, Node, Refused, ENOUGH};

fn main() -> Result<(), Refused> {
    print!("{}", told()?);
    Ok(())
}

fn told() -> Result<String, Refused> {
    let node = |id, capacity| Node {
        id,
        zone: 1,
        capacity,
        ceiling: Node::NO_CEILING,
    };
    // Nodes 1 and 2 held two partitions each; node 3 is new.
    let cluster = Cluster {
        bits: 2,
        nodes: vec![node(1, 10), node(2, 10), node(3, 22)],
        former: Layout::from_iter([(0, [1]), (1, [1]), (2, [2]), (3, [2])]),
        ..Cluster::default()
    };
    let plan = cluster.plan(ENOUGH)?;

    // It takes a layout from anywhere, and refuses one that is not the best.
    let certificate = cluster.certify(&plan.layout, plan.size)?;
    let mut told = format!("size {} MB\n", certificate.size);
    let nodes = cluster.nodes.iter().zip(&certificate.prices);
    for ((node, price), room) in nodes.zip(&certificate.rooms) {
        told += &format!("node {}: price {price}, room {room}\n", node.id);
    }
    for line in certificate.sheet() {
        let (partitions, cost) = (line.partitions, line.cost());
        told += &format!("{partitions} partitions at {cost}: {}\n", line.together());
    }
    let (low, takings) = (certificate.low(), certificate.takings());
    let (least, sent) = (low - takings, certificate.sent);
    told += &format!("{low} - {takings} = {least}: this layout sends {sent}\n");
    Ok(told)
}

/// At 10 MB nodes 1 and 2 have room for one partition each, node 3 for two in 21 of its 22 MB; so two have to be
/// sent. With prices of 1 for nodes 1 and 2 each partition costs 1, wherever it lies.
#[test]
fn it_runs() {
    let expected = "size 10 MB\n\
                    node 1: price 1, room 1\n\
                    node 2: price 1, room 1\n\
                    node 3: price 0, room 2\n\
                    2 partitions at 1: 2\n\
                    2 partitions at 1: 2\n\
                    4 - 2 = 2: this layout sends 2\n";
    assert_eq!(told().unwrap(), expected);
}
