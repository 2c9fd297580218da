//! A node was stolen: what is lost, what is planned in its place, and what has to be sent.
//!
//! `cargo run --example after_a_loss`

use dezghuri::{Cluster, Layout, Node, Refused, ENOUGH};

fn main() -> Result<(), Refused> {
    print!("{}", told()?);
    Ok(())
}

fn told() -> Result<String, Refused> {
    let node = |id, zone| Node {
        id,
        zone,
        capacity: 100,
        ceiling: Node::NO_CEILING,
    };
    // Nodes 1, 2 and 3 held two copies of each of four partitions; node 3 is gone, node 4 is new.
    let rows = [(0, [1, 2]), (1, [1, 3]), (2, [2, 3]), (3, [1, 2])];
    let cluster = Cluster {
        bits: 2,
        replication: 2,
        redundancy: 2,
        nodes: vec![node(1, 1), node(2, 2), node(4, 3)],
        former: Layout::from_iter(rows),
    };

    let losses = cluster.losses();
    let plan = cluster.plan(ENOUGH)?;
    let diff = cluster.former.diff(&plan.layout);
    let counts = cluster.counts(u64::from(plan.size) + 1);
    Ok(format!(
        "lost: {:?}, one copy left: {:?}\nsize {} MB, {} copies to be sent, to node 4: {}\n\
         at one megabyte more there would be room for {} of {} copies\n",
        losses.none_left,
        losses.one_left,
        plan.size,
        plan.sent,
        diff.node(4).received.len(),
        counts.room,
        counts.wanted,
    ))
}

/// Three disks of 100 MB, of which 94 may be filled, take three copies of 31 MB each, enough for eight,
/// and two of 32 MB. Node 4 can take partitions 1 and 2, which need a copy, and nothing else has to move.
#[test]
fn it_runs() {
    let expected = "lost: [], one copy left: [1, 2]\n\
                    size 31 MB, 2 copies to be sent, to node 4: 2\n\
                    at one megabyte more there would be room for 6 of 8 copies\n";
    assert_eq!(told().unwrap(), expected);
}
