//! Changes prepared before planning: what they would come to, and the way back.
//!
//! `cargo run --example staged`

use dezghuri::{Change, Cluster, Node, Refused, ENOUGH};

fn main() -> Result<(), Refused> {
    print!("{}", told()?);
    Ok(())
}

fn told() -> Result<String, Refused> {
    let node = |id, zone, capacity| Node {
        id,
        zone,
        capacity,
        ceiling: Node::NO_CEILING,
    };
    let mut cluster = Cluster {
        bits: 2,
        replication: 2,
        redundancy: 2,
        nodes: vec![node(1, 1, 64), node(2, 2, 64)],
        ..Cluster::default()
    };
    let now = cluster.plan(ENOUGH)?.size;

    // Node 3 is lent, node 2 gets a larger disk, and node 7 has never been there.
    let changes = [
        Change::Add(node(3, 1, 64)),
        Change::Resize {
            id: 2,
            capacity: 128,
        },
        Change::Remove(7),
    ];
    let staged = cluster.change_all(&Change::record(&changes));
    let refused = staged.refused.map(|refused| refused.to_string());
    let then = cluster.plan(ENOUGH)?.size;

    // The reverses stand in the record in backward order, so it is made as any other.
    let undone = cluster.change_all(&staged.undo);
    let again = cluster.plan(ENOUGH)?.size;
    Ok(format!(
        "size {now} MB now, {then} MB with the changes\nleft out: {}\n\
         undone: {}, size {again} MB again\n",
        refused.unwrap_or("nothing".into()),
        undone.refused.is_none(),
    ))
}

/// Each zone has to hold four partitions. Of 64 MB 60 may be filled, by four of 15 MB; of two such disks and
/// one of 128 MB, 120 on either side, by four of 30 MB. The third change begins at byte 15 + 11.
#[test]
fn it_runs() {
    let expected = "size 15 MB now, 30 MB with the changes\n\
                    left out: an id to be removed or resized that is not there, at byte 26 (refused 14)\n\
                    undone: true, size 15 MB again\n";
    assert_eq!(told().unwrap(), expected);
}
