//! Plans a small cluster for the first time, keeps the layout as a record, and reads it back.
//!
//! `cargo run --example first_plan`

use dezghuri::{Cluster, Node, Plan, Refused, ENOUGH};

fn main() -> Result<(), Refused> {
    print!("{}", told()?);
    Ok(())
}

fn told() -> Result<String, Refused> {
    let node = |id, zone, capacity| Node {
        id,
        zone,
        capacity,
        ceiling: Node::NO_CEILING,
    };
    let cluster = Cluster {
        bits: 1,
        replication: 3,
        redundancy: 2,
        nodes: vec![node(1, 1, 100), node(2, 1, 70), node(3, 2, 50)],
        ..Cluster::default()
    };
    let record = cluster.plan(ENOUGH)?.to_record()?;

    let plan = Plan::try_from(&record[..])?;
    cluster.check(&plan.layout, plan.size)?;
    let mut text = format!("each partition may grow to {} MB\n", plan.size);
    for (partition, nodes) in plan.layout.rows() {
        text += &format!("partition {partition} lies on nodes {nodes:?}\n");
    }
    Ok(text)
}

#[test]
fn it_runs() {
    let expected = "each partition may grow to 23 MB\n\
                    partition 0 lies on nodes [1, 2, 3]\n\
                    partition 1 lies on nodes [1, 2, 3]\n";
    assert_eq!(told().unwrap(), expected);
}
