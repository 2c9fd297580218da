//! Refusals in the words of the owner.

use crate::labels;
use crate::units::{count, thousands};
use dezghuri::{Cluster, Description, Node, Place, Plan, Refusal, Refused};
use std::collections::BTreeSet;

/// Why the cluster has no plan.
pub fn no_plan(described: &Description, refused: Refused) -> String {
    if refused.refusal != Refusal::NoLayout {
        return refused.to_string();
    }
    let cluster = &described.cluster;
    let why = match has_layout(&without_ceilings(cluster)) {
        true => ceilings_too_low(cluster),
        false => disks_too_small(cluster),
    };
    format!("there is no layout: {why} (refused 9)")
}

/// Whether there is a layout at size 1.
fn has_layout(cluster: &Cluster) -> bool {
    let counts = cluster.counts(1);
    !counts.lack_room() && !counts.lack_zones()
}

fn without_ceilings(cluster: &Cluster) -> Cluster {
    let mut cluster = cluster.clone();
    let nodes = cluster.nodes.iter_mut();
    nodes.for_each(|node| node.ceiling = Node::NO_CEILING);
    cluster
}

/// Why the disks allow no layout, whatever the ceilings are.
fn disks_too_small(cluster: &Cluster) -> String {
    let with_space: Vec<_> = cluster.nodes.iter().filter(|n| n.capacity > 0).collect();
    if let Some(why) = too_few(cluster, &with_space, ["with disk space", "have any"]) {
        return why;
    }
    let free = match cluster.nodes.iter().any(keeps_free) {
        true => ", a sixteenth of each kept free,",
        false => "",
    };
    format!(
        "the disks{free} are too small for {} of a megabyte each",
        count(1 << cluster.bits, "partition", "partitions")
    )
}

/// Why the ceilings allow no layout, though the disks do.
fn ceilings_too_low(cluster: &Cluster) -> String {
    let can_hold = |node: &&Node| node.capacity > 0 && node.ceiling > 0;
    let can_hold: Vec<_> = cluster.nodes.iter().filter(can_hold).collect();
    let words = ["with disk space and a ceiling above 0", "have both"];
    if let Some(why) = too_few(cluster, &can_hold, words) {
        return why;
    }
    let counts = cluster.counts(1);
    match counts.lack_room() {
        true => format!(
            "the ceilings are too low: the boxes may hold {} together, and {}",
            count(counts.room, "copy", "copies"),
            count(counts.wanted, "is wanted", "are wanted"),
        ),
        false => format!(
            "the ceilings are too low for {}: with each partition once in a zone the boxes may hold \
             {}, and {}",
            count(cluster.redundancy.into(), "zone", "zones"),
            count(counts.zone_room, "copy", "copies"),
            count(counts.zone_wanted, "is wanted", "are wanted"),
        ),
    }
}

/// That there are fewer such boxes than copies, or that they lie in fewer zones than are wanted. The
/// words say which boxes they are, and that so many are.
fn too_few(cluster: &Cluster, boxes: &[&Node], [which, have]: [&str; 2]) -> Option<String> {
    let zones: BTreeSet<u16> = boxes.iter().map(|node| node.zone).collect();
    let (copies, wanted) = (cluster.replication.into(), cluster.redundancy.into());
    let has = have.replacen("have", "has", 1);
    if boxes.len() < copies {
        let needed = match copies {
            1 => "1 copy needs 1 box".into(),
            _ => format!("{copies} copies need {copies} boxes"),
        };
        let found = count(boxes.len() as u64, &has, have);
        return Some(format!("{needed} {which}, and {found}"));
    }
    (zones.len() < wanted).then(|| {
        let lie = zones.len();
        format!("{wanted} zones are wanted, and the boxes {which} lie in {lie}")
    })
}

/// Whether a part of its disk stays free: none does of one under 16 MB.
fn keeps_free(node: &Node) -> bool {
    node.usable() < node.capacity
}

/// Why the plan's layout is not valid for the cluster.
pub fn not_valid(described: &Description, plan: &Plan, refused: Refused) -> String {
    let why = match refused.place {
        Some(Place::Partition(partition)) if refused.refusal == Refusal::Zones => {
            too_few_zones(described, plan, partition)
        }
        Some(Place::Partition(partition)) => bad_row(described, plan, partition),
        Some(Place::Node(id)) => too_full(described, plan, id),
        _ => return refused.to_string(),
    };
    format!("{why} (refused {})", refused.refusal.number())
}

/// Why the plan's layout has no certificate, as a line for the owner.
pub fn not_certified(described: &Description, plan: &Plan, refused: Refused) -> String {
    let why = match refused.refusal {
        Refusal::Larger => "A larger size is possible",
        Refusal::Fewer => "Another layout of this size sends fewer copies",
        _ => return format!("not valid: {}", not_valid(described, plan, refused)),
    };
    format!("{why}: plan again (refused {}).", refused.refusal.number())
}

fn bad_row(described: &Description, plan: &Plan, partition: u32) -> String {
    let cluster = &described.cluster;
    if plan.bits != cluster.bits {
        return format!("it has bits {}, {} are wanted", plan.bits, cluster.bits);
    }
    if plan.replication != cluster.replication {
        return format!(
            "it has {} of each partition, {} are wanted",
            count(plan.replication.into(), "copy", "copies"),
            cluster.replication
        );
    }
    let gone = row(plan, partition)
        .iter()
        .find(|id| cluster.nodes.iter().all(|node| node.id != **id));
    match gone {
        Some(id) => format!("partition {partition} lies on box {id}, which is not there"),
        None => format!("partition {partition} does not lie on different boxes"),
    }
}

fn too_few_zones(described: &Description, plan: &Plan, partition: u32) -> String {
    let nodes = described.cluster.nodes.iter().zip(&described.labels);
    let zones: BTreeSet<&str> = nodes
        .filter(|(node, _)| row(plan, partition).contains(&node.id))
        .map(|(_, label)| label.zone.as_str())
        .collect();
    let zones: Vec<&str> = zones.into_iter().collect();
    format!(
        "partition {partition} lies in {} ({}), {} are wanted",
        count(zones.len() as u64, "zone", "zones"),
        zones.join(", "),
        described.cluster.redundancy
    )
}

fn too_full(described: &Description, plan: &Plan, id: u32) -> String {
    let mut nodes = described.cluster.nodes.iter();
    let node = nodes.find(|node| node.id == id);
    let node = node.expect("check names a node of the cluster");
    let rows = plan.layout.rows();
    let copies = rows.filter(|(_, ids)| ids.contains(&id)).count() as u64;
    let together = copies * u64::from(plan.size);
    let is_above = copies > node.ceiling.into();
    // It fits the disk, as one does that was planned before a sixteenth was kept free, or before the
    // box had its ceiling.
    let advice = match together <= node.capacity.into() {
        true => ": plan again, with this layout as --former",
        false => "",
    };
    let named = labels::named(described, id);
    let to_hold = format!("{named} is to hold {}", count(copies, "copy", "copies"));
    if together <= node.usable().into() {
        return format!("{to_hold}, and its ceiling is {}{advice}", node.ceiling);
    }
    let capacity = thousands(node.capacity.into());
    let room = match keeps_free(node) {
        true => format!(
            "may hold {} MB of its {capacity} MB, since a sixteenth stays free",
            thousands(node.usable().into())
        ),
        false => format!("has {capacity} MB"),
    };
    let ceiling = match is_above {
        true => format!(", and its ceiling is {}", node.ceiling),
        false => String::new(),
    };
    format!(
        "{to_hold} of {} MB, {} MB together, and {room}{ceiling}{advice}",
        thousands(plan.size.into()),
        thousands(together),
    )
}

fn row(plan: &Plan, partition: u32) -> &[u32] {
    u8::try_from(partition).map_or(&[], |partition| plan.layout.row(partition))
}
