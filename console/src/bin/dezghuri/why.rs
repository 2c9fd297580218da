//! Why the size is no larger, and why boxes are not used, in the words of the owner.

use crate::json::Json;
use crate::labels::{self, boxes, listed};
use crate::units::{count, thousands};
use dezghuri::{Counts, Description, Node, Plan, Unused};

/// The size is explained where it is under the upper bound by this part of it, or more: nearer than
/// that no owner asks.
const FAR: u64 = 100;

/// Why the size of a plan is no larger; nothing where it is about as large as can be.
pub fn not_more(described: &Description, plan: &Plan, upper_bound: u64) -> String {
    if (upper_bound - u64::from(plan.size)) * FAR < upper_bound {
        return String::new();
    }
    let why = sentences(described, plan.size);
    format!("Why not more: {}\n", why.join("\nAlso, "))
}

/// What binds at a size, one sentence or two; none where a larger one has a layout.
pub fn sentences(described: &Description, size: u32) -> Vec<String> {
    let (cluster, counts) = (&described.cluster, counts(described, size));
    let mut why = Vec::new();
    if counts.lack_zones() && !counts.whole_zones.is_empty() {
        why.push(zones_bind(described, &counts, size));
    }
    // Where as many zones are wanted as copies, the zones tell all.
    if counts.lack_room() && (why.is_empty() || cluster.redundancy < cluster.replication) {
        why.push(boxes_bind(described, &counts, size));
    }
    why
}

/// The counts at the next size.
fn counts(described: &Description, size: u32) -> Counts {
    described.cluster.counts(u64::from(size) + 1)
}

/// Zones with room for everything count once each; the others must take what is left.
fn zones_bind(described: &Description, counts: &Counts, size: u32) -> String {
    let wanted = u64::from(described.cluster.redundancy);
    let whole = zone_names(described, &counts.whole_zones);
    let left = wanted - counts.whole_zones.len() as u64;
    let others = zone_names(described, &counts.part_zones);
    let others = match counts.part_zones.len() {
        1 => format!("the other zone, {others}, has"),
        _ => format!("the other zones, {others}, have"),
    };
    let mut bound = bound_nodes(described, counts);
    bound.retain(|node| counts.part_zones.contains(&node.zone));
    format!(
        "each partition lies in at least {}, and besides {whole} {others} no room for {} of each \
         above {} MB.\n{}More disk in {whole} would not help.",
        count(wanted, "zone", "zones"),
        count(left, "more copy", "more copies"),
        thousands(size.into()),
        ceilings_bind(described, &bound),
    )
}

/// Boxes whose ceiling is what binds: their disks have room for more copies.
fn bound_nodes<'a>(described: &'a Description, counts: &Counts) -> Vec<&'a Node> {
    let nodes = described.cluster.nodes.iter();
    let bound = nodes.filter(|node| counts.ceiling_nodes.contains(&node.id));
    bound.collect()
}

/// That ceilings bind, and not the disks; nothing where none does.
fn ceilings_bind(described: &Description, bound: &[&Node]) -> String {
    let named = |node: &&Node| {
        let most = labels::ceiling_in_words(node).unwrap_or_default();
        match labels::of(described, node.id).name {
            name if name.is_empty() => format!("{} ({most})", node.id),
            name => format!("{} ({name}, {most})", node.id),
        }
    };
    let named = listed(bound.iter().map(named));
    match bound.len() {
        0 => String::new(),
        1 => {
            format!("The ceiling of box {named} keeps copies off a disk that has room for them.\n")
        }
        _ => format!(
            "The ceilings of boxes {named} keep copies off disks that have room for them.\n"
        ),
    }
}

/// Boxes with room for everything count once each; the others must take what is left.
fn boxes_bind(described: &Description, counts: &Counts, size: u32) -> String {
    let cluster = &described.cluster;
    let whole = &counts.whole_nodes;
    let bound = bound_nodes(described, counts);
    if !bound.is_empty() {
        return boxes_and_ceilings_bind(described, counts, &bound);
    }
    if whole.is_empty() {
        return format!(
            "at {} MB a partition the disks together have room for {}, and {}.",
            thousands(counts.size),
            count(counts.room, "copy", "copies"),
            count(counts.wanted, "is wanted", "are wanted"),
        );
    }
    let boxes = boxes(described, whole);
    let left = u64::from(cluster.replication) - whole.len() as u64;
    let others = match cluster.nodes.len() - whole.len() {
        1 => "the other box has".into(),
        others => format!("the other {others} boxes have"),
    };
    format!(
        "a box holds each partition once at most, and besides {boxes} {others} no room for {} of \
         each above {} MB.\n{}",
        count(left, "more copy", "more copies"),
        thousands(size.into()),
        no_larger_disks(described, whole),
    )
}

/// Boxes at their ceilings count with these, and what their disks have room for does not.
fn boxes_and_ceilings_bind(described: &Description, counts: &Counts, bound: &[&Node]) -> String {
    let mut useless = counts.whole_nodes.clone();
    useless.extend(bound.iter().map(|node| node.id));
    useless.sort_unstable();
    format!(
        "at {} MB a partition the boxes have room for {}, and {}.\n{}{}",
        thousands(counts.size),
        count(counts.room, "copy", "copies"),
        count(counts.wanted, "is wanted", "are wanted"),
        ceilings_bind(described, bound),
        no_larger_disks(described, &useless),
    )
}

/// That what these boxes hold is not bound by their disks.
fn no_larger_disks(described: &Description, ids: &[u32]) -> String {
    let disks = match ids.len() {
        1 => "A larger disk",
        _ => "Larger disks",
    };
    format!("{disks} in {} would not help.", boxes(described, ids))
}

fn zone_names(described: &Description, zones: &[u16]) -> String {
    listed(zones.iter().map(|zone| labels::zone(described, *zone)))
}

/// A line for each box that holds nothing; but one of capacity or ceiling 0 is meant to hold nothing.
pub fn unused(described: &Description, plan: &Plan) -> String {
    let mut unused = described.cluster.unused(&plan.layout, plan.size);
    let nodes = &described.cluster.nodes;
    unused.retain(|(id, why)| {
        let has_disk = nodes.iter().any(|node| node.id == *id && node.capacity > 0);
        has_disk && *why != Unused::Ceiling
    });
    let line = |(id, why): &(u32, Unused)| {
        let label = labels::of(described, *id);
        let why = match why {
            Unused::Small => format!(
                "what may be filled of its disk is smaller than one partition of {} MB",
                thousands(plan.size.into())
            ),
            Unused::ZoneWhole => format!(
                "{} holds every partition already, and none may lie there twice",
                label.zone
            ),
            _ => "all copies lie on other boxes, and with it the size would be no larger".into(),
        };
        format!("Unused: box {}: {why}.\n", labels::in_words(described, *id))
    };
    unused.iter().map(line).collect()
}

/// The two counts at the next size.
pub fn binds(described: &Description, size: u32) -> Json {
    let counts = counts(described, size);
    let zones = |zones: &[u16]| {
        let zones = zones.iter().map(|zone| zone_names(described, &[*zone]));
        Json::list(zones)
    };
    Json::Object(vec![
        ("at_mb", counts.size.into()),
        ("copies_short", counts.lack_room().into()),
        ("copies_room", counts.room.into()),
        ("copies_wanted", counts.wanted.into()),
        ("whole_boxes", Json::list(counts.whole_nodes.clone())),
        ("zones_short", counts.lack_zones().into()),
        ("zones_room", counts.zone_room.into()),
        ("zones_wanted", counts.zone_wanted.into()),
        ("whole_zones", zones(&counts.whole_zones)),
        ("part_zones", zones(&counts.part_zones)),
    ])
}

/// The two counts at the next size, and the boxes that hold nothing.
pub fn json(described: &Description, plan: &Plan) -> [(&'static str, Json); 2] {
    let unused = described.cluster.unused(&plan.layout, plan.size);
    let unused = unused.iter().map(|(id, why)| {
        let why = match why {
            Unused::Ceiling => "ceiling",
            Unused::Small => "small",
            Unused::ZoneWhole => "zone",
            _ => "spare",
        };
        Json::Object(vec![("id", (*id).into()), ("why", why.into())])
    });
    let binds = binds(described, plan.size);
    [("binds", binds), ("unused", Json::list(unused))]
}

#[cfg(test)]
mod tests {
    use super::*;
    use reference::random::Random;

    /// A cluster of some boxes in a few zones, with small disks.
    fn some_text(r: &mut Random) -> String {
        let copies = r.between(1, 3);
        let zones = r.between(1, copies);
        let mut text = format!("copies {copies}\nzones {zones}\nbits {}\n", r.below(4));
        for id in 1..=r.between(copies, 6) {
            let zone = ["home", "shop", "attic", "shed"][r.below(4) as usize];
            text += &format!("box {id} {zone} {}\n", r.between(1, 90));
            if r.chance(30) {
                text += &format!("ceiling {id} {}\n", r.below(9));
            }
        }
        text
    }

    /// The largest size of a cluster in which these boxes have other numbers.
    fn size_with(described: &Description, ids: &[u32], change: impl Fn(&mut Node)) -> u32 {
        let mut cluster = described.cluster.clone();
        let nodes = cluster.nodes.iter_mut();
        nodes.filter(|n| ids.contains(&n.id)).for_each(change);
        cluster.plan(dezghuri::ENOUGH).expect("it had a plan").size
    }

    /// What is said to help, or not to, at the size of the plan.
    fn sentences_are_true(described: &Description, size: u32, told: &[String]) {
        let counts = counts(described, size);
        let bound = counts.ceiling_nodes;
        let is_said = told.iter().any(|why| why.contains("eiling"));
        assert!(!is_said || !bound.is_empty(), "{told:?}");
        // A larger disk in a box whose ceiling binds never helps.
        let larger = size_with(described, &bound, |node| node.capacity *= 100);
        assert_eq!(larger, size, "{told:?}");
        // Where a ceiling is not named, none is what binds.
        if !is_said {
            let all: Vec<u32> = described.cluster.nodes.iter().map(|n| n.id).collect();
            let higher = size_with(described, &all, |node| node.ceiling = Node::NO_CEILING);
            assert_eq!(higher, size, "{told:?}");
        }
    }

    /// At the largest size there is a sentence for what falls short and none for what does not; at
    /// a smaller one there is none.
    #[test]
    fn sentences_name_what_falls_short() {
        let mut r = Random::new(61);
        let (mut seen, mut ceilings) = ([0; 3], 0);
        for _ in 0..2000 {
            let described: Description = some_text(&mut r).parse().unwrap();
            let Ok(plan) = described.cluster.plan(dezghuri::ENOUGH) else {
                continue;
            };
            let counts = counts(&described, plan.size);
            let told = sentences(&described, plan.size);
            let of_zones = |text: &&String| text.starts_with("each partition lies in");
            let zones = told.iter().filter(of_zones).count();
            assert!((1..=2).contains(&told.len()), "{told:?}");
            assert!(zones == 0 || counts.lack_zones());
            assert!(told.len() == zones || counts.lack_room());
            if !counts.lack_room() {
                assert_eq!(zones, 1);
            }
            if plan.size > 1 {
                assert!(sentences(&described, plan.size - 1).is_empty());
            }
            sentences_are_true(&described, plan.size, &told);
            ceilings += u32::from(told.iter().any(|why| why.contains("eiling")));
            let kind = match (told.len(), zones) {
                (1, 0) => 0,
                (1, _) => 1,
                _ => 2,
            };
            seen[kind] += 1;
        }
        assert!(seen.iter().all(|number| *number > 10), "{seen:?}");
        assert!(ceilings > 100, "{ceilings}");
    }
}
