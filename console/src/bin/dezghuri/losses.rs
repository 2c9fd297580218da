//! Lost copies in the words of the owner.

use crate::labels::{self, NAMED};
use crate::units::{count, thousands};
use dezghuri::{Cluster, Losses};
use std::cmp::Reverse;
use std::collections::{BTreeMap, BTreeSet};

/// A line for the partitions that have no surviving copy, and one for those that have one only.
pub fn in_words(cluster: &Cluster) -> Vec<String> {
    let Losses {
        none_left,
        one_left,
    } = cluster.losses();
    let partitions = count(1 << cluster.bits, "partition", "partitions");
    let mut lines = Vec::new();
    if !none_left.is_empty() {
        lines.push(format!(
            "Lost: {} of {partitions} {} no surviving copy: {}.\n\
             No box can send them: bring back a box that held them, or restore them from elsewhere.",
            none_left.len(),
            has(&none_left),
            first_few(&none_left)
        ));
    }
    if !one_left.is_empty() {
        lines.push(format!(
            "At risk: {} of {partitions} {} one surviving copy only: {}.",
            one_left.len(),
            has(&one_left),
            first_few(&one_left)
        ));
    }
    lines
}

/// Partitions that have lost as many copies as each other.
#[derive(Default)]
struct Thinned {
    partitions: u64,
    /// Those whose copies that are left lie in one zone.
    in_one_zone: u64,
}

/// That boxes of the former layout are missing, and how many copies are left of each partition that they
/// held; nothing where none is missing.
pub fn missing(cluster: &Cluster, named: impl Fn(u32) -> String) -> String {
    let mut boxes: BTreeSet<u32> = BTreeSet::new();
    // By copies that are left and copies that there were, the most first.
    let mut thinned: BTreeMap<Reverse<(usize, usize)>, Thinned> = BTreeMap::new();
    for (partition, ids) in cluster.former.rows() {
        let left: Vec<u32> = cluster.survivors(partition).collect();
        if left.len() < ids.len() {
            boxes.extend(ids.iter().filter(|id| !left.contains(id)));
            let alike = thinned.entry(Reverse((left.len(), ids.len()))).or_default();
            alike.partitions += 1;
            alike.in_one_zone += u64::from(are_in_one_zone(cluster, &left));
        }
    }
    let named = labels::listed(boxes.iter().map(|id| named(*id)));
    let told = thinned
        .iter()
        .map(|(Reverse((left, of)), alike)| alike.in_words(*left, *of));
    let told: Vec<String> = told.collect();
    match boxes.len() {
        0 => String::new(),
        1 => format!("Box {named} is missing: {}.\n", told.join("; ")),
        _ => format!("Boxes {named} are missing: {}.\n", told.join("; ")),
    }
}

/// Whether several copies lie in one zone, though the owner wants more.
fn are_in_one_zone(cluster: &Cluster, ids: &[u32]) -> bool {
    let nodes = cluster.nodes.iter().filter(|node| ids.contains(&node.id));
    let zones: BTreeSet<u16> = nodes.map(|node| node.zone).collect();
    ids.len() > 1 && zones.len() == 1 && cluster.redundancy > 1
}

impl Thinned {
    fn in_words(&self, left: usize, of: usize) -> String {
        let partitions = count(self.partitions, "partition has", "partitions have");
        let copies = match left {
            0 => "no copy".into(),
            _ => format!("{left} of {of} copies"),
        };
        let zone = match self.in_one_zone {
            0 => String::new(),
            1 if self.partitions == 1 => ", in one zone only".into(),
            all if all == self.partitions => ", all of them in one zone only".into(),
            some => format!(", {} of them in one zone only", thousands(some)),
        };
        format!("{partitions} {copies}{zone}")
    }
}

/// The verb for so many partitions.
pub fn has(partitions: &[u8]) -> &'static str {
    match partitions.len() {
        1 => "has",
        _ => "have",
    }
}

/// The first few partitions, and how many there are besides.
pub fn first_few(partitions: &[u8]) -> String {
    let named: Vec<String> = partitions.iter().take(NAMED).map(u8::to_string).collect();
    let named = named.join(", ");
    match partitions.len().saturating_sub(NAMED) {
        0 => named,
        more => format!("{named} and {more} more"),
    }
}

#[cfg(test)]
mod tests {
    use super::*;

    #[test]
    fn the_first_few_are_named_and_the_others_counted() {
        let numbers: Vec<u8> = (0..=200).collect();
        assert_eq!(first_few(&numbers[7..8]), "7");
        assert_eq!(first_few(&numbers[..8]), "0, 1, 2, 3, 4, 5, 6, 7");
        assert_eq!(
            first_few(&numbers[..9]),
            "0, 1, 2, 3, 4, 5, 6, 7 and 1 more"
        );
        assert_eq!(
            first_few(&numbers[50..]),
            "50, 51, 52, 53, 54, 55, 56, 57 and 143 more"
        );
    }
}
