//! Numbers for the zones of what is staged: a text gives its names numbers anew at each reading.

use super::file::Entry;
use dezghuri::{Change, Description};
use std::collections::{BTreeMap, BTreeSet};

/// Numbers of the zones that have names.
struct Numbers {
    names: BTreeMap<String, u16>,
    /// Those that no name may have any more: what the text gave to names, and what means itself.
    taken: BTreeSet<u16>,
    /// The lowest that may be free.
    lowest: u16,
}

/// The description and the changes with one number for each zone: a name keeps the number that the
/// text gave it, unless a staged box names that number, and else has the lowest that no box has.
pub fn numbered(known: &Description, entries: &[Entry]) -> (Description, Vec<Change>) {
    let mut numbers = Numbers::new(known, entries);
    let mut described = known.clone();
    let nodes = described.cluster.nodes.iter_mut().zip(&described.labels);
    for (node, label) in nodes.filter(|(_, label)| is_name(&label.zone)) {
        node.zone = numbers.of(&label.zone);
    }
    let change = |entry: &Entry| match (entry.change, &entry.zone) {
        (Change::Add(mut node), Some(name)) => {
            node.zone = numbers.of(name);
            Change::Add(node)
        }
        (change, _) => change,
    };
    let changes = entries.iter().map(change).collect();
    (described, changes)
}

/// Whether the zone is written as a name.
fn is_name(zone: &str) -> bool {
    !zone.bytes().all(|byte| byte.is_ascii_digit())
}

impl Numbers {
    fn new(known: &Description, entries: &[Entry]) -> Numbers {
        let boxes = known.cluster.nodes.iter().zip(&known.labels);
        let (named, plain): (Vec<_>, Vec<_>) = boxes.partition(|(_, label)| is_name(&label.zone));
        let mut written: BTreeSet<u16> = plain.iter().map(|(node, _)| node.zone).collect();
        written.extend(entries.iter().filter_map(|entry| match entry.change {
            Change::Add(node) if entry.zone.is_none() => Some(node.zone),
            _ => None,
        }));
        let kept = named
            .iter()
            .filter(|(node, _)| !written.contains(&node.zone));
        let names: BTreeMap<String, u16> = kept
            .map(|(node, label)| (label.zone.clone(), node.zone))
            .collect();
        let taken = written.iter().chain(names.values()).copied().collect();
        Numbers {
            names,
            taken,
            lowest: 0,
        }
    }

    /// The number of a name, a new one where it has none.
    fn of(&mut self, name: &str) -> u16 {
        if let Some(number) = self.names.get(name) {
            return *number;
        }
        let mut free = (self.lowest..u16::MAX).filter(|number| !self.taken.contains(number));
        // Where all are taken, more boxes are added than there can be, and one of them is refused.
        let number = free.next().unwrap_or(u16::MAX);
        self.lowest = number.saturating_add(1);
        self.names.insert(name.into(), number);
        number
    }
}

#[cfg(test)]
mod tests {
    use super::*;
    use dezghuri::Node;

    fn entry(zone: u16, name: Option<&str>) -> Entry {
        let node = Node {
            id: 9,
            zone,
            capacity: 5,
            ceiling: Node::NO_CEILING,
        };
        Entry {
            byte: 0,
            change: Change::Add(node),
            zone: name.map(String::from),
            name: None,
        }
    }

    /// The numbers of the boxes of a text, then those of staged ones.
    fn numbers(text: &str, entries: &[Entry]) -> (Vec<u16>, Vec<u16>) {
        let known: Description = text.parse().unwrap();
        let (described, changes) = numbered(&known, entries);
        let nodes = described.cluster.nodes.iter().map(|node| node.zone);
        let added = changes.iter().map(|change| match change {
            Change::Add(node) => node.zone,
            other => panic!("{other:?} adds no box"),
        });
        (nodes.collect(), added.collect())
    }

    const TEXT: &str = "copies 1\nzones 1\nbox 1 home 5\nbox 2 1 5\nbox 3 shop 5\nbox 4 home 5";

    /// Home has 0 and shop 2 in the text, since 1 is written there.
    #[test]
    fn names_keep_the_numbers_of_the_text() {
        let staged = [
            entry(7, Some("attic")),
            entry(7, Some("shop")),
            entry(0, Some("cellar")),
            entry(0, Some("attic")),
        ];
        assert_eq!(numbers(TEXT, &staged), (vec![0, 1, 2, 0], vec![3, 2, 4, 3]));
    }

    /// The staged boxes are in zones 0 and 3, so home is another one.
    #[test]
    fn written_numbers_are_left_to_themselves() {
        let staged = [entry(7, Some("attic")), entry(0, None), entry(3, None)];
        assert_eq!(numbers(TEXT, &staged), (vec![4, 1, 2, 4], vec![5, 0, 3]));
    }

    #[test]
    fn no_file_has_too_many_numbers() {
        let mut staged: Vec<Entry> = (0..=u16::MAX).map(|zone| entry(zone, None)).collect();
        staged.push(entry(0, Some("attic")));
        let (nodes, added) = numbers(TEXT, &staged);
        assert_eq!((nodes.len(), added.len()), (4, 65_537));
    }
}
