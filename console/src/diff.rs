//! What changes place between two layouts.

use crate::cluster::{Cluster, Node};
use crate::layout::Layout;
use std::collections::{BTreeMap, BTreeSet};

/// What becomes of a node's copies from one layout to another: partitions, each list rising.
#[derive(Clone, Debug, Default, PartialEq, Eq, Hash)]
pub struct NodeDiff {
    /// It holds them before and after.
    pub kept: Vec<u8>,
    /// It holds them only after.
    pub received: Vec<u8>,
    /// It holds them only before.
    pub dropped: Vec<u8>,
}

/// What changes from one layout to another, node by node.
#[derive(Clone, Debug, Default, PartialEq, Eq, Hash)]
pub struct Diff {
    nodes: BTreeMap<u32, NodeDiff>,
}

/// That of an id which stands in neither layout.
static NOTHING: NodeDiff = NodeDiff {
    kept: Vec::new(),
    received: Vec::new(),
    dropped: Vec::new(),
};

impl Layout {
    /// What changes from this layout to a new one. Rows are taken as sets of ids.
    ///
    /// ```
    /// use dezghuri::Layout;
    ///
    /// let old: Layout = [(0, [1, 2]), (1, [1, 3])].into_iter().collect();
    /// let new: Layout = [(0, [1, 2]), (1, [2, 3])].into_iter().collect();
    /// let diff = old.diff(&new);
    /// assert_eq!(diff.node(2).received, [1]);
    /// assert_eq!(diff.node(1).dropped, [1]);
    /// assert_eq!((diff.kept(), diff.received(), diff.dropped()), (3, 1, 1));
    /// ```
    pub fn diff(&self, new: &Layout) -> Diff {
        let mut diff = Diff::default();
        for partition in 0..=u8::MAX {
            let (before, after) = (self.row(partition), new.row(partition));
            let ids: BTreeSet<u32> = before.iter().chain(after).copied().collect();
            for id in ids {
                let node = diff.nodes.entry(id).or_default();
                let list = match (before.contains(&id), after.contains(&id)) {
                    (true, true) => &mut node.kept,
                    (true, false) => &mut node.dropped,
                    (false, _) => &mut node.received,
                };
                list.push(partition);
            }
        }
        diff
    }
}

impl Diff {
    /// What becomes of the copies of the node with this id; nothing where neither layout has it.
    pub fn node(&self, id: u32) -> &NodeDiff {
        self.nodes.get(&id).unwrap_or(&NOTHING)
    }

    /// The nodes of either layout, by rising id.
    pub fn nodes(&self) -> impl Iterator<Item = (u32, &NodeDiff)> {
        self.nodes.iter().map(|(id, node)| (*id, node))
    }

    /// Copies that stay where they are.
    pub fn kept(&self) -> u64 {
        self.nodes.values().map(|node| node.kept.len() as u64).sum()
    }

    /// Copies that have to be sent.
    pub fn received(&self) -> u64 {
        let received = self.nodes.values().map(|node| node.received.len() as u64);
        received.sum()
    }

    /// Copies that have no place any more.
    pub fn dropped(&self) -> u64 {
        let dropped = self.nodes.values().map(|node| node.dropped.len() as u64);
        dropped.sum()
    }
}

/// Copies that are sent and dropped by the nodes of a cluster, and those that went with others.
#[derive(Clone, Debug, Default, PartialEq, Eq, Hash)]
pub struct Transfers {
    /// Copies to be sent to each node, in the order of the nodes.
    pub received: Vec<u64>,
    /// Copies that each node drops, in the order of the nodes.
    pub dropped: Vec<u64>,
    /// Copies that the former layout has on nodes that are gone, by id.
    pub gone: BTreeMap<u32, u64>,
}

impl Transfers {
    /// The transfers between two layouts, as these nodes see them.
    pub fn between(nodes: &[Node], former: &Layout, new: &Layout) -> Transfers {
        let diff = former.diff(new);
        let received = |node: &Node| diff.node(node.id).received.len() as u64;
        let dropped = |node: &Node| diff.node(node.id).dropped.len() as u64;
        let is_gone = |id: u32| nodes.iter().all(|node| node.id != id);
        let gone = diff.nodes().filter(|(id, _)| is_gone(*id));
        let held = |node: &NodeDiff| (node.kept.len() + node.dropped.len()) as u64;
        let gone = gone.map(|(id, node)| (id, held(node)));
        Transfers {
            received: nodes.iter().map(received).collect(),
            dropped: nodes.iter().map(dropped).collect(),
            gone: gone.filter(|(_, copies)| *copies > 0).collect(),
        }
    }

    /// Copies to be sent to all nodes.
    pub fn all_received(&self) -> u64 {
        self.received.iter().sum()
    }

    /// Copies that all nodes drop.
    pub fn all_dropped(&self) -> u64 {
        self.dropped.iter().sum()
    }

    /// Copies on nodes that are gone.
    pub fn all_gone(&self) -> u64 {
        self.gone.values().sum()
    }
}

impl Cluster {
    /// The transfers from the former layout to a new one.
    pub fn transfers(&self, new: &Layout) -> Transfers {
        Transfers::between(&self.nodes, &self.former, new)
    }
}

#[cfg(test)]
mod tests {
    use super::*;

    fn layouts() -> (Layout, Layout) {
        let former: [(u8, &[u32]); 2] = [(0, &[1, 2, 9]), (255, &[8, 9])];
        let new: [(u8, &[u32]); 2] = [(0, &[2, 3]), (255, &[1, 3])];
        (former.into_iter().collect(), new.into_iter().collect())
    }

    #[test]
    fn sent_dropped_and_gone_copies_are_counted() {
        let node = |id| Node {
            id,
            zone: 0,
            capacity: 0,
            ceiling: Node::NO_CEILING,
        };
        let nodes = [node(1), node(2), node(3)];
        let (former, new) = layouts();
        let transfers = Transfers::between(&nodes, &former, &new);
        assert_eq!(transfers.received, [1, 0, 2]);
        assert_eq!(transfers.dropped, [1, 0, 0]);
        assert_eq!(transfers.gone, BTreeMap::from([(8, 1), (9, 2)]));
        assert_eq!(transfers.all_gone(), 3);
    }

    #[test]
    fn a_diff_has_the_partitions_of_each_node() {
        let (former, new) = layouts();
        let diff = former.diff(&new);
        let ids: Vec<u32> = diff.nodes().map(|(id, _)| id).collect();
        assert_eq!(ids, [1, 2, 3, 8, 9]);
        let of = |id| {
            let node = diff.node(id);
            (&node.kept[..], &node.received[..], &node.dropped[..])
        };
        let none: &[u8] = &[];
        assert_eq!(of(1), (none, &[255][..], &[0][..]));
        assert_eq!(of(2), (&[0][..], none, none));
        assert_eq!(of(3), (none, &[0, 255][..], none));
        assert_eq!(of(9), (none, none, &[0, 255][..]));
        assert_eq!(of(7), (none, none, none));
        assert_eq!((diff.kept(), diff.received(), diff.dropped()), (1, 3, 4));
    }

    #[test]
    fn a_layout_does_not_differ_from_itself() {
        let (former, _) = layouts();
        let diff = former.diff(&former);
        assert_eq!((diff.kept(), diff.received(), diff.dropped()), (5, 0, 0));
        assert_eq!(Layout::default().diff(&Layout::default()), Diff::default());
    }
}
