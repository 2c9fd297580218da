//! What is left of the former copies.

use crate::cluster::Cluster;

/// Partitions whose former copies lay on nodes that are gone.
#[derive(Clone, Debug, Default, PartialEq, Eq, Hash)]
pub struct Losses {
    /// Partitions that had copies, and none of them is left: no node can send them.
    pub none_left: Vec<u8>,
    /// Partitions that had several copies, and one of them is left.
    pub one_left: Vec<u8>,
}

impl Cluster {
    /// The nodes of this cluster that hold a former copy of the partition, by rising id.
    pub fn survivors(&self, partition: u8) -> impl Iterator<Item = u32> + '_ {
        let row = self.former.row(partition).iter().copied();
        row.filter(|id| self.nodes.iter().any(|node| node.id == *id))
    }

    /// The partitions that have lost former copies, down to one or none.
    ///
    /// A plan is made all the same, since the layout has to be planned either way; who plans looks
    /// here first.
    ///
    /// ```
    /// use dezghuri::{Cluster, Layout, Node};
    ///
    /// let mut former = Layout::default();
    /// former.set_row(0, &[1, 2]);
    /// former.set_row(1, &[2, 3]);
    /// let nodes = vec![Node { id: 3, zone: 1, capacity: 50, ceiling: Node::NO_CEILING }];
    /// let cluster = Cluster { bits: 1, replication: 1, redundancy: 1, nodes, former };
    /// assert_eq!(cluster.losses().none_left, [0]);
    /// assert_eq!(cluster.losses().one_left, [1]);
    /// ```
    pub fn losses(&self) -> Losses {
        let mut losses = Losses::default();
        for (partition, ids) in self.former.rows() {
            match self.survivors(partition).count() {
                0 => losses.none_left.push(partition),
                1 if ids.len() > 1 => losses.one_left.push(partition),
                _ => (),
            }
        }
        losses
    }
}

#[cfg(test)]
mod tests {
    use crate::{Cluster, Layout, Losses, Node};

    fn cluster(ids: &[u32], rows: &[&[u32]]) -> Cluster {
        let node = |id: &u32| Node {
            id: *id,
            zone: 1,
            capacity: 0,
            ceiling: Node::NO_CEILING,
        };
        let mut former = Layout::default();
        for (partition, ids) in (0..).zip(rows) {
            former.set_row(partition, ids);
        }
        Cluster {
            bits: 8,
            replication: 2,
            redundancy: 1,
            nodes: ids.iter().map(node).collect(),
            former,
        }
    }

    #[test]
    fn partitions_are_lost_with_the_nodes_that_held_them() {
        let rows: [&[u32]; 5] = [&[1, 2], &[1, 3], &[3, 4], &[2], &[]];
        let losses = cluster(&[3, 4], &rows).losses();
        assert_eq!(losses.none_left, [0, 3]);
        assert_eq!(losses.one_left, [1]);
        let mut last = cluster(&[3, 4], &[]);
        last.former.set_row(255, &[8, 9]);
        assert_eq!(last.losses().none_left, [255]);
    }

    #[test]
    fn a_single_copy_that_is_there_is_no_loss() {
        assert_eq!(cluster(&[1], &[&[1]]).losses(), Losses::default());
        assert_eq!(cluster(&[], &[]).losses(), Losses::default());
    }

    #[test]
    fn survivors_are_the_nodes_that_are_still_there() {
        let cluster = cluster(&[2, 3, 5], &[&[1, 2, 4, 5]]);
        assert!(cluster.survivors(0).eq([2, 5]));
        assert_eq!(cluster.survivors(1).count(), 0);
    }
}
