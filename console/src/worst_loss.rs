//! What the loss of nodes costs a layout: of so many nodes at worst, and of given nodes.

use crate::cluster::Cluster;
use crate::ffi;
use crate::layout::Layout;
use crate::refusal::Refused;

/// What the loss of so many nodes costs at worst.
#[derive(Clone, Debug, PartialEq, Eq, Hash)]
pub struct WorstLoss {
    /// The most partitions that can lose every copy.
    pub lost: u32,
    /// The first set of nodes that costs so many, by rising id: of all such sets the one with the smallest ids,
    /// compared from the left.
    pub nodes: Vec<u32>,
}

impl Cluster {
    /// The most nodes of which [`Cluster::worst_loss`] can be asked.
    pub const MOST_LOST: u32 = 4;

    /// The most partitions that the loss of so many nodes can cost, and the first nodes that cost so many.
    ///
    /// A partition is lost when all its copies are. Every set of so many nodes was looked at: none costs more.
    ///
    /// ```
    /// use dezghuri::{Cluster, Layout, Node};
    ///
    /// let node = |id| Node { id, zone: id as u16, capacity: 50, ceiling: Node::NO_CEILING };
    /// let nodes = vec![node(1), node(2), node(3)];
    /// let former = Layout::default();
    /// let cluster = Cluster { bits: 1, replication: 2, redundancy: 2, nodes, former };
    /// let mut layout = Layout::default();
    /// layout.set_row(0, &[1, 3]);
    /// layout.set_row(1, &[2, 3]);
    /// assert_eq!(cluster.worst_loss(&layout, 1)?.lost, 0);
    /// let two = cluster.worst_loss(&layout, 2)?;
    /// assert_eq!((two.lost, two.nodes), (1, vec![1, 3]));
    /// assert_eq!(cluster.loss(&layout, &[1, 2])?, 0);
    /// # Ok::<(), dezghuri::Refused>(())
    /// ```
    ///
    /// # Errors
    ///
    /// As [`Cluster::check`] at size 1; and [`Refusal::Range`](crate::Refusal::Range) without a place for more nodes than
    /// [`Cluster::MOST_LOST`] or than the cluster has.
    pub fn worst_loss(&self, layout: &Layout, number: u32) -> Result<WorstLoss, Refused> {
        let mut answer = [0; ffi::WORST_LOSS_ANSWER];
        let record = self.to_record();
        let refusal = ffi::worst_loss(&record, layout.cells(), number, &mut answer);
        let too_many = number > Self::MOST_LOST || number as usize > self.nodes.len();
        self.judge_layout(refusal, &answer, too_many)?;
        let ids = answer[4..].iter().copied();
        Ok(WorstLoss {
            lost: answer[3],
            nodes: ids.take_while(|id| *id != 0).collect(),
        })
    }

    /// How many partitions are lost with given nodes: those whose every copy is in one of them.
    ///
    /// The ids may come in any order; one that no node has costs nothing.
    ///
    /// # Errors
    ///
    /// As [`Cluster::check`] at size 1.
    pub fn loss(&self, layout: &Layout, nodes: &[u32]) -> Result<u32, Refused> {
        let mut answer = [0; ffi::LOSS_ANSWER];
        let record = self.to_record();
        let refusal = ffi::loss(&record, layout.cells(), nodes, &mut answer);
        self.judge_layout(refusal, &answer, false)?;
        Ok(answer[3])
    }
}

#[cfg(test)]
mod tests {
    use super::*;
    use crate::small::cluster;
    use crate::{Place, Refusal};

    fn layout(rows: &[&[u32]]) -> Layout {
        (0..).zip(rows).collect()
    }

    /// Example A of the paper, and its layout.
    fn a() -> (Cluster, Layout) {
        let a = cluster([1, 3, 2], &[(1, 1, 100), (2, 1, 70), (3, 2, 50)]);
        (a, layout(&[&[1, 2, 3], &[1, 2, 3]]))
    }

    fn worst(cluster: &Cluster, layout: &Layout, number: u32) -> (u32, Vec<u32>) {
        let worst = cluster.worst_loss(layout, number).expect("it is valid");
        (worst.lost, worst.nodes)
    }

    fn refused(cluster: &Cluster, layout: &Layout, number: u32) -> (Refusal, Option<Place>) {
        let refused = cluster.worst_loss(layout, number).unwrap_err();
        (refused.refusal, refused.place)
    }

    /// Both partitions lie at all three nodes, so that nothing is lost before these are all gone; of sets that
    /// cost nothing the one with the smallest ids is answered.
    #[test]
    fn a_loses_nothing_with_two_and_all_with_three() {
        let (a, rows) = a();
        assert_eq!(worst(&a, &rows, 0), (0, vec![]));
        assert_eq!(worst(&a, &rows, 1), (0, vec![1]));
        assert_eq!(worst(&a, &rows, 2), (0, vec![1, 2]));
        assert_eq!(worst(&a, &rows, 3), (2, vec![1, 2, 3]));
        for too_many in [4, 5, u32::MAX] {
            assert_eq!(refused(&a, &rows, too_many), (Refusal::Range, None));
        }
    }

    /// Of C the only partition lies at node 2: of one node that one costs it, and of two nodes there is one set. Of
    /// E both lie at node 1.
    #[test]
    fn the_nodes_that_cost_most_are_answered() {
        let c = cluster([0, 1, 1], &[(1, 1, 5), (2, 1, 9)]);
        let row = layout(&[&[2]]);
        assert_eq!(worst(&c, &row, 0), (0, vec![]));
        assert_eq!(worst(&c, &row, 1), (1, vec![2]));
        assert_eq!(worst(&c, &row, 2), (1, vec![1, 2]));
        let e = cluster([1, 1, 1], &[(1, 1, 10), (2, 1, 4)]);
        let rows = layout(&[&[1], &[1]]);
        assert_eq!(worst(&e, &rows, 1), (2, vec![1]));
        assert_eq!(worst(&e, &rows, 2), (2, vec![1, 2]));
    }

    /// Of four partitions nodes 2 and 9 hold one each, and node 7 two. With 7 two are lost, and with 2 and 7, and
    /// with 7 and 9, three: the first of these pairs is answered. Node 1 holds none, and is the fourth of the four.
    #[test]
    fn of_equally_bad_sets_the_first_is_answered() {
        let nodes = [(1, 1, 9), (2, 1, 9), (7, 1, 9), (9, 1, 9)];
        let four = cluster([2, 1, 1], &nodes);
        let rows = layout(&[&[9], &[7], &[7], &[2]]);
        assert_eq!(worst(&four, &rows, 1), (2, vec![7]));
        assert_eq!(worst(&four, &rows, 2), (3, vec![2, 7]));
        assert_eq!(worst(&four, &rows, 3), (4, vec![2, 7, 9]));
        assert_eq!(worst(&four, &rows, 4), (4, vec![1, 2, 7, 9]));
    }

    /// There are enough nodes for each of these numbers: more than four are refused because they are.
    #[test]
    fn five_nodes_are_too_many() {
        let nodes: Vec<(u32, u16, u32)> = (1..=6).map(|id| (id, 1, 9)).collect();
        let six = cluster([0, 1, 1], &nodes);
        let row = layout(&[&[6]]);
        assert_eq!(worst(&six, &row, 4), (1, vec![1, 2, 3, 6]));
        for too_many in [5, 6, 7, u32::MAX] {
            assert_eq!(refused(&six, &row, too_many), (Refusal::Range, None));
        }
    }

    /// Each call has what is refused later, too. Node 4 of K has room for one copy of 1 MB and is needed twice.
    #[test]
    fn what_check_refuses_is_refused_in_its_order() {
        let nodes = [(1, 1, 9), (2, 1, 9), (3, 1, 9), (4, 2, 1)];
        let k = cluster([1, 3, 2], &nodes);
        let rows = layout(&[&[1, 2, 4], &[1, 1, 4]]);
        let mut bad = k.clone();
        bad.nodes[2].id = 2;
        let order = Place::NodeAt { index: 2, id: 2 };
        assert_eq!(refused(&bad, &rows, 5), (Refusal::Order, Some(order)));
        bad.bits = 9;
        let bits = (Refusal::Range, Some(Place::Bits));
        assert_eq!(refused(&bad, &rows, 5), bits);
        assert_eq!(refused(&k, &rows, 5), (Refusal::Range, None));
        let row = (Refusal::Row, Some(Place::Partition(1)));
        assert_eq!(refused(&k, &rows, 2), row);
        let rows = layout(&[&[1, 2, 4], &[1, 2, 3]]);
        let zones = (Refusal::Zones, Some(Place::Partition(1)));
        assert_eq!(refused(&k, &rows, 2), zones);
        let rows = layout(&[&[1, 2, 4], &[1, 2, 4]]);
        let capacity = (Refusal::Capacity, Some(Place::Node(4)));
        assert_eq!(refused(&k, &rows, 0), capacity);
        assert_eq!(
            k.loss(&rows, &[]).unwrap_err().place,
            Some(Place::Node(4)),
            "of given nodes too"
        );
    }

    /// Example D, which has no nodes: there is no row, so row 0 is refused, whatever is asked that may be asked.
    #[test]
    fn without_nodes_there_is_no_layout() {
        let d = cluster([0, 1, 1], &[]);
        let none = Layout::default();
        let row = (Refusal::Row, Some(Place::Partition(0)));
        assert_eq!(refused(&d, &none, 0), row);
        assert_eq!(refused(&d, &none, 1), (Refusal::Range, None));
        assert_eq!(d.loss(&none, &[1]).unwrap_err().refusal, Refusal::Row);
    }

    /// All numbers of a refusal are 0. Node 3 has the id of node 2 at byte 42: the three numbers take 12 bytes, and a
    /// node 15.
    #[test]
    fn refusals_of_buffers_and_records() {
        let (a, rows) = a();
        let record = a.to_record();
        let asked = |record: &[u8], cells: &[u32], number| {
            let mut answer = [7; ffi::WORST_LOSS_ANSWER + 1];
            let lent = &mut answer[..ffi::WORST_LOSS_ANSWER];
            let refusal = ffi::worst_loss(record, cells, number, lent);
            assert_eq!(answer[3..], [0, 0, 0, 0, 0, 7]);
            (refusal, answer[0], answer[1], answer[2])
        };
        let cells = rows.cells();
        assert_eq!(asked(&record, &cells[..2047], 5), (8, 0, 0, 0));
        assert_eq!(asked(&record, cells, 5), (4, 0, 0, 0));
        let mut twice = record.clone();
        twice[48] = 2;
        assert_eq!(asked(&twice, cells, 2), (5, 0, 42, 0));
        assert_eq!(asked(&twice, &cells[..2047], 5), (5, 0, 42, 0));
        let mut bad = cells.to_vec();
        bad[8] = 0;
        assert_eq!(asked(&record, &bad, 4), (4, 0, 0, 0));
        assert_eq!(asked(&record, &bad, 3), (10, 0, 0, 1));
    }

    /// Partition 0 lies at nodes 1 and 3, 1 and 2 at 2 and 3, and 3 at 1 and 4.
    #[test]
    fn given_nodes_cost_what_lies_at_them_alone() {
        let nodes = [(1, 1, 9), (2, 1, 9), (3, 2, 9), (4, 2, 9)];
        let four = cluster([2, 2, 2], &nodes);
        let rows = layout(&[&[1, 3], &[2, 3], &[2, 3], &[1, 4]]);
        let loss = |ids: &[u32]| four.loss(&rows, ids).expect("it is valid");
        assert_eq!(loss(&[]), 0);
        assert_eq!([1, 2, 3, 4].map(|id| loss(&[id])), [0; 4]);
        assert_eq!((loss(&[1, 2]), loss(&[3, 4])), (0, 0), "each zone");
        assert_eq!((loss(&[1, 3]), loss(&[3, 2])), (1, 2));
        assert_eq!((loss(&[3, 2, 1]), loss(&[1, 2, 3, 4])), (3, 4));
        assert_eq!((loss(&[2, 3, 3, 2, 3]), loss(&[3, 3])), (2, 0), "repeated");
        assert_eq!((loss(&[0, 5, u32::MAX]), loss(&[0])), (0, 0), "unknown");
        assert_eq!(loss(&[u32::MAX, 3, 0, 2, 5]), 2, "among unknown ones");
        assert_eq!(worst(&four, &rows, 2), (2, vec![2, 3]));
    }
}
