//! What one asks of a layout in hand.

use crate::cluster::Cluster;
use crate::ffi;
use crate::layout::Layout;
use crate::refusal::{judge, wide, Refused};

/// The copies of a valid layout, counted.
#[derive(Clone, Debug, PartialEq, Eq, Hash)]
pub struct Figures {
    /// Copies held by each node, in the order of the nodes.
    pub copies: Vec<u32>,
    /// Copies held in the zone of each node, in the order of the nodes.
    pub zone_copies: Vec<u32>,
    /// The sum of the usable capacities ([`Node::usable`](crate::Node::usable)) over all copies,
    /// rounded down: the size to hope for. Ceilings play no part in it.
    pub hope: u64,
}

impl Cluster {
    /// Checks that the layout is one of this cluster, valid at the size.
    ///
    /// # Errors
    ///
    /// A fault of the cluster with the value at fault, or of the layout with its partition or node.
    pub fn check(&self, layout: &Layout, size: u32) -> Result<(), Refused> {
        let mut answer = [0; ffi::CHECK_ANSWER];
        let record = self.to_record();
        let refusal = ffi::check(&record, layout.cells(), size, &mut answer);
        self.judge_layout(refusal, &answer, size == 0)
    }

    /// Counts the copies of a layout that [`Cluster::check`] passes.
    ///
    /// # Errors
    ///
    /// As [`Cluster::check`].
    pub fn figures(&self, layout: &Layout, size: u32) -> Result<Figures, Refused> {
        let mut figures = [0; ffi::FIGURES_CELLS];
        let mut answer = [0; ffi::FIGURES_ANSWER];
        let record = self.to_record();
        let refusal = ffi::figures(&record, layout.cells(), size, &mut figures, &mut answer);
        self.judge_layout(refusal, &answer, size == 0)?;
        let (copies, zone_copies) = figures.split_at(ffi::FIGURES_CELLS / 2);
        Ok(Figures {
            copies: copies[..self.nodes.len()].to_vec(),
            zone_copies: zone_copies[..self.nodes.len()].to_vec(),
            hope: wide(answer[3], answer[4]),
        })
    }

    /// A bad number of the call itself, as a size of 0, is refused as a bad value of the record is, but has no
    /// byte: the field at byte 0 is good.
    pub(crate) fn judge_layout(
        &self,
        refusal: u32,
        answer: &[u32],
        bad_number: bool,
    ) -> Result<(), Refused> {
        let byte = wide(answer[0], answer[1]);
        let of_number = bad_number && byte == 0 && self.bits <= 8;
        judge(refusal, (!of_number).then_some(byte), Some(answer[2]))
            .map_err(|refused| self.in_own_terms(refused))
    }
}

#[cfg(test)]
mod tests {
    use super::*;
    use crate::{Node, Place, Refusal};

    /// Examples K and M of the paper.
    fn cluster() -> Cluster {
        let node = |id, zone, capacity| Node {
            id,
            zone,
            capacity,
            ceiling: Node::NO_CEILING,
        };
        Cluster {
            bits: 0,
            replication: 3,
            redundancy: 2,
            nodes: vec![node(1, 1, 9), node(2, 1, 9), node(3, 1, 9), node(4, 2, 1)],
            former: Layout::default(),
        }
    }

    fn row(ids: &[u32]) -> Layout {
        let mut layout = Layout::default();
        layout.set_row(0, ids);
        layout
    }

    #[test]
    fn faults_of_a_layout_have_their_place() {
        let fault = |ids: &[u32], size| {
            let refused = cluster().check(&row(ids), size).unwrap_err();
            (refused.refusal, refused.place)
        };
        assert_eq!(
            fault(&[1, 2, 3], 1),
            (Refusal::Zones, Some(Place::Partition(0)))
        );
        assert_eq!(
            fault(&[1, 1, 4], 1),
            (Refusal::Row, Some(Place::Partition(0)))
        );
        assert_eq!(
            fault(&[1, 2, 4], 2),
            (Refusal::Capacity, Some(Place::Node(4)))
        );
        assert_eq!(fault(&[1, 2, 4], 0), (Refusal::Range, None));
        assert_eq!(cluster().check(&row(&[1, 2, 4]), 1), Ok(()));
    }

    #[test]
    fn a_ceiling_that_is_passed_is_told_with_its_node() {
        let checked = |ceiling| {
            let mut cluster = cluster();
            cluster.nodes[1].ceiling = ceiling;
            cluster.check(&row(&[1, 2, 4]), 1)
        };
        let refused = Refused {
            refusal: Refusal::Capacity,
            place: Some(Place::Node(2)),
        };
        assert_eq!(checked(0), Err(refused));
        assert_eq!(checked(1), Ok(()));
    }

    #[test]
    fn a_fault_of_the_cluster_comes_before_a_size_of_0() {
        let mut bad = cluster();
        bad.bits = 9;
        let refused = bad.check(&row(&[1, 2, 4]), 0).unwrap_err();
        assert_eq!(refused.place, Some(Place::Bits));
    }

    #[test]
    fn figures_count_nodes_and_zones() {
        let figures = cluster().figures(&row(&[1, 2, 4]), 1).unwrap();
        assert_eq!(figures.copies, [1, 1, 0, 1]);
        assert_eq!(figures.zone_copies, [2, 2, 2, 1]);
        assert_eq!(figures.hope, 28 / 3);
        let mut low = cluster();
        low.nodes[2].ceiling = 0;
        assert_eq!(low.figures(&row(&[1, 2, 4]), 1), Ok(figures));
    }
}
