//! A cluster, and its record.

use crate::ffi;
use crate::layout::Layout;
use crate::refusal::{judge, wide, Place, Refused};

/// A storage box.
#[derive(Clone, Copy, Debug, PartialEq, Eq, Hash)]
pub struct Node {
    /// Never 0, and different for each node.
    pub id: u32,
    /// Nodes of one zone, as a house, are lost together.
    pub zone: u16,
    /// Disk space in megabytes, of which copies may fill [`Node::usable`].
    pub capacity: u32,
    /// The most copies that it may hold: 0 to 256, which is [`Node::NO_CEILING`].
    pub ceiling: u16,
}

/// A cluster with its former layout.
///
/// Any values may stand here; a call refuses what it can't use.
#[derive(Clone, Debug, PartialEq, Eq, Hash)]
pub struct Cluster {
    /// There are 2 to the power of `bits` partitions: 0 to 8.
    pub bits: u8,
    /// How many copies of each partition: 1 to 8.
    pub replication: u8,
    /// In how many zones at least the copies of a partition lie: 1 to `replication`.
    pub redundancy: u8,
    /// At most 32, by rising id.
    pub nodes: Vec<Node>,
    /// Where the copies are now; a row may name up to eight nodes, and nodes that are gone.
    pub former: Layout,
}

/// Tags of a cluster record's fields.
mod tag {
    pub const BITS: u8 = 1;
    pub const REPLICATION: u8 = 2;
    pub const REDUNDANCY: u8 = 3;
    pub const NODE: u8 = 4;
    pub const FORMER_ROW: u8 = 5;
}

impl Cluster {
    /// The cluster of a record.
    ///
    /// # Errors
    ///
    /// The first fault of the record, with its byte.
    pub fn from_record(record: &[u8]) -> Result<Cluster, Refused> {
        let mut former = Layout::default();
        let mut answer = [0; ffi::READ_CLUSTER_ANSWER];
        let refusal = ffi::read_cluster(record, former.cells_mut(), &mut answer);
        judge(refusal, Some(wide(answer[0], answer[1])), None)?;
        Ok(Cluster {
            bits: narrow(answer[2]),
            replication: narrow(answer[3]),
            redundancy: narrow(answer[4]),
            nodes: nodes(answer[5], &answer[6..]),
            former,
        })
    }

    /// The cluster's record. It is written whatever the values are; reading it says what is wrong.
    pub fn to_record(&self) -> Vec<u8> {
        let mut record = Vec::with_capacity(ffi::CLUSTER_RECORD_BYTES);
        for (_, bytes) in self.fields() {
            record.extend(bytes);
        }
        record
    }

    /// The record without the former rows.
    pub(crate) fn to_record_of_nodes(&self) -> Vec<u8> {
        let fields = self.fields_of_nodes().into_iter();
        fields.flat_map(|(_, bytes)| bytes).collect()
    }

    /// The fields of the record in order, each with what it holds.
    fn fields(&self) -> Vec<(Place, Vec<u8>)> {
        let mut fields = self.fields_of_nodes();
        for (partition, ids) in self.former.rows() {
            let number = u16::from(partition).to_be_bytes();
            let ids: Vec<u8> = ids.iter().flat_map(|id| id.to_be_bytes()).collect();
            let row = field(tag::FORMER_ROW, &[&number, &ids]);
            fields.push((Place::FormerRow(partition), row));
        }
        fields
    }

    /// The fields that come before the former rows.
    fn fields_of_nodes(&self) -> Vec<(Place, Vec<u8>)> {
        let mut fields = vec![
            (Place::Bits, field(tag::BITS, &[&[self.bits]])),
            (
                Place::Replication,
                field(tag::REPLICATION, &[&[self.replication]]),
            ),
            (
                Place::Redundancy,
                field(tag::REDUNDANCY, &[&[self.redundancy]]),
            ),
        ];
        for (index, node) in self.nodes.iter().enumerate() {
            let place = Place::NodeAt { index, id: node.id };
            fields.push((place, field(tag::NODE, &[&node.body()])));
        }
        fields
    }

    /// The refusal of a call that was handed this cluster's record: its caller has never seen the
    /// record, so a byte becomes the node, number or former row that the field at fault holds.
    pub(crate) fn in_own_terms(&self, refused: Refused) -> Refused {
        let Some(Place::Byte(byte)) = refused.place else {
            return refused;
        };
        let mut begins = 0;
        for (place, bytes) in self.fields() {
            if begins == byte {
                let place = Some(place);
                return Refused { place, ..refused };
            }
            begins += bytes.len() as u64;
        }
        refused
    }
}

impl Default for Cluster {
    /// The cluster with no nodes: one partition, one copy, one zone, and no former layout.
    fn default() -> Cluster {
        Cluster {
            bits: 0,
            replication: 1,
            redundancy: 1,
            nodes: Vec::new(),
            former: Layout::default(),
        }
    }
}

impl TryFrom<&[u8]> for Cluster {
    type Error = Refused;

    fn try_from(record: &[u8]) -> Result<Cluster, Refused> {
        Cluster::from_record(record)
    }
}

impl Node {
    /// The ceiling of a node that may hold a copy of every partition: there are 256 at most.
    pub const NO_CEILING: u16 = 256;

    /// The megabytes that copies may fill: the capacity less a sixteenth of it, rounded down, since
    /// boxes filled to the brim slow down when they tidy up.
    ///
    /// ```
    /// use dezghuri::Node;
    ///
    /// let usable = |capacity| Node { id: 1, zone: 1, capacity, ceiling: Node::NO_CEILING }.usable();
    /// assert_eq!([15, 16, 100].map(usable), [15, 15, 94]);
    /// ```
    pub fn usable(&self) -> u32 {
        self.capacity - self.capacity / 16
    }

    /// The body of a field that holds this node: id, zone, capacity and ceiling.
    pub(crate) fn body(&self) -> Vec<u8> {
        let id = self.id.to_be_bytes();
        let zone = self.zone.to_be_bytes();
        let capacity = self.capacity.to_be_bytes();
        let ceiling = self.ceiling.to_be_bytes();
        [&id[..], &zone, &capacity, &ceiling].concat()
    }
}

/// So many nodes, each of four cells of an answer: id, zone, capacity and ceiling.
pub(crate) fn nodes(number: u32, cells: &[u32]) -> Vec<Node> {
    let node = |cells: &[u32]| Node {
        id: cells[0],
        zone: narrow(cells[1]),
        capacity: cells[2],
        ceiling: narrow(cells[3]),
    };
    let nodes = cells.chunks(4).take(number as usize);
    nodes.map(node).collect()
}

/// A field: its tag, the length of its body in two bytes, its body.
pub(crate) fn field(tag: u8, body: &[&[u8]]) -> Vec<u8> {
    let body = body.concat();
    let length = u16::try_from(body.len()).expect("the longest body, a former row, has 34 bytes");
    let mut bytes = vec![tag];
    bytes.extend(length.to_be_bytes());
    bytes.extend(body);
    bytes
}

/// A number that the proved function has found in the range of the narrower type.
pub(crate) fn narrow<T: TryFrom<u32>>(number: u32) -> T {
    T::try_from(number)
        .ok()
        .expect("a read number is in its range")
}

#[cfg(test)]
mod tests {
    use super::*;
    use crate::{Held, Refusal, ENOUGH};

    fn sample() -> Cluster {
        let node = |id, zone, capacity, ceiling| Node {
            id,
            zone,
            capacity,
            ceiling,
        };
        let mut former = Layout::default();
        former.set_row(0, &[1, 9]);
        former.set_row(3, &[70_000]);
        Cluster {
            bits: 2,
            replication: 2,
            redundancy: 1,
            nodes: vec![node(1, 65_535, 0, 256), node(70_000, 0, u32::MAX, 7)],
            former,
        }
    }

    #[test]
    fn a_record_holds_the_fields_in_order() {
        let expected = [
            &[1, 0, 1, 2, 2, 0, 1, 2, 3, 0, 1, 1][..],
            &[4, 0, 12, 0, 0, 0, 1, 255, 255, 0, 0, 0, 0, 1, 0],
            &[4, 0, 12, 0, 1, 17, 112, 0, 0, 255, 255, 255, 255, 0, 7],
            &[5, 0, 10, 0, 0, 0, 0, 0, 1, 0, 0, 0, 9],
            &[5, 0, 6, 0, 3, 0, 1, 17, 112],
        ];
        assert_eq!(sample().to_record(), expected.concat());
    }

    #[test]
    fn a_record_reads_back_as_the_cluster() {
        let cluster = sample();
        let record = cluster.to_record();
        assert_eq!(Cluster::try_from(&record[..]), Ok(cluster));
    }

    #[test]
    fn a_bad_value_is_refused_with_its_byte() {
        let refused = |change: fn(&mut Node)| {
            let mut cluster = sample();
            change(&mut cluster.nodes[1]);
            Cluster::from_record(&cluster.to_record()).unwrap_err()
        };
        for refused in [
            refused(|node| node.id = 0),
            refused(|node| node.ceiling = 257),
        ] {
            assert_eq!(refused.refusal, Refusal::Range);
            assert_eq!(refused.place, Some(Place::Byte(27)));
        }
    }

    /// A record of before version 0.6.0, whose nodes have no ceilings.
    #[test]
    fn a_node_of_ten_bytes_is_refused() {
        let head = [1, 0, 1, 0, 2, 0, 1, 1, 3, 0, 1, 1];
        let node = [4, 0, 10, 0, 0, 0, 1, 0, 1, 0, 0, 0, 9];
        let refused = Cluster::from_record(&[&head[..], &node].concat()).unwrap_err();
        assert_eq!(refused.refusal, Refusal::Length);
        assert_eq!(refused.place, Some(Place::Byte(12)));
    }

    #[test]
    fn a_former_row_beyond_the_partitions_is_refused_and_not_dropped() {
        let mut cluster = sample();
        cluster.former.set_row(4, &[1]);
        let refused = Cluster::from_record(&cluster.to_record()).unwrap_err();
        assert_eq!(refused.refusal, Refusal::Range);
    }

    #[test]
    fn the_longest_record_has_the_length_named_for_it() {
        let mut cluster = sample();
        let ids = [1, 2, 3, 4, 5, 6, 7, 8];
        (0..=255).for_each(|partition| cluster.former.set_row(partition, &ids));
        cluster.nodes = vec![cluster.nodes[0]; 32];
        assert_eq!(cluster.to_record().len(), ffi::CLUSTER_RECORD_BYTES);
    }

    /// Whoever made the cluster is told of its own values, whatever the call.
    #[test]
    fn a_fault_is_told_in_the_clusters_own_terms() {
        let fault = |change: fn(&mut Cluster)| {
            let mut cluster = sample();
            change(&mut cluster);
            let planned = cluster.plan(ENOUGH).unwrap_err();
            assert_eq!(cluster.check(&Layout::default(), 1), Err(planned));
            assert_eq!(cluster.figures(&Layout::default(), 1), Err(planned));
            let moves = cluster.moves(&Held::default(), &Layout::default());
            assert_eq!(moves, Err(planned));
            (planned.refusal, planned.place.expect("it has a place"))
        };
        let second = |id| Place::NodeAt { index: 1, id };
        assert_eq!(fault(|c| c.bits = 9), (Refusal::Range, Place::Bits));
        assert_eq!(
            fault(|c| c.replication = 9),
            (Refusal::Range, Place::Replication)
        );
        assert_eq!(
            fault(|c| c.redundancy = 3),
            (Refusal::Range, Place::Redundancy)
        );
        assert_eq!(fault(|c| c.nodes[1].id = 0), (Refusal::Range, second(0)));
        assert_eq!(
            fault(|c| c.nodes[1].ceiling = 257),
            (Refusal::Range, second(70_000))
        );
        assert_eq!(fault(|c| c.nodes[1].id = 1), (Refusal::Order, second(1)));
        assert_eq!(
            fault(|c| c.former.set_row(1, &[5, 5])),
            (Refusal::Order, Place::FormerRow(1))
        );
        assert_eq!(
            fault(|c| c.former.set_row(4, &[1])),
            (Refusal::Range, Place::FormerRow(4))
        );
        let many = |c: &mut Cluster| {
            let node = |id| Node { id, ..c.nodes[0] };
            c.nodes = (1..=33).map(node).collect();
        };
        let last = Place::NodeAt { index: 32, id: 33 };
        assert_eq!(fault(many), (Refusal::Nodes, last));
    }

    #[test]
    fn the_cluster_with_no_nodes_is_the_papers() {
        let none = Cluster::default();
        assert_eq!(none.to_record(), [1, 0, 1, 0, 2, 0, 1, 1, 3, 0, 1, 1]);
        assert_eq!(Cluster::from_record(&none.to_record()), Ok(none.clone()));
        assert_eq!(none.plan(ENOUGH).unwrap_err().refusal, Refusal::NoLayout);
    }
}
