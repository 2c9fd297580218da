//! Changes of the nodes and their reverses, written from document 02, requests 2026-04 and 2026-05.

use crate::records::{field, number, Fields};
use crate::{Cluster, Node};
use std::collections::BTreeMap;

/// A change of the nodes.
#[derive(Clone, Copy, Debug, PartialEq, Eq)]
pub enum Change {
    Add(Node),
    Remove(u32),
    Resize(u32, u32),
}

impl Change {
    /// The bytes of its field.
    pub fn field(&self) -> Vec<u8> {
        let mut out = Vec::new();
        match self {
            Change::Add(node) => field(&mut out, 20, &node.body()),
            Change::Remove(id) => field(&mut out, 21, &id.to_be_bytes()),
            Change::Resize(id, capacity) => {
                let body = [id.to_be_bytes(), capacity.to_be_bytes()];
                field(&mut out, 22, body.as_flattened());
            }
        }
        out
    }

    /// What the body of a field of the tag says.
    fn of_body(tag: u8, body: &[u8]) -> Change {
        let id = number(&body[..4]) as u32;
        match tag {
            20 => Change::Add(Node {
                id,
                zone: number(&body[4..6]) as u16,
                capacity: number(&body[6..10]) as u32,
                ceiling: number(&body[10..]) as u16,
            }),
            21 => Change::Remove(id),
            _ => Change::Resize(id, number(&body[4..]) as u32),
        }
    }
}

/// The fault for which planning refuses a cluster in hand, former rows apart; 0 where it has none.
pub fn fault(c: &Cluster) -> u32 {
    let numbers = c.bits <= 8
        && (1..=8).contains(&c.replication)
        && (1..=c.replication).contains(&c.redundancy);
    if c.nodes.len() > 32 {
        6
    } else if !numbers || !c.nodes.iter().all(Node::is_in_range) {
        4
    } else if c.nodes.windows(2).any(|w| w[0].id >= w[1].id) {
        5
    } else {
        0
    }
}

/// An accepted change: the cluster with the change made, its reverse, and the next byte.
#[derive(Clone, Debug, PartialEq, Eq)]
pub struct Made {
    pub cluster: Cluster,
    pub reverse: Change,
    pub next: usize,
}

/// Makes the change at a byte of the record; refused, the refusal.
pub fn change(c: &Cluster, record: &[u8], at: usize) -> Result<Made, u32> {
    match fault(c) {
        0 => (),
        fault => return Err(fault),
    }
    if at >= record.len() {
        return Err(7);
    }
    let mut fields = Fields { bytes: record, at };
    let legal = |tag, len| [(20, 12), (21, 4), (22, 8)].contains(&(tag, len));
    let field = fields.next(|tag| [20, 21, 22].contains(&tag), legal);
    let (tag, body, _) = field.map_err(|(refusal, _)| refusal)?;
    let mut nodes: BTreeMap<u32, Node> = c.nodes.iter().map(|node| (node.id, *node)).collect();
    let reverse = make(&mut nodes, Change::of_body(tag, body))?;
    Ok(Made {
        cluster: Cluster {
            nodes: nodes.into_values().collect(),
            ..*c
        },
        reverse,
        next: fields.at,
    })
}

/// Makes the change among the nodes by id, and answers its reverse.
fn make(nodes: &mut BTreeMap<u32, Node>, change: Change) -> Result<Change, u32> {
    let (Change::Add(Node { id, .. }) | Change::Remove(id) | Change::Resize(id, _)) = change;
    if id == 0 {
        return Err(4);
    }
    match change {
        Change::Add(node) if !node.is_in_range() => Err(4),
        Change::Add(node) => {
            if nodes.contains_key(&id) {
                return Err(13);
            }
            if nodes.len() >= 32 {
                return Err(6);
            }
            nodes.insert(id, node);
            Ok(Change::Remove(id))
        }
        Change::Remove(_) => nodes.remove(&id).map(Change::Add).ok_or(14),
        Change::Resize(_, capacity) => {
            let node = nodes.get_mut(&id).ok_or(14u32)?;
            let before = std::mem::replace(&mut node.capacity, capacity);
            Ok(Change::Resize(id, before))
        }
    }
}

#[cfg(test)]
mod tests {
    use super::*;

    fn node(id: u32) -> Node {
        Node {
            id,
            zone: 7,
            capacity: 100 * id,
            ceiling: 256 - id as u16,
        }
    }

    fn cluster(ids: impl IntoIterator<Item = u32>) -> Cluster {
        Cluster {
            bits: 1,
            replication: 2,
            redundancy: 2,
            nodes: ids.into_iter().map(node).collect(),
        }
    }

    /// Worked out by hand from the request.
    #[test]
    fn changes_are_made_and_reversed() {
        let made = |record: &[u8]| {
            let made = change(&cluster([2, 4]), record, 0).expect("it can be made");
            assert_eq!(made.next, record.len());
            let ids = made.cluster.nodes.iter().map(|node| node.id).collect();
            let back = change(&made.cluster, &made.reverse.field(), 0).expect("it can be undone");
            assert_eq!(back.cluster, cluster([2, 4]));
            assert_eq!(back.reverse.field(), record);
            (ids, made.reverse.field())
        };
        assert_eq!(
            made(&[20, 0, 12, 0, 0, 0, 3, 1, 2, 0, 0, 4, 0, 0, 9]),
            (vec![2, 3, 4], vec![21, 0, 4, 0, 0, 0, 3])
        );
        assert_eq!(
            made(&[21, 0, 4, 0, 0, 0, 4]),
            (
                vec![2],
                vec![20, 0, 12, 0, 0, 0, 4, 0, 7, 0, 0, 1, 144, 0, 252]
            )
        );
        assert_eq!(
            made(&[22, 0, 8, 0, 0, 0, 2, 255, 0, 0, 0]),
            (vec![2, 4], vec![22, 0, 8, 0, 0, 0, 2, 0, 0, 0, 200])
        );
    }

    #[test]
    fn a_resized_node_keeps_its_ceiling() {
        let made = change(&cluster([2, 4]), &Change::Resize(4, 1).field(), 0).expect("it is made");
        let (resized, before) = (made.cluster.nodes[1], node(4));
        assert_eq!((resized.capacity, resized.ceiling), (1, before.ceiling));
        assert_eq!((resized.id, resized.zone), (before.id, before.zone));
    }

    /// The ceiling is looked at before the id, which is there already, and before a 33rd node.
    #[test]
    fn a_ceiling_above_256_is_out_of_range() {
        let added = |nodes, id, ceiling| {
            let field = Change::Add(Node {
                ceiling,
                ..node(id)
            })
            .field();
            change(&cluster(1..=nodes), &field, 0).err().unwrap_or(0)
        };
        assert_eq!([0, 256].map(|ceiling| added(2, 3, ceiling)), [0, 0]);
        for ceiling in [257, u16::MAX] {
            assert_eq!(added(2, 3, ceiling), 4);
            assert_eq!(added(2, 2, ceiling), 4);
            assert_eq!(added(32, 33, ceiling), 4);
        }
        let ten_bytes = [20, 0, 10, 0, 0, 0, 3, 0, 1, 0, 0, 0, 5];
        assert_eq!(change(&cluster([]), &ten_bytes, 0), Err(3));
        assert_eq!(change(&cluster([]), &ten_bytes[..5], 0), Err(3));
    }

    /// Each record has all faults that come later, as far as there can be several.
    #[test]
    fn faults_come_in_the_papers_order() {
        let refused = |ids: std::ops::RangeInclusive<u32>, record: &[u8], at| {
            change(&cluster(ids), record, at).expect_err("it is refused")
        };
        assert_eq!(refused(1..=33, &[], 1), 6);
        assert_eq!(refused(0..=1, &[], usize::MAX), 4);
        assert_eq!(refused(1..=2, &[], 0), 7);
        assert_eq!(refused(1..=2, &[9, 9], 2), 7);
        assert_eq!(refused(1..=2, &[9, 0], 0), 1);
        assert_eq!(refused(1..=2, &[23, 0, 9], 0), 2);
        assert_eq!(refused(1..=2, &[21, 0, 5, 0], 0), 3);
        assert_eq!(refused(1..=2, &[21, 0, 4, 0], 0), 1);
        assert_eq!(refused(1..=2, &[21, 0, 4, 0, 0, 0, 0], 0), 4);
        assert_eq!(refused(1..=2, &[21, 0, 4, 0, 0, 0, 3], 0), 14);
        assert_eq!(refused(1..=32, &Change::Add(node(32)).field(), 0), 13);
        assert_eq!(refused(1..=32, &Change::Add(node(33)).field(), 0), 6);
        assert_eq!(refused(1..=32, &Change::Resize(33, 1).field(), 0), 14);
    }

    #[test]
    fn faults_of_the_cluster_are_6_then_4_then_5() {
        assert_eq!(fault(&cluster(1..=32)), 0);
        assert_eq!(fault(&cluster([])), 0);
        assert_eq!(fault(&cluster([2, 1])), 5);
        assert_eq!(fault(&cluster([2, 2])), 5);
        assert_eq!(fault(&cluster([2, 2, 0])), 4);
        assert_eq!(fault(&cluster([0; 33])), 6);
        let with_ceiling = |ids: [u32; 2], ceiling| {
            let mut c = cluster(ids);
            c.nodes[1].ceiling = ceiling;
            fault(&c)
        };
        assert_eq!(with_ceiling([1, 2], 256), 0);
        assert_eq!(with_ceiling([1, 2], 257), 4);
        assert_eq!(with_ceiling([2, 1], 257), 4);
        assert_eq!(with_ceiling([2, 1], 256), 5);
        let numbers = |bits, replication, redundancy| {
            fault(&Cluster {
                bits,
                replication,
                redundancy,
                nodes: vec![node(2), node(1)],
            })
        };
        assert_eq!(numbers(8, 8, 8), 5);
        assert_eq!(numbers(0, 1, 1), 5);
        for (bits, replication, redundancy) in [
            (9, 1, 1),
            (0, 0, 1),
            (0, 9, 1),
            (0, 1, 0),
            (0, 1, 2),
            (0, 0, 0),
        ] {
            assert_eq!(numbers(bits, replication, redundancy), 4);
        }
    }
}
