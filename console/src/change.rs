//! Changes of the nodes, staged before planning, and their undoing.

use crate::cluster::{field, nodes, Cluster, Node};
use crate::ffi;
use crate::refusal::{judge, wide, Place, Refused};

/// Tags of a change's field.
mod tag {
    pub const ADD: u8 = 20;
    pub const REMOVE: u8 = 21;
    pub const RESIZE: u8 = 22;
}

/// A change of a cluster's nodes. A node gets another zone or ceiling by being removed and added anew.
///
/// Any values may stand here; who makes the change refuses what it can't use.
#[derive(Clone, Copy, Debug, PartialEq, Eq, Hash)]
pub enum Change {
    /// A node is added, whose id is not there yet.
    Add(Node),
    /// The node of this id is removed.
    Remove(u32),
    /// The node of this id has another capacity from now on; zone and ceiling stay as they are.
    Resize {
        /// Its id.
        id: u32,
        /// Its new capacity in megabytes.
        capacity: u32,
    },
}

impl Change {
    /// The id that the change is about.
    pub fn id(&self) -> u32 {
        match self {
            Change::Add(node) => node.id,
            Change::Remove(id) | Change::Resize { id, .. } => *id,
        }
    }

    /// The bytes of the change's field.
    ///
    /// ```
    /// use dezghuri::{Change, Node};
    ///
    /// assert_eq!(Change::Remove(258).to_field(), [21, 0, 4, 0, 0, 1, 2]);
    /// let node = Node { id: 7, zone: 1, capacity: 500, ceiling: 40 };
    /// let added = [20, 0, 12, 0, 0, 0, 7, 0, 1, 0, 0, 1, 244, 0, 40];
    /// assert_eq!(Change::Add(node).to_field(), added);
    /// ```
    pub fn to_field(&self) -> Vec<u8> {
        match self {
            Change::Add(node) => field(tag::ADD, &[&node.body()]),
            Change::Remove(id) => field(tag::REMOVE, &[&id.to_be_bytes()]),
            Change::Resize { id, capacity } => {
                field(tag::RESIZE, &[&id.to_be_bytes(), &capacity.to_be_bytes()])
            }
        }
    }

    /// The change whose field these bytes are; nothing where they are not one field of a change. It
    /// serves to show a reverse; whether the change can be made is [`Cluster::change`]'s to say.
    ///
    /// ```
    /// use dezghuri::Change;
    ///
    /// let grown = Change::Resize { id: 7, capacity: 4000 };
    /// assert_eq!(Change::from_field(&grown.to_field()), Some(grown));
    /// assert_eq!(Change::from_field(&[21, 0, 4, 0, 0, 1]), None);
    /// // A node of before version 0.6.0, without a ceiling.
    /// assert_eq!(Change::from_field(&[20, 0, 10, 0, 0, 0, 7, 0, 1, 0, 0, 1, 244]), None);
    /// ```
    pub fn from_field(bytes: &[u8]) -> Option<Change> {
        match *bytes {
            [tag::ADD, 0, 12, a, b, c, d, y, z, k, l, m, n, g, h] => Some(Change::Add(Node {
                id: u32::from_be_bytes([a, b, c, d]),
                zone: u16::from_be_bytes([y, z]),
                capacity: u32::from_be_bytes([k, l, m, n]),
                ceiling: u16::from_be_bytes([g, h]),
            })),
            [tag::REMOVE, 0, 4, a, b, c, d] => {
                Some(Change::Remove(u32::from_be_bytes([a, b, c, d])))
            }
            [tag::RESIZE, 0, 8, a, b, c, d, k, l, m, n] => Some(Change::Resize {
                id: u32::from_be_bytes([a, b, c, d]),
                capacity: u32::from_be_bytes([k, l, m, n]),
            }),
            _ => None,
        }
    }

    /// The record of the changes: their fields, one after the other.
    pub fn record<'a>(changes: impl IntoIterator<Item = &'a Change>) -> Vec<u8> {
        changes.into_iter().flat_map(Change::to_field).collect()
    }
}

/// What a change of a record that was made answers.
#[derive(Clone, Debug, PartialEq, Eq, Hash)]
pub struct Changed {
    /// The byte of the record at which the next change begins, or the record's length.
    pub next: usize,
    /// The field of the change that reverses this one; [`Change::from_field`] reads it.
    pub reverse: Vec<u8>,
}

/// What the changes of a record, made one after the other, answer.
#[derive(Clone, Debug, PartialEq, Eq, Hash)]
#[must_use = "a change may have been refused"]
pub struct Staged {
    /// The record of the reverses of all changes that were made, the last one first: these changes,
    /// made in this order, restore the nodes. Empty where none was made.
    pub undo: Vec<u8>,
    /// Why the changes were not all made; those before the refused one were.
    pub refused: Option<Refused>,
}

impl Cluster {
    /// Makes a change, and answers the one that reverses it.
    ///
    /// An accepted change has replaced the nodes, by rising id as before, and nothing else. A refused
    /// one alters nothing. The former layout stays as it is and is not looked at; a node that is removed
    /// keeps its former copies there.
    ///
    /// The reverses, made in backward order, restore the nodes:
    ///
    /// ```
    /// use dezghuri::{Change, Cluster, Node};
    ///
    /// let node = |id, capacity| Node { id, zone: 1, capacity, ceiling: Node::NO_CEILING };
    /// let mut cluster = Cluster { nodes: vec![node(1, 100), node(5, 70)], ..Cluster::default() };
    /// let before = cluster.clone();
    ///
    /// let added = cluster.change(Change::Add(node(3, 50)))?;
    /// let removed = cluster.change(Change::Remove(1))?;
    /// assert_eq!(cluster.nodes, [node(3, 50), node(5, 70)]);
    /// assert_eq!(removed, Change::Add(node(1, 100)));
    ///
    /// cluster.change(removed)?;
    /// cluster.change(added)?;
    /// assert_eq!(cluster, before);
    /// # Ok::<(), dezghuri::Refused>(())
    /// ```
    ///
    /// # Errors
    ///
    /// First a fault of the cluster, its former layout apart, with the value at fault. Then, without a
    /// place: [`Refusal::Range`](crate::Refusal::Range) for an id of 0 or a ceiling above 256,
    /// [`Refusal::Present`](crate::Refusal::Present), [`Refusal::Absent`](crate::Refusal::Absent), or
    /// [`Refusal::Nodes`](crate::Refusal::Nodes) for a 33rd node.
    pub fn change(&mut self, change: Change) -> Result<Change, Refused> {
        let changed = self.change_at(&change.to_field(), 0);
        // The caller has seen no record, so no byte of it is told.
        let changed = changed.map_err(|refused| Refused {
            place: refused.place.filter(|at| !matches!(at, Place::Byte(_))),
            ..refused
        })?;
        let reverse = Change::from_field(&changed.reverse);
        Ok(reverse.expect("a reverse is a field of a change"))
    }

    /// Makes the change that begins at a byte of a record of changes ([`Change::record`]), as
    /// [`Cluster::change`] does, and answers the byte at which the next one begins.
    ///
    /// ```
    /// use dezghuri::{Change, Cluster, Node};
    ///
    /// let node = |id, capacity| Node { id, zone: 1, capacity, ceiling: Node::NO_CEILING };
    /// let mut cluster = Cluster { nodes: vec![node(1, 100)], ..Cluster::default() };
    /// let record = Change::record(&[Change::Add(node(3, 50)), Change::Remove(1)]);
    /// let added = cluster.change_at(&record, 0)?;
    /// assert_eq!(added.reverse, Change::Remove(3).to_field());
    /// let removed = cluster.change_at(&record, added.next)?;
    /// assert_eq!(removed.next, record.len());
    /// assert_eq!(cluster.nodes, [node(3, 50)]);
    /// # Ok::<(), dezghuri::Refused>(())
    /// ```
    ///
    /// # Errors
    ///
    /// First a fault of the cluster, its former layout apart, with the value at fault. Then, with the
    /// given byte: [`Refusal::Missing`](crate::Refusal::Missing) at or past the record's end, a fault of
    /// the field, or of the change as [`Cluster::change`].
    pub fn change_at(&mut self, changes: &[u8], at: usize) -> Result<Changed, Refused> {
        let mut reverse = vec![0; ffi::REVERSE_BYTES];
        let mut answer = [0; ffi::CHANGE_ANSWER];
        let record = self.to_record_of_nodes();
        let refusal = ffi::change(&record, changes, at, &mut reverse, &mut answer);
        self.judge_change(refusal, &answer)?;
        self.nodes = nodes(answer[8], &answer[9..]);
        reverse.truncate(answer[4] as usize);
        let next = usize::try_from(wide(answer[2], answer[3])).expect("no longer than the record");
        Ok(Changed { next, reverse })
    }

    /// Makes all changes of a record in order, up to the first that is refused: as [`Cluster::change_at`]
    /// from byte 0 on, each at the byte answered before it. A record holds one change at least, so an
    /// empty one is refused.
    ///
    /// ```
    /// use dezghuri::{Change, Cluster, Node, Place, Refusal};
    ///
    /// let node = |id, capacity| Node { id, zone: 1, capacity, ceiling: Node::NO_CEILING };
    /// let mut cluster = Cluster { nodes: vec![node(1, 100)], ..Cluster::default() };
    /// let before = cluster.clone();
    ///
    /// let grown = Change::Resize { id: 1, capacity: 200 };
    /// let staged = cluster.change_all(&Change::record(&[grown, Change::Add(node(2, 50))]));
    /// assert_eq!(staged.refused, None);
    /// assert_eq!(cluster.nodes, [node(1, 200), node(2, 50)]);
    /// assert_eq!(cluster.change_all(&staged.undo).refused, None);
    /// assert_eq!(cluster, before);
    ///
    /// let staged = cluster.change_all(&Change::record(&[grown, Change::Remove(9)]));
    /// let refused = staged.refused.expect("there is no node 9");
    /// assert_eq!((refused.refusal, refused.place), (Refusal::Absent, Some(Place::Byte(11))));
    /// assert_eq!(cluster.nodes, [node(1, 200)]);
    /// assert_eq!(cluster.change_all(&staged.undo).refused, None);
    /// assert_eq!(cluster, before);
    /// ```
    pub fn change_all(&mut self, changes: &[u8]) -> Staged {
        let mut reverses = Vec::new();
        let mut at = 0;
        let refused = loop {
            match self.change_at(changes, at) {
                Ok(changed) => {
                    reverses.push(changed.reverse);
                    at = changed.next;
                }
                Err(refused) => break Some(refused),
            }
            if at == changes.len() {
                break None;
            }
        };
        reverses.reverse();
        Staged {
            undo: reverses.concat(),
            refused,
        }
    }

    /// Faults of the cluster and of the change have the same numbers. The cluster is at fault where a byte
    /// of its record is answered, or where its bits are, which stand at byte 0.
    fn judge_change(&self, refusal: u32, answer: &[u32]) -> Result<(), Refused> {
        let byte = wide(answer[0], answer[1]);
        if byte == 0 && self.bits <= 8 {
            return judge(refusal, Some(wide(answer[2], answer[3])), None);
        }
        judge(refusal, Some(byte), None).map_err(|refused| self.in_own_terms(refused))
    }
}

#[cfg(test)]
mod tests {
    use super::*;
    use crate::{Layout, Place, Refusal};

    fn node(id: u32) -> Node {
        Node {
            id,
            zone: 65_535,
            capacity: 100 * id,
            ceiling: 256 - id as u16,
        }
    }

    /// Nodes 2, 4 and 6, of which 4 has a former copy.
    fn cluster() -> Cluster {
        Cluster {
            nodes: [2, 4, 6].map(node).to_vec(),
            former: Layout::from_iter([(0, [4, 9])]),
            ..Cluster::default()
        }
    }

    fn made(change: Change) -> (Vec<u32>, Change) {
        let mut cluster = cluster();
        let reverse = cluster.change(change).unwrap();
        let ids = cluster.nodes.iter().map(|node| node.id).collect();
        let back = cluster.change_at(&reverse.to_field(), 0).unwrap();
        assert_eq!(back.next, reverse.to_field().len());
        assert_eq!(back.reverse, change.to_field());
        assert_eq!(cluster, self::cluster());
        (ids, reverse)
    }

    #[test]
    fn a_field_holds_the_change() {
        let add = Change::Add(Node {
            id: 70_000,
            zone: 258,
            capacity: u32::MAX,
            ceiling: 256,
        });
        let resize = Change::Resize {
            id: u32::MAX,
            capacity: 1,
        };
        let fields = [
            &[20, 0, 12, 0, 1, 17, 112, 1, 2, 255, 255, 255, 255, 1, 0][..],
            &[21, 0, 4, 0, 0, 0, 9],
            &[22, 0, 8, 255, 255, 255, 255, 0, 0, 0, 1],
        ];
        let changes = [add, Change::Remove(9), resize];
        for (change, field) in changes.iter().zip(fields) {
            assert_eq!(change.to_field(), field);
            assert_eq!(Change::from_field(field), Some(*change));
            assert_eq!(Change::from_field(&field[1..]), None);
            assert_eq!(Change::from_field(&[field, &[0]].concat()), None);
        }
        assert_eq!(Change::record(&changes), fields.concat());
        assert_eq!(changes.map(|change| change.id()), [70_000, 9, u32::MAX]);
    }

    #[test]
    fn each_change_is_made_and_undone() {
        for id in [1, 3, 5, 7] {
            let (ids, reverse) = made(Change::Add(node(id)));
            let mut expected = vec![2, 4, 6, id];
            expected.sort_unstable();
            assert_eq!((ids, reverse), (expected, Change::Remove(id)));
        }
        assert_eq!(made(Change::Remove(4)), (vec![2, 6], Change::Add(node(4))));
        let resize = |capacity| Change::Resize { id: 6, capacity };
        assert_eq!(made(resize(7)), (vec![2, 4, 6], resize(600)));
        assert_eq!(made(resize(600)), (vec![2, 4, 6], resize(600)));
    }

    #[test]
    fn a_resized_node_keeps_its_ceiling() {
        let mut cluster = cluster();
        let resize = Change::Resize { id: 4, capacity: 1 };
        cluster.change(resize).unwrap();
        let resized = Node {
            capacity: 1,
            ..node(4)
        };
        assert_eq!(cluster.nodes, [node(2), resized, node(6)]);
    }

    #[test]
    fn a_refused_change_alters_nothing_and_is_told_with_its_byte() {
        let absent = Change::Resize { id: 3, capacity: 1 };
        let high = |id| Node {
            ceiling: 257,
            ..node(id)
        };
        let cases = [
            (vec![], Refusal::Missing),
            (vec![20, 0], Refusal::Cut),
            (node(3).body(), Refusal::Tag),
            (vec![21, 0, 5], Refusal::Length),
            (vec![21, 0, 4, 0, 0, 0], Refusal::Cut),
            (vec![20, 0, 10], Refusal::Length),
            (Change::Remove(0).to_field(), Refusal::Range),
            (Change::Add(high(3)).to_field(), Refusal::Range),
            (Change::Add(high(4)).to_field(), Refusal::Range),
            (Change::Add(node(4)).to_field(), Refusal::Present),
            (Change::Remove(5).to_field(), Refusal::Absent),
            (absent.to_field(), Refusal::Absent),
        ];
        for (field, refusal) in cases {
            for at in [0, 7] {
                let mut changed = cluster();
                let changes = [&[255; 7][..at], &field].concat();
                let place = Some(Place::Byte(at as u64));
                let refused = Refused { refusal, place };
                assert_eq!(changed.change_at(&changes, at), Err(refused));
                assert_eq!(changed, cluster(), "{changes:?}");
            }
            if let Some(change) = Change::from_field(&field) {
                let place = None;
                let refused = Err(Refused { refusal, place });
                assert_eq!(cluster().change(change), refused);
            }
        }
        let last = usize::MAX;
        let refused = cluster().change_at(&[], last).unwrap_err();
        assert_eq!(refused.place, Some(Place::Byte(last as u64)));
    }

    #[test]
    fn there_are_32_nodes_at_most() {
        let full = Cluster {
            nodes: (1..=32).map(node).collect(),
            ..Cluster::default()
        };
        let refusal = |id| {
            let refused = full.clone().change(Change::Add(node(id)));
            refused.unwrap_err().refusal
        };
        assert_eq!(refusal(32), Refusal::Present);
        assert_eq!(refusal(33), Refusal::Nodes);
    }

    /// The change would be refused too, in each case.
    #[test]
    fn a_fault_of_the_cluster_comes_first_and_is_told_in_its_own_terms() {
        let fault = |damage: fn(&mut Cluster)| {
            let mut cluster = cluster();
            damage(&mut cluster);
            let before = cluster.clone();
            let refused = cluster.change_at(&Change::Remove(0).to_field(), 0);
            assert_eq!(
                cluster.change(Change::Remove(0)).err(),
                refused.clone().err()
            );
            assert_eq!(cluster, before);
            let refused = refused.unwrap_err();
            (refused.refusal, refused.place.expect("it has a place"))
        };
        let second = |id| Place::NodeAt { index: 1, id };
        assert_eq!(fault(|c| c.bits = 9), (Refusal::Range, Place::Bits));
        assert_eq!(
            fault(|c| c.redundancy = 2),
            (Refusal::Range, Place::Redundancy)
        );
        assert_eq!(fault(|c| c.nodes[1].id = 0), (Refusal::Range, second(0)));
        assert_eq!(
            fault(|c| c.nodes[1].ceiling = 257),
            (Refusal::Range, second(4))
        );
        assert_eq!(fault(|c| c.nodes[1].id = 2), (Refusal::Order, second(2)));
        let many = |c: &mut Cluster| c.nodes = (1..=33).map(node).collect();
        let last = Place::NodeAt { index: 32, id: 33 };
        assert_eq!(fault(many), (Refusal::Nodes, last));
    }

    /// The partition is beyond the last one, and planning refuses it.
    #[test]
    fn the_former_layout_is_not_looked_at() {
        let mut cluster = cluster();
        cluster.former.set_row(1, &[5, 5]);
        let former = cluster.former.clone();
        assert!(cluster.plan(crate::ENOUGH).is_err());
        assert!(cluster.change(Change::Remove(4)).is_ok());
        assert_eq!(cluster.former, former);
        assert_eq!(cluster.nodes, [2, 6].map(node));
    }

    #[test]
    fn changes_before_a_refused_one_remain_made() {
        let mut cluster = cluster();
        let changes = [Change::Add(node(3)), Change::Remove(2), Change::Remove(2)];
        let staged = cluster.change_all(&Change::record(&changes));
        let refused = staged.refused.expect("node 2 is gone");
        assert_eq!(refused.place, Some(Place::Byte(22)));
        assert_eq!(cluster.nodes, [3, 4, 6].map(node));
        let undo = [Change::Add(node(2)), Change::Remove(3)];
        assert_eq!(staged.undo, Change::record(&undo));
        assert_eq!(cluster.change_all(&staged.undo).refused, None);
        assert_eq!(cluster, self::cluster());
        let nothing = cluster.change_all(&[]);
        let refused = nothing.refused.expect("a record holds a change");
        assert_eq!(refused.refusal, Refusal::Missing);
        assert_eq!(nothing.undo, []);
    }
}
