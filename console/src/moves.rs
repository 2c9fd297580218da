//! The steps from what the nodes hold to a new layout.

use crate::cluster::{narrow, Cluster};
use crate::ffi;
use crate::layout::{without_zeros, Layout};
use crate::refusal::{judge, wide, Place, Refusal, Refused};
use std::collections::BTreeSet;
use std::fmt;

/// What a step does.
#[derive(Clone, Copy, Debug, PartialEq, Eq, Hash)]
pub enum StepKind {
    /// The node gets a copy of the partition.
    Send,
    /// The node drops its copy of the partition.
    Drop,
}

/// One step of a list of moves.
#[derive(Clone, Copy, Debug, PartialEq, Eq, Hash)]
pub struct Step {
    /// What is done.
    pub kind: StepKind,
    /// The partition that is copied or dropped.
    pub partition: u8,
    /// The node that gets the copy or drops it.
    pub node: u32,
    /// The node that sends the copy; nothing for a drop, and where no node of the cluster has one: then
    /// it has to come from elsewhere, as from a backup.
    pub source: Option<u32>,
}

impl Step {
    /// The step of the four cells of a list.
    fn of_cells(cells: &[u32]) -> Step {
        Step {
            kind: match cells[0] {
                ffi::SEND => StepKind::Send,
                _ => StepKind::Drop,
            },
            partition: narrow(cells[1]),
            node: cells[2],
            source: (cells[3] != 0).then_some(cells[3]),
        }
    }
}

impl fmt::Display for Step {
    fn fmt(&self, f: &mut fmt::Formatter<'_>) -> fmt::Result {
        let (partition, node) = (self.partition, self.node);
        match (self.kind, self.source) {
            (StepKind::Drop, _) => write!(f, "drop partition {partition} at node {node}"),
            (StepKind::Send, Some(source)) => {
                write!(
                    f,
                    "send partition {partition} to node {node} from node {source}"
                )
            }
            (StepKind::Send, None) => {
                write!(
                    f,
                    "send partition {partition} to node {node} from elsewhere"
                )
            }
        }
    }
}

/// Which nodes hold a copy of each partition, by rising id.
///
/// On the way from one layout to another a partition may lie on the nodes of both, so that a row has up
/// to sixteen ids here, and not eight as in a [`Layout`]. It may name nodes that are gone.
#[derive(Clone, PartialEq, Eq, Hash)]
pub struct Held {
    cells: Box<[u32; ffi::WIDE_CELLS]>,
}

impl Held {
    /// The ids of a partition's row.
    pub fn row(&self, partition: u8) -> &[u32] {
        let at = usize::from(partition) * ffi::WIDE_ROW_CELLS;
        without_zeros(&self.cells[at..at + ffi::WIDE_ROW_CELLS])
    }

    /// Sets a partition's row. Whether the ids are acceptable is judged by whoever uses it.
    ///
    /// # Panics
    ///
    /// Where there are more than sixteen ids.
    pub fn set_row(&mut self, partition: u8, ids: &[u32]) {
        assert!(
            ids.len() <= ffi::WIDE_ROW_CELLS,
            "a row of what is held has at most sixteen ids"
        );
        let at = usize::from(partition) * ffi::WIDE_ROW_CELLS;
        let row = &mut self.cells[at..at + ffi::WIDE_ROW_CELLS];
        row.fill(0);
        row[..ids.len()].copy_from_slice(ids);
    }

    /// The rows that are not empty, with their partitions.
    pub fn rows(&self) -> impl Iterator<Item = (u8, &[u32])> {
        let rows = (0..=u8::MAX).map(|partition| (partition, self.row(partition)));
        rows.filter(|(_, ids)| !ids.is_empty())
    }

    /// The cells: sixteen to a partition, ids first, then zeros.
    pub fn cells(&self) -> &[u32] {
        &*self.cells
    }

    /// The first row whose ids do not rise from above 0 on.
    fn first_fault(&self) -> Option<u8> {
        let rises = |ids: &[u32]| ids[0] != 0 && ids.windows(2).all(|pair| pair[0] < pair[1]);
        let mut rows = self.rows().filter(|(_, ids)| !rises(ids));
        rows.next().map(|(partition, _)| partition)
    }
}

impl Default for Held {
    /// Nothing is held.
    fn default() -> Held {
        Held {
            cells: Box::new([0; ffi::WIDE_CELLS]),
        }
    }
}

impl From<&Layout> for Held {
    /// What is held where all copies of the layout are in their places.
    fn from(layout: &Layout) -> Held {
        let mut held = Held::default();
        for (partition, ids) in layout.rows() {
            held.set_row(partition, ids);
        }
        held
    }
}

impl fmt::Debug for Held {
    fn fmt(&self, f: &mut fmt::Formatter<'_>) -> fmt::Result {
        f.debug_map().entries(self.rows()).finish()
    }
}

impl Cluster {
    /// The steps from what is held to the new layout. The cluster's own former layout plays no part.
    ///
    /// The partitions come one after another: of each first the sends, by rising id of the receiving
    /// nodes, then the drops, by rising id. A send has the lowest of the nodes that held the partition
    /// for its source; drops on nodes that are gone are not listed.
    ///
    /// Power may go after any number of steps: each partition then has all its former copies that
    /// nodes of this cluster held, or all its new ones. A list made afresh from what is then held
    /// ([`Cluster::held_after`]) has the steps that were left, though other sources perhaps, and ends
    /// in the new layout. So it is where no partition has more than sixteen ids, of both layouts
    /// together, on nodes of this cluster; none has where what was held is that of a [`Layout`]. That
    /// the disks have room for old and new copies during the move is not promised.
    ///
    /// ```
    /// use dezghuri::{Cluster, Held, Layout, Node};
    ///
    /// let node = |id| Node { id, zone: 1, capacity: 10, ceiling: Node::NO_CEILING };
    /// let cluster = Cluster {
    ///     replication: 2,
    ///     nodes: vec![node(1), node(2), node(3)],
    ///     ..Cluster::default()
    /// };
    /// let old: Layout = [(0, [3])].into_iter().collect();
    /// let new: Layout = [(0, [1, 2])].into_iter().collect();
    /// let held = Held::from(&old);
    /// let steps = cluster.moves(&held, &new)?;
    /// let told: Vec<String> = steps.iter().map(|step| step.to_string()).collect();
    /// assert_eq!(
    ///     told,
    ///     [
    ///         "send partition 0 to node 1 from node 3",
    ///         "send partition 0 to node 2 from node 3",
    ///         "drop partition 0 at node 3",
    ///     ]
    /// );
    ///
    /// // The power goes after the first of them.
    /// let held = cluster.held_after(&held, &steps[..1]).expect("two nodes hold it");
    /// let left = cluster.moves(&held, &new)?;
    /// assert_eq!(left[0].to_string(), "send partition 0 to node 2 from node 1");
    /// assert_eq!(left[1], steps[2]);
    /// let held = cluster.held_after(&held, &left).expect("two nodes hold it");
    /// assert_eq!(held, Held::from(&new));
    /// # Ok::<(), dezghuri::Refused>(())
    /// ```
    ///
    /// # Errors
    ///
    /// As [`Cluster::check`] at size 1; then [`Refusal::Order`] for a row of what is held whose ids do
    /// not rise.
    pub fn moves(&self, held: &Held, new: &Layout) -> Result<Vec<Step>, Refused> {
        let number = self.count_moves(held, new)?;
        let mut cells = vec![0; ffi::STEP_CELLS * number as usize];
        let mut answer = [0; ffi::MOVES_ANSWER];
        let refusal = ffi::moves(
            &self.to_record(),
            held.cells(),
            new.cells(),
            &mut cells,
            &mut answer,
        );
        self.judge_moves(refusal, &answer, held)?;
        let steps = cells.chunks_exact(ffi::STEP_CELLS);
        Ok(steps.map(Step::of_cells).collect())
    }

    /// The number of steps of [`Cluster::moves`], without the list.
    ///
    /// # Errors
    ///
    /// As [`Cluster::moves`].
    pub fn count_moves(&self, held: &Held, new: &Layout) -> Result<u32, Refused> {
        let mut answer = [0; ffi::MOVES_ANSWER];
        let record = self.to_record();
        let refusal = ffi::count_moves(&record, held.cells(), new.cells(), &mut answer);
        self.judge_moves(refusal, &answer, held)?;
        Ok(answer[3])
    }

    /// What the nodes of this cluster hold once these steps are made, each of them whole: a copy counts
    /// from the end of its send on, and no more once it is dropped. Nodes that are gone hold nothing.
    ///
    /// Nothing where a partition would lie on more than sixteen nodes.
    pub fn held_after(&self, held: &Held, steps: &[Step]) -> Option<Held> {
        let is_here = |id: &u32| self.nodes.iter().any(|node| node.id == *id);
        let mut after = Held::default();
        for partition in 0..=u8::MAX {
            let row = held.row(partition).iter().copied();
            let mut ids: BTreeSet<u32> = row.filter(is_here).collect();
            for step in steps.iter().filter(|step| step.partition == partition) {
                match step.kind {
                    StepKind::Send => ids.insert(step.node),
                    StepKind::Drop => ids.remove(&step.node),
                };
            }
            if ids.len() > ffi::WIDE_ROW_CELLS {
                return None;
            }
            let ids: Vec<u32> = ids.into_iter().collect();
            after.set_row(partition, &ids);
        }
        Some(after)
    }

    /// A row of what is held has the number of ids that do not rise too, but no byte: nothing at byte 0
    /// of a record has it.
    fn judge_moves(&self, refusal: u32, answer: &[u32], held: &Held) -> Result<(), Refused> {
        let byte = wide(answer[0], answer[1]);
        judge(refusal, Some(byte), Some(answer[2])).map_err(|refused| {
            match refused.refusal == Refusal::Order && byte == 0 {
                true => Refused {
                    place: held.first_fault().map(Place::HeldRow),
                    ..refused
                },
                false => self.in_own_terms(refused),
            }
        })
    }
}

#[cfg(test)]
mod tests {
    use super::*;
    use crate::Node;

    fn cluster(bits: u8, replication: u8, ids: &[u32]) -> Cluster {
        let node = |id: &u32| Node {
            id: *id,
            zone: 1,
            capacity: 10,
            ceiling: Node::NO_CEILING,
        };
        Cluster {
            bits,
            replication,
            nodes: ids.iter().map(node).collect(),
            ..Cluster::default()
        }
    }

    fn layout(rows: &[&[u32]]) -> Layout {
        (0..).zip(rows).collect()
    }

    /// Node 9 is gone, and with it the copies of partition 1 that it held: only those of partition 0 and
    /// the one at node 3 can be sent.
    #[test]
    fn steps_are_named() {
        let cluster = cluster(1, 2, &[1, 2, 3]);
        let old = layout(&[&[2, 3, 9], &[9]]);
        let new = layout(&[&[1, 2], &[1, 3]]);
        let steps = cluster.moves(&Held::from(&old), &new).unwrap();
        let send = |partition, node, source| Step {
            kind: StepKind::Send,
            partition,
            node,
            source,
        };
        let drop = Step {
            kind: StepKind::Drop,
            partition: 0,
            node: 3,
            source: None,
        };
        let known = [
            send(0, 1, Some(2)),
            drop,
            send(1, 1, None),
            send(1, 3, None),
        ];
        assert_eq!(steps, known);
        assert_eq!(cluster.count_moves(&Held::from(&old), &new), Ok(4));
        let told = "send partition 1 to node 1 from elsewhere";
        assert_eq!(steps[2].to_string(), told);
    }

    #[test]
    fn what_is_held_holds_after_each_step_and_ends_in_the_new_layout() {
        let cluster = cluster(1, 2, &[1, 2, 3]);
        let held = Held::from(&layout(&[&[2, 3, 9], &[9]]));
        let new = layout(&[&[1, 2], &[1, 3]]);
        let steps = cluster.moves(&held, &new).unwrap();
        let rows = |done: usize| {
            let held = cluster.held_after(&held, &steps[..done]).unwrap();
            (held.row(0).to_vec(), held.row(1).to_vec())
        };
        assert_eq!(rows(0), (vec![2, 3], vec![]));
        assert_eq!(rows(1), (vec![1, 2, 3], vec![]));
        assert_eq!(rows(2), (vec![1, 2], vec![]));
        assert_eq!(rows(3), (vec![1, 2], vec![1]));
        assert_eq!(rows(4), (vec![1, 2], vec![1, 3]));
        assert_eq!(cluster.held_after(&held, &steps), Some(Held::from(&new)));
        for done in 0..=4 {
            let held = cluster.held_after(&held, &steps[..done]).unwrap();
            let left = cluster.moves(&held, &new).unwrap();
            let plain = |steps: &[Step]| -> Vec<(StepKind, u8, u32)> {
                let plain = |step: &Step| (step.kind, step.partition, step.node);
                steps.iter().map(plain).collect()
            };
            assert_eq!(plain(&left), plain(&steps[done..]), "{done}");
        }
    }

    #[test]
    fn nothing_is_to_be_done_where_the_new_layout_is_held() {
        let cluster = cluster(1, 1, &[1, 2]);
        let new = layout(&[&[1], &[2]]);
        assert_eq!(cluster.moves(&Held::from(&new), &new), Ok(Vec::new()));
    }

    /// Sixteen nodes hold the partition, and a seventeenth would get a copy.
    #[test]
    fn no_more_than_sixteen_nodes_can_hold_a_partition() {
        let ids: Vec<u32> = (1..=17).collect();
        let cluster = cluster(0, 1, &ids);
        let mut held = Held::default();
        held.set_row(0, &ids[..16]);
        let steps = cluster.moves(&held, &layout(&[&[17]])).unwrap();
        assert_eq!(steps.len(), 17);
        assert_eq!(cluster.held_after(&held, &steps[..1]), None);
        let after = cluster.held_after(&held, &steps[..2]).unwrap();
        assert_eq!(after.row(0), &ids[1..]);
        let mut gone = Held::default();
        gone.set_row(0, &(2..=17).map(|id| 10 * id).collect::<Vec<u32>>());
        let after = cluster.held_after(&gone, &steps[..1]).unwrap();
        assert_eq!(after.row(0), [17], "nodes that are gone take no room");
    }

    #[test]
    fn faults_are_those_of_check_and_then_those_of_what_is_held() {
        let cluster = cluster(1, 1, &[1, 2]);
        let (good, bad) = (layout(&[&[1], &[2]]), layout(&[&[1], &[3]]));
        let mut held = Held::default();
        held.set_row(1, &[7, 7]);
        held.set_row(2, &[5, 0, 4]);
        let refused = cluster.moves(&held, &bad).unwrap_err();
        assert_eq!(cluster.check(&bad, 1), Err(refused));
        assert_eq!(refused.place, Some(Place::Partition(1)));
        let refused = Refused {
            refusal: Refusal::Order,
            place: Some(Place::HeldRow(1)),
        };
        assert_eq!(cluster.moves(&held, &good), Err(refused));
        assert_eq!(cluster.count_moves(&held, &good), Err(refused));
        held.set_row(1, &[0, 7]);
        assert_eq!(cluster.moves(&held, &good), Err(refused));
        held.set_row(1, &[7]);
        assert_eq!(cluster.count_moves(&held, &good), Ok(2));
        let mut falling = cluster.clone();
        falling.nodes[1].id = 1;
        let place = Place::NodeAt { index: 1, id: 1 };
        let refused = falling.moves(&held, &good).unwrap_err();
        assert_eq!(
            (refused.refusal, refused.place),
            (Refusal::Order, Some(place))
        );
    }
}
