//! The list of moves, written from document 02, request 2026-07: rows are plain sets, and a step is made on
//! them as it says.

use crate::cells::{self, CELLS};
use crate::records::read_cluster;
use crate::{Cluster, Layout};
use std::collections::BTreeSet;

/// Cells of one row of what is held.
pub const WIDE_ROW: usize = 16;

/// Cells of what is held: 256 rows.
pub const WIDE: usize = 4096;

/// What is held: the nodes that have a copy, for each partition.
pub type Held = Vec<BTreeSet<u32>>;

/// One step: the cells kind (0 send, 1 drop), partition, node and source.
pub type Step = [u32; 4];

/// What the nodes of the cluster hold: the others are gone, and their copies with them.
pub fn surviving(c: &Cluster, held: &Held) -> Held {
    let ids: BTreeSet<u32> = c.nodes.iter().map(|node| node.id).collect();
    held.iter().map(|row| row & &ids).collect()
}

/// The rows of a layout as sets.
pub fn sets(layout: &Layout) -> Held {
    let set = |row: &Vec<u32>| row.iter().copied().collect();
    layout.iter().map(set).collect()
}

/// The steps from what is held to the new layout.
pub fn steps(c: &Cluster, held: &Held, new: &Layout) -> Vec<Step> {
    let mut steps = Vec::new();
    for (p, (old, new)) in surviving(c, held).iter().zip(sets(new)).enumerate() {
        let source = old.first().copied().unwrap_or(0);
        let sends = new.difference(old).map(|id| [0, p as u32, *id, source]);
        let drops = old.difference(&new).map(|id| [1, p as u32, *id, 0]);
        steps.extend(sends.chain(drops));
    }
    steps
}

/// Makes a step.
pub fn make(held: &mut Held, [kind, partition, node, _]: Step) {
    let row = &mut held[partition as usize];
    let is_new = match kind {
        0 => row.insert(node),
        _ => row.remove(&node),
    };
    assert!(is_new, "a step alters what is held");
}

/// The step without its source.
pub fn plain([kind, partition, node, _]: Step) -> [u32; 3] {
    [kind, partition, node]
}

/// Whether no partition has more than sixteen ids of the two together.
pub fn has_room(c: &Cluster, held: &Held, new: &Layout) -> bool {
    let held = surviving(c, held);
    let mut rows = held.iter().zip(sets(new));
    rows.all(|(old, new)| (old | &new).len() <= WIDE_ROW)
}

/// What is held as cells, zeros from its last partition on; nothing where a row has more than sixteen ids.
pub fn wide_cells(held: &Held) -> Option<Vec<u32>> {
    let mut cells = vec![0; WIDE];
    for (row, ids) in cells.chunks_mut(WIDE_ROW).zip(held) {
        if ids.len() > WIDE_ROW {
            return None;
        }
        row.iter_mut().zip(ids).for_each(|(cell, id)| *cell = *id);
    }
    Some(cells)
}

/// The rows of so many partitions; nothing where one of them is not rising ids and then zeros.
fn held_of(cells: &[u32], partitions: usize) -> Option<Held> {
    let row = |row: &[u32]| {
        let (ids, zeros) = row.split_at(row.iter().position(|id| *id == 0).unwrap_or(WIDE_ROW));
        let rises = ids.windows(2).all(|w| w[0] < w[1]);
        let is_row = rises && zeros.iter().all(|cell| *cell == 0);
        is_row.then(|| ids.iter().copied().collect())
    };
    cells.chunks(WIDE_ROW).take(partitions).map(row).collect()
}

/// A refusal, the byte of a refused reading, and the partition or node that goes with it.
pub type Refused = (u32, usize, u32);

/// What a count answers of a record and lent cells, as the list itself; with so many cells for the list,
/// what a list answers.
pub fn answer(
    record: &[u8],
    former: &[u32],
    assignment: &[u32],
    room: Option<usize>,
) -> Result<Vec<Step>, Refused> {
    let (c, _) = read_cluster(record).map_err(|(refusal, byte)| (refusal, byte, 0))?;
    if assignment.len() < CELLS || former.len() < WIDE {
        return Err((8, 0, 0));
    }
    match cells::check(&c, assignment, 1) {
        (0, _) => (),
        (refusal, place) => return Err((refusal, 0, place)),
    }
    let held = held_of(former, c.partitions()).ok_or((5, 0, 0))?;
    let steps = steps(&c, &held, &cells::layout_of(assignment, c.partitions()));
    match room.is_some_and(|room| room < 4 * steps.len()) {
        true => Err((8, 0, 0)),
        false => Ok(steps),
    }
}

#[cfg(test)]
mod tests {
    use super::*;
    use crate::cells::cells_of;
    use crate::records::cluster_record;
    use crate::Node;

    fn cluster(bits: u32, replication: usize, ids: impl IntoIterator<Item = u32>) -> Cluster {
        let node = |id| Node {
            id,
            zone: 1,
            capacity: 9,
            ceiling: Node::NO_CEILING,
        };
        Cluster {
            bits,
            replication,
            redundancy: 1,
            nodes: ids.into_iter().map(node).collect(),
        }
    }

    fn held(rows: &[&[u32]]) -> Held {
        rows.iter()
            .map(|row| row.iter().copied().collect())
            .collect()
    }

    /// Worked out by hand from the request: node 9 is gone.
    #[test]
    fn sends_come_before_drops_and_partition_by_partition() {
        let c = cluster(1, 2, [1, 2, 3, 4]);
        let before = held(&[&[3, 4, 9], &[9]]);
        let new = vec![vec![1, 3], vec![2, 4]];
        let known = [[0, 0, 1, 3], [1, 0, 4, 0], [0, 1, 2, 0], [0, 1, 4, 0]];
        assert_eq!(steps(&c, &before, &new), known);
        let mut now = surviving(&c, &before);
        known[..3].iter().for_each(|step| make(&mut now, *step));
        assert_eq!(now, held(&[&[1, 3], &[2]]));
        assert_eq!(steps(&c, &now, &new), [[0, 1, 4, 2]]);
        make(&mut now, [0, 1, 4, 2]);
        assert_eq!(now, sets(&new));
    }

    /// Node 17 and the sixteen that hold the partition are too many, unless one of these is gone.
    #[test]
    fn sixteen_ids_of_both_are_the_most() {
        let before = held(&[&(1..=16).collect::<Vec<u32>>()]);
        let new = vec![vec![17]];
        assert!(!has_room(&cluster(0, 1, 1..=17), &before, &new));
        assert!(has_room(&cluster(0, 1, 2..=17), &before, &new));
        assert!(has_room(&cluster(0, 1, 1..=17), &before, &vec![vec![16]]));
        assert_eq!(
            wide_cells(&before).map(|cells| cells[15..18].to_vec()),
            Some(vec![16, 0, 0])
        );
        assert_eq!(wide_cells(&held(&[&(1..=17).collect::<Vec<u32>>()])), None);
    }

    /// Each call has all faults that come later, too.
    #[test]
    fn faults_come_in_the_papers_order() {
        let record = cluster_record(&cluster(1, 1, [1, 2]), &vec![]);
        let mut former = vec![0; WIDE];
        former[..2].copy_from_slice(&[7, 7]);
        let (good, bad) = (
            cells_of(&vec![vec![1], vec![2]]),
            cells_of(&vec![vec![1], vec![3]]),
        );
        let refusal = |record: &[u8], former: &[u32], assignment: &[u32]| {
            answer(record, former, assignment, Some(0)).expect_err("it is refused")
        };
        assert_eq!(refusal(&record[..11], &[], &[]), (1, 8, 0));
        assert_eq!(refusal(&record, &former[..4095], &bad), (8, 0, 0));
        assert_eq!(refusal(&record, &former, &bad[..2047]), (8, 0, 0));
        assert_eq!(refusal(&record, &former, &bad), (10, 0, 1));
        assert_eq!(refusal(&record, &former, &good), (5, 0, 0));
        former[1] = 0;
        assert_eq!(refusal(&record, &former, &good), (8, 0, 0));
        former[32..34].copy_from_slice(&[0, 7]);
        let list = answer(&record, &former, &good, Some(8)).expect("two steps");
        assert_eq!(list, [[0, 0, 1, 0], [0, 1, 2, 0]], "row 2 is not looked at");
        assert_eq!(answer(&record, &former, &good, None), Ok(list));
    }
}
