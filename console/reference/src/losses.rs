//! What the loss of nodes costs a layout, written from document 02, request 2026-08: rows are lists of ids, and
//! all sets of so many nodes are listed.

mod masks;

use crate::cells::{self, CELLS};
pub use crate::moves::Refused;
use crate::records::read_cluster;
use crate::{Cluster, Layout};
pub use masks::{loss_record, worst_loss_record};

/// The most nodes of which the worst loss can be asked.
pub const MOST_LOST: u32 = 4;

/// Nodes, by rising id, and how many partitions are lost with them.
pub type Loss = (u32, Vec<u32>);

/// How many partitions have all their copies in these nodes.
pub fn lost(layout: &Layout, nodes: &[u32]) -> u32 {
    let is_lost = |row: &&Vec<u32>| row.iter().all(|id| nodes.contains(id));
    layout.iter().filter(is_lost).count() as u32
}

/// All sets of so many nodes, with what they cost.
pub fn listed(c: &Cluster, layout: &Layout, number: u32) -> Vec<Loss> {
    let nodes = |set: u64| {
        let chosen = (0..c.nodes.len()).filter(|b| set >> b & 1 == 1);
        chosen.map(|b| c.nodes[b].id).collect()
    };
    let sets = numbers(c.nodes.len() as u32, number).into_iter().map(nodes);
    sets.map(|ids: Vec<u32>| (lost(layout, &ids), ids))
        .collect()
}

/// The numbers below 2^digits with so many binary digits 1, from the least on.
fn numbers(digits: u32, ones: u32) -> Vec<u64> {
    let mut numbers = Vec::new();
    let mut number = (1u64 << ones) - 1;
    while number < 1 << digits {
        numbers.push(number);
        if number == 0 {
            break;
        }
        // The next one: the lowest run of ones gives its highest to the place above, and the others go to the right end.
        let lowest = number & number.wrapping_neg();
        let above = number + lowest;
        number = above | (above ^ number) / lowest >> 2;
    }
    numbers
}

/// Of all that are listed the one that costs most, and of those that cost as much the first by its ids from the
/// left.
pub fn worst(listed: &[Loss]) -> &Loss {
    let most = listed.iter().map(|(lost, _)| *lost).max();
    let worst = listed.iter().filter(|(lost, _)| Some(*lost) == most);
    let first = worst.min_by(|(_, ids), (_, others)| ids.cmp(others));
    first.expect("there are as many nodes as are asked for")
}

/// What the worst loss answers of a record and lent cells.
pub fn worst_answer(record: &[u8], assignment: &[u32], number: u32) -> Result<Loss, Refused> {
    let is_bad = |c: &Cluster| number > MOST_LOST || number as usize > c.nodes.len();
    let (c, layout) = checked(record, assignment, is_bad)?;
    Ok(worst(&listed(&c, &layout, number)).clone())
}

/// What the loss of given nodes answers of a record and lent cells.
pub fn answer(record: &[u8], assignment: &[u32], nodes: &[u32]) -> Result<u32, Refused> {
    let (_, layout) = checked(record, assignment, |_| false)?;
    Ok(lost(&layout, nodes))
}

/// The cluster and layout of a call, refused as check refuses them at size 1; a bad number of the call is refused
/// where check refuses a size of 0.
fn checked(
    record: &[u8],
    assignment: &[u32],
    is_bad: impl Fn(&Cluster) -> bool,
) -> Result<(Cluster, Layout), Refused> {
    let (c, _) = read_cluster(record).map_err(|(refusal, byte)| (refusal, byte, 0))?;
    if assignment.len() < CELLS {
        return Err((8, 0, 0));
    }
    if is_bad(&c) {
        return Err((4, 0, 0));
    }
    match cells::check(&c, assignment, 1) {
        (0, _) => {
            let layout = cells::layout_of(assignment, c.partitions());
            Ok((c, layout))
        }
        (refusal, place) => Err((refusal, 0, place)),
    }
}

#[cfg(test)]
mod tests {
    use super::*;
    use crate::cells::cells_of;
    use crate::records::cluster_record;
    use crate::Node;

    /// One copy each, in nodes of these ids.
    fn cluster(bits: u32, ids: &[u32]) -> Cluster {
        let node = |id: &u32| Node {
            id: *id,
            zone: 1,
            capacity: 9,
            ceiling: Node::NO_CEILING,
        };
        Cluster {
            bits,
            replication: 1,
            redundancy: 1,
            nodes: ids.iter().map(node).collect(),
        }
    }

    #[test]
    fn every_set_is_listed_once() {
        assert_eq!(numbers(4, 2), [0b11, 0b101, 0b110, 0b1001, 0b1010, 0b1100]);
        assert_eq!(numbers(3, 3), [0b111]);
        assert_eq!((numbers(3, 0), numbers(0, 0)), (vec![0], vec![0]));
        assert_eq!(numbers(2, 3), []);
        for ones in 0..=4 {
            let by_hand = (0..1 << 12).filter(|n: &u64| n.count_ones() == ones);
            assert!(numbers(12, ones).into_iter().eq(by_hand));
        }
        assert_eq!(numbers(32, 4).len(), 32 * 31 * 30 * 29 / 24);
    }

    /// Of two rows of 3, one of 5 and one of 9: one node costs 2 at worst, two cost 3, which are 3 and 5, not 3
    /// and 9.
    #[test]
    fn the_first_of_the_worst_sets() {
        let c = cluster(2, &[1, 3, 5, 9]);
        let layout = vec![vec![9], vec![3], vec![5], vec![3]];
        let worst = |number| worst(&listed(&c, &layout, number)).clone();
        assert_eq!(worst(0), (0, vec![]));
        assert_eq!(worst(1), (2, vec![3]));
        assert_eq!(worst(2), (3, vec![3, 5]));
        assert_eq!(worst(3), (4, vec![3, 5, 9]));
        assert_eq!(worst(4), (4, vec![1, 3, 5, 9]));
    }

    #[test]
    fn a_partition_is_lost_with_all_its_copies() {
        let layout = vec![vec![1, 2], vec![2, 3], vec![1, 2]];
        let losses = [&[][..], &[2], &[2, 1], &[3, 7, 3, 2], &[1, 2, 3]];
        assert_eq!(losses.map(|nodes| lost(&layout, nodes)), [0, 0, 2, 1, 3]);
    }

    /// Each call has all faults that come later, too.
    #[test]
    fn faults_come_in_checks_order() {
        let record = cluster_record(&cluster(1, &[1, 2]), &vec![]);
        let (good, bad) = (
            cells_of(&vec![vec![1], vec![2]]),
            cells_of(&vec![vec![1], vec![3]]),
        );
        assert_eq!(worst_answer(&record[..11], &[], 9), Err((1, 8, 0)));
        assert_eq!(worst_answer(&record, &bad[..2047], 9), Err((8, 0, 0)));
        assert_eq!(worst_answer(&record, &bad, 3), Err((4, 0, 0)));
        assert_eq!(worst_answer(&record, &bad, 2), Err((10, 0, 1)));
        assert_eq!(answer(&record, &bad, &[1]), Err((10, 0, 1)));
        assert_eq!(worst_answer(&record, &good, 1), Ok((1, vec![1])));
        assert_eq!(answer(&record, &good, &[2]), Ok(1));
    }
}
