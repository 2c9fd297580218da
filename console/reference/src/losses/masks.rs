//! What the loss of nodes costs, by sets of nodes in one word each and a walk over all sets of so many: what the
//! proved calls' speed is held to.

use super::MOST_LOST;
use crate::dealing::{caps_at, zones};
use crate::exchanges::ground::{members, Ground, NODES, PARTITIONS};
use crate::exchanges::rows;
use crate::records::{mask, read_masks};
use crate::Cluster;

/// The worst loss of a layout in 2,048 cells, as the C function gives it: how many partitions are lost, and the
/// ids of the nodes with zeros after them; refused, the refusal.
pub fn worst_loss_record(
    record: &[u8],
    cells: &[u32],
    number: u32,
) -> Result<(u32, [u32; 4]), u32> {
    let (c, _) = read_masks(record).map_err(|(refusal, _)| refusal)?;
    if number > MOST_LOST || number as usize > c.nodes.len() {
        return Err(4);
    }
    let mut rows = checked(&c, cells)?;
    rows[c.partitions()..].fill(u32::MAX);
    let walk = Walk {
        rows: &rows,
        nodes: c.nodes.len() as u32,
    };
    let mut worst = (0, (1 << number) - 1);
    if number > 0 {
        worst = walk.worst(0, number, 0, worst);
    }
    let (lost, set) = worst;
    let mut ids = [0; MOST_LOST as usize];
    for (id, b) in ids.iter_mut().zip(members(set)) {
        *id = c.nodes[b].id;
    }
    Ok((lost, ids))
}

/// How many partitions of a layout in 2,048 cells are lost with the nodes of these ids; refused, the refusal.
pub fn loss_record(record: &[u8], cells: &[u32], ids: &[u32]) -> Result<u32, u32> {
    let (c, _) = read_masks(record).map_err(|(refusal, _)| refusal)?;
    let rows = &checked(&c, cells)?[..c.partitions()];
    let mut rising = ids.to_vec();
    rising.sort_unstable();
    Ok(lost(rows, mask(&c.nodes, rising.into_iter())))
}

/// The rows of the cells as sets of nodes; refused where they are not valid at size 1.
fn checked(c: &Cluster, cells: &[u32]) -> Result<[u32; PARTITIONS], u32> {
    let ground = Ground::new(c, &zones(c), caps_at(c, 1), &[]);
    let rows = rows(c, &ground, cells)?;
    let mut copies = [0; NODES];
    for row in rows {
        members(row).for_each(|b| copies[b] += 1);
    }
    match copies.iter().zip(&ground.caps).all(|(n, cap)| n <= cap) {
        true => Ok(rows),
        false => Err(12),
    }
}

/// How many rows have all their nodes in the set.
fn lost(rows: &[u32], set: u32) -> u32 {
    let is_lost = |row: &u32| u32::from(row & !set == 0);
    rows.iter().map(is_lost).sum()
}

/// The rows of a layout and the number of nodes. Rows past the layout have all 32 nodes, and so are never lost: the
/// compiler knows how many rows there are, and counts quicker.
struct Walk<'a> {
    rows: &'a [u32; PARTITIONS],
    nodes: u32,
}

impl Walk<'_> {
    /// The best so far, or the first of those that cost most of the sets that have this one and so many nodes
    /// more, one at least, from one on, where it costs more. The last of them are counted without a call for each.
    fn worst(&self, from: u32, left: u32, set: u32, mut best: (u32, u32)) -> (u32, u32) {
        for b in from..=self.nodes - left {
            let set = set | 1 << b;
            if left > 1 {
                best = self.worst(b + 1, left - 1, set, best);
                continue;
            }
            let lost = lost(self.rows, set);
            if lost > best.0 {
                best = (lost, set);
            }
        }
        best
    }
}
