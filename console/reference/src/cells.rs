//! What document 01 says of lent cells: a layout as cells, check, figures, and the faults of
//! writing.

use crate::records::Numbers;
use crate::{Cluster, Layout, Node};

/// Eight cells to a partition, 256 partitions.
pub const CELLS: usize = 2048;

/// A layout as cells: rising ids first, then zeros; zeros from its last partition on.
pub fn cells_of(layout: &Layout) -> Vec<u32> {
    let mut cells = vec![0; CELLS];
    for (row, ids) in cells.chunks_mut(8).zip(layout) {
        row[..ids.len()].copy_from_slice(ids);
    }
    cells
}

/// The rows of so many partitions, without the zeros.
pub fn layout_of(cells: &[u32], partitions: usize) -> Layout {
    let ids = |row: &[u32]| row.iter().copied().take_while(|id| *id != 0).collect();
    cells.chunks(8).take(partitions).map(ids).collect()
}

/// Whether the eight cells are so many rising ids, none of them 0, and then zeros.
fn is_row(row: &[u32], replication: usize) -> bool {
    let (ids, rest) = row.split_at(replication);
    ids.iter().all(|id| *id != 0)
        && ids.windows(2).all(|w| w[0] < w[1])
        && rest.iter().all(|cell| *cell == 0)
}

/// What check answers of 2,048 cells: the refusal, and the partition or node id that goes with it.
pub fn check(c: &Cluster, cells: &[u32], size: u32) -> (u32, u32) {
    if size == 0 {
        return (4, 0);
    }
    for (p, row) in cells[..CELLS].chunks(8).enumerate() {
        if p >= c.partitions() {
            if row.iter().any(|cell| *cell != 0) {
                return (10, p as u32);
            }
            continue;
        }
        let place = |id: &u32| c.nodes.iter().position(|n| n.id == *id);
        let known: Option<Vec<usize>> = row[..c.replication].iter().map(place).collect();
        match known {
            Some(nodes) if is_row(row, c.replication) => {
                if c.zones_of(&nodes) < c.redundancy {
                    return (11, p as u32);
                }
            }
            _ => return (10, p as u32),
        }
    }
    let is_over = |n: &&Node| !n.takes(copies(cells, n.id), size.into());
    match c.nodes.iter().find(is_over) {
        Some(node) => (12, node.id),
        None => (0, 0),
    }
}

fn copies(cells: &[u32], id: u32) -> u64 {
    cells[..CELLS].iter().filter(|cell| **cell == id).count() as u64
}

/// The 64 figures of a layout that check passes: copies of each node, then copies in its zone.
pub fn figures(c: &Cluster, cells: &[u32]) -> Vec<u32> {
    let mut figures = vec![0; 64];
    for (b, node) in c.nodes.iter().enumerate() {
        let mates = c.nodes.iter().filter(|m| m.zone == node.zone);
        figures[b] = copies(cells, node.id) as u32;
        figures[32 + b] = mates.map(|m| copies(cells, m.id) as u32).sum();
    }
    figures
}

/// The size to hope for: usable capacities together over replication times partitions, rounded down,
/// whatever the ceilings.
pub fn hope(c: &Cluster) -> u64 {
    let total: u64 = c.nodes.iter().map(|n| n.usable() as u64).sum();
    total / (c.replication * c.partitions()) as u64
}

/// The refusal of writing 2,048 cells with these numbers into so many bytes.
pub fn write_fault(n: &Numbers, cells: &[u32], out: usize) -> u32 {
    let in_range = n.bits <= 8
        && (1..=8).contains(&n.replication)
        && n.size >= 1
        && n.sent <= 2048
        && n.verdict <= 1
        && n.improvements <= 2048;
    if !in_range {
        return 4;
    }
    let (partitions, replication) = (1usize << n.bits, n.replication as usize);
    let (rows, rest) = cells[..CELLS].split_at(8 * partitions);
    if !rows.chunks(8).all(|row| is_row(row, replication)) || rest.iter().any(|cell| *cell != 0) {
        return 10;
    }
    if out < 29 + partitions * (5 + 4 * replication) {
        return 8;
    }
    0
}
