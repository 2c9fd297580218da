//! The prices that certify a layout in hand, from the levels of its exchange graph: what the proved call's speed
//! is held to.

use super::ground::{members, Ground, NODES, PARTITIONS};
use super::held::Held;
use super::search::{search, Found, Levels};
use crate::dealing::{caps_at, size, zones};
use crate::records::{mask, read_masks};
use crate::Cluster;

/// The prices of the nodes for a layout in 2,048 cells, as the C function gives them; refused, the refusal.
pub fn certify_record(record: &[u8], cells: &[u32], at: u32) -> Result<[u32; NODES], u32> {
    let (c, former) = read_masks(record).map_err(|(refusal, _)| refusal)?;
    if at == 0 {
        return Err(4);
    }
    let zone = zones(&c);
    let ground = Ground::new(&c, &zone, caps_at(&c, at), &former[..c.partitions()]);
    let mut held = Held::none();
    held.fill(&ground, &rows(&c, &ground, cells)?);
    if !held.is_within(&ground) {
        return Err(12);
    }
    if at < size(&c, &zone) {
        return Err(19);
    }
    let graph = held.graph(&ground);
    match search(&ground, &graph) {
        Found::Cycle(_) => Err(20),
        Found::None(levels) => Ok(prices(&ground, &levels)),
    }
}

/// The rows of the cells as sets of nodes; refused where one is no row of the cluster, or in too few zones.
pub(crate) fn rows(c: &Cluster, ground: &Ground, cells: &[u32]) -> Result<[u32; PARTITIONS], u32> {
    let mut rows = [0; PARTITIONS];
    let (used, unused) = cells[..8 * PARTITIONS].split_at(8 * c.partitions());
    for (row, cells) in rows.iter_mut().zip(used.chunks_exact(8)) {
        let (ids, rest) = cells.split_at(c.replication);
        let rises = ids.windows(2).all(|pair| pair[0] < pair[1]);
        *row = mask(&c.nodes, ids.iter().copied());
        let is_whole = row.count_ones() as usize == c.replication;
        if !rises || !is_whole || rest.iter().any(|cell| *cell != 0) {
            return Err(10);
        }
        if !ground.is_valid(*row) {
            return Err(11);
        }
    }
    match unused.iter().all(|cell| *cell == 0) {
        true => Ok(rows),
        false => Err(10),
    }
}

/// How far each node stands below the highest one.
fn prices(ground: &Ground, levels: &Levels) -> [u32; NODES] {
    let mut prices = [0; NODES];
    let standing = Levels::range(ground).rev();
    let standing = standing.skip_while(|distance| levels.at(*distance) == 0);
    for (distance, price) in standing.zip(0..) {
        members(levels.at(distance)).for_each(|b| prices[b] = price);
    }
    prices
}
