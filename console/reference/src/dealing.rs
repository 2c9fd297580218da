//! The size of a cluster by counting, and the beginning of a run by dealing: the first half of the
//! proved planner's method, unverified.

use crate::exchanges::ground::{NODES, PARTITIONS};
use crate::Cluster;

/// The most copies that each node can hold at a size.
pub fn caps_at(c: &Cluster, size: u32) -> [u32; NODES] {
    let mut caps = [0; NODES];
    for (cap, node) in caps.iter_mut().zip(&c.nodes) {
        let most = node.usable() / size;
        *cap = most.min(node.ceiling.into()).min(c.partitions() as u32);
    }
    caps
}

/// For each node the place of the first node of its zone.
pub fn zones(c: &Cluster) -> [usize; NODES] {
    let mut zones = [0; NODES];
    for (zone, node) in zones.iter_mut().zip(&c.nodes) {
        *zone = c.nodes.iter().position(|n| n.zone == node.zone).unwrap();
    }
    zones
}

/// Whether the caps admit a layout: enough copies, and enough pairs of partition and zone.
fn fits(c: &Cluster, zone: &[usize; NODES], size: u32) -> bool {
    let p = c.partitions() as u32;
    let caps = caps_at(c, size);
    if caps.iter().sum::<u32>() < c.replication as u32 * p {
        return false;
    }
    let mut by_zone = [0u32; NODES];
    for (cap, zone) in caps.iter().zip(zone) {
        by_zone[*zone] += cap;
    }
    by_zone.iter().map(|z| p.min(*z)).sum::<u32>() >= c.redundancy as u32 * p
}

/// The largest size that fits, bit by bit; 0 where none does. None fits above what all disks
/// together would allow.
pub fn size(c: &Cluster, zone: &[usize; NODES]) -> u32 {
    let total: u64 = c.nodes.iter().map(|n| u64::from(n.usable())).sum();
    let hope = total / (c.replication * c.partitions()) as u64;
    (0..32).rev().fold(0u32, |s, i| {
        let larger = s | 1 << i;
        if u64::from(larger) <= hope && fits(c, zone, larger) {
            larger
        } else {
            s
        }
    })
}

/// How many copies each node gets, in two passes, and how many each zone.
fn given(c: &Cluster, zone: &[usize; NODES], caps: &[u32; NODES]) -> ([u32; NODES], [u32; NODES]) {
    let p = c.partitions() as u32;
    let mut left = c.replication as u32 * p;
    let (mut given, mut by_zone) = ([0u32; NODES], [0u32; NODES]);
    for b in 0..c.nodes.len() {
        given[b] = caps[b].min(p - by_zone[zone[b]].min(p)).min(left);
        by_zone[zone[b]] += given[b];
        left -= given[b];
    }
    for b in 0..c.nodes.len() {
        let more = (caps[b] - given[b]).min(left);
        given[b] += more;
        by_zone[zone[b]] += more;
        left -= more;
    }
    (given, by_zone)
}

/// The dealt layout: copy number i goes to partition i mod P.
pub fn deal(c: &Cluster, zone: &[usize; NODES], caps: &[u32; NODES]) -> [u32; PARTITIONS] {
    let p = c.partitions();
    let (given, by_zone) = given(c, zone, caps);
    let mut line: [usize; NODES] = std::array::from_fn(|b| b);
    let line = &mut line[..c.nodes.len()];
    line.sort_unstable_by_key(|&b| (by_zone[zone[b]] >= p as u32, zone[b], b));
    let mut rows = [0u32; PARTITIONS];
    let mut at = 0;
    for &b in line.iter() {
        let end = at + given[b] as usize;
        rows[at..end.min(p)]
            .iter_mut()
            .for_each(|row| *row |= 1 << b);
        let over = end.saturating_sub(p);
        rows[..over].iter_mut().for_each(|row| *row |= 1 << b);
        at = if end >= p { over } else { end };
    }
    rows
}
