//! The size of a small cluster, the layouts valid at it and the first of the nearest, by listing all its
//! layouts.

use crate::{distance, sent, Cluster, Layout};

/// What the listing finds: nothing where no layout is valid at size 1.
#[derive(Clone, Debug, PartialEq, Eq)]
pub struct Listed {
    pub size: u64,
    pub least_sent: usize,
    pub least_distance: usize,
    pub layouts: usize,
    /// How many of them send the fewest copies.
    pub nearest: usize,
    /// The first of those: rows compared from partition 0, ids from the left, the smaller first.
    pub first: Layout,
}

impl Listed {
    /// One layout more, valid at the size.
    fn add(&mut self, layout: &Layout, former: &Layout) {
        self.layouts += 1;
        self.least_distance = self.least_distance.min(distance(layout, former));
        let copies = sent(layout, former);
        if copies < self.least_sent {
            (self.least_sent, self.nearest) = (copies, 0);
        }
        if copies == self.least_sent {
            if self.nearest == 0 || *layout < self.first {
                self.first.clone_from(layout);
            }
            self.nearest += 1;
        }
    }
}

/// All rows of the cluster: R different nodes in at least Z zones, as node indices.
pub fn rows(c: &Cluster) -> Vec<Vec<usize>> {
    let n = c.nodes.len();
    (0u64..1 << n)
        .filter(|m| m.count_ones() as usize == c.replication)
        .map(|m| (0..n).filter(|b| m >> b & 1 == 1).collect::<Vec<_>>())
        .filter(|row| c.zones_of(row) >= c.redundancy)
        .collect()
}

/// Calls `f` with every layout of valid rows, whatever the capacities, as indices into `rows`.
fn each(rows: usize, partitions: usize, f: &mut impl FnMut(&[usize])) {
    if rows == 0 {
        return;
    }
    let mut choice = vec![0; partitions];
    loop {
        f(&choice);
        let mut p = 0;
        while p < partitions && choice[p] + 1 == rows {
            choice[p] = 0;
            p += 1;
        }
        if p == partitions {
            return;
        }
        choice[p] += 1;
    }
}

/// The largest size of one layout: the least of usable capacity over copies, rounded down, over nodes
/// with copies; 0 where one of them holds more copies than its ceiling, since it is then valid at none.
fn size_of(c: &Cluster, rows: &[Vec<usize>], choice: &[usize]) -> u64 {
    let mut copies = vec![0u64; c.nodes.len()];
    for &r in choice {
        for &b in &rows[r] {
            copies[b] += 1;
        }
    }
    (0..c.nodes.len())
        .filter(|&b| copies[b] > 0)
        .map(|b| match copies[b] <= c.nodes[b].ceiling.into() {
            true => c.nodes[b].usable() as u64 / copies[b],
            false => 0,
        })
        .min()
        .unwrap_or(0)
}

fn layout_of(c: &Cluster, rows: &[Vec<usize>], choice: &[usize]) -> Layout {
    choice
        .iter()
        .map(|&r| rows[r].iter().map(|&b| c.nodes[b].id).collect())
        .collect()
}

/// How many layouts there are to list: the caller keeps this small.
pub fn effort(c: &Cluster) -> u64 {
    (rows(c).len() as u64).saturating_pow(c.partitions() as u32)
}

/// Calls `f` with every layout that is valid at the size.
pub fn each_valid(c: &Cluster, size: u64, mut f: impl FnMut(&Layout)) {
    let rows = rows(c);
    each(rows.len(), c.partitions(), &mut |choice| {
        if size_of(c, &rows, choice) >= size {
            f(&layout_of(c, &rows, choice));
        }
    });
}

/// The size of the cluster, the fewest copies sent and the least distance of a layout valid at it, and
/// the first of those that send so few.
pub fn list(c: &Cluster, former: &Layout) -> Option<Listed> {
    let rows = rows(c);
    let mut size = 0;
    each(rows.len(), c.partitions(), &mut |choice| {
        size = size.max(size_of(c, &rows, choice))
    });
    if size == 0 {
        return None;
    }
    let mut found = Listed {
        size,
        least_sent: usize::MAX,
        least_distance: usize::MAX,
        layouts: 0,
        nearest: 0,
        first: Layout::new(),
    };
    each_valid(c, size, |layout| found.add(layout, former));
    Some(found)
}
