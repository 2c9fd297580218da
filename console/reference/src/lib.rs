//! Unverified programs that the proved planner is compared with, each written from the papers and
//! from nothing else: a listing of all layouts, a planner by the report's own method, a planner by
//! the method of exchanges, a parser, changes of the nodes, the list of moves, what the papers say of
//! lent cells, a stranger's check of certificates, and a listing of all sets of nodes that can be lost.

pub mod ceilings;
pub mod cells;
pub mod certificate;
pub mod changes;
mod dealing;
pub mod exchanges;
pub mod listing;
pub mod losses;
pub mod moves;
pub mod random;
pub mod records;
pub mod report;
pub mod tied;

/// One storage box.
#[derive(Clone, Copy, Debug, PartialEq, Eq)]
pub struct Node {
    pub id: u32,
    pub zone: u16,
    pub capacity: u32,
    /// The most copies that it may hold: 0 to 256.
    pub ceiling: u16,
}

impl Node {
    /// The ceiling of a node that may hold a copy of every partition.
    pub const NO_CEILING: u16 = 256;

    /// The megabytes that copies may take: the capacity less a sixteenth of it, rounded down.
    pub fn usable(&self) -> u32 {
        self.capacity - self.capacity / 16
    }

    /// Whether its own numbers are in their ranges: no id of 0, no ceiling above 256.
    fn is_in_range(&self) -> bool {
        self.id != 0 && self.ceiling <= Node::NO_CEILING
    }

    /// Whether so many copies of a size fill no more than is usable and do not pass the ceiling.
    fn takes(&self, copies: u64, size: u64) -> bool {
        copies * size <= u64::from(self.usable()) && copies <= u64::from(self.ceiling)
    }

    /// The body of a field that holds it.
    fn body(&self) -> Vec<u8> {
        let mut body = self.id.to_be_bytes().to_vec();
        body.extend(self.zone.to_be_bytes());
        body.extend(self.capacity.to_be_bytes());
        body.extend(self.ceiling.to_be_bytes());
        body
    }
}

/// The least capacity of which so many megabytes are usable: beside each fifteen of them one stays
/// free, as soon as there is one more.
pub fn capacity_for(usable: u32) -> u32 {
    usable + usable.saturating_sub(1) / 15
}

/// A cluster as the papers define it; the nodes stand by rising id.
#[derive(Clone, Debug, PartialEq, Eq)]
pub struct Cluster {
    pub bits: u32,
    pub replication: usize,
    pub redundancy: usize,
    pub nodes: Vec<Node>,
}

impl Cluster {
    pub fn partitions(&self) -> usize {
        1 << self.bits
    }

    /// How many zones the nodes of these indices lie in.
    pub fn zones_of(&self, row: &[usize]) -> usize {
        let mut zones: Vec<u16> = row.iter().map(|&b| self.nodes[b].zone).collect();
        zones.sort_unstable();
        zones.dedup();
        zones.len()
    }
}

/// A row of ids for each partition, each by rising id.
pub type Layout = Vec<Vec<u32>>;

/// The number of pairs (id, partition) that stand in the layout and not in the former one: the copies
/// to be sent.
pub fn sent(layout: &Layout, former: &Layout) -> usize {
    let rows = layout.iter().zip(former);
    rows.map(|(row, old)| row.iter().filter(|id| !old.contains(id)).count())
        .sum()
}

/// The report's count: the number of pairs (id, partition) that stand in one of the two layouts and
/// not in both. It does not use [`sent`], so that the two can be compared.
pub fn distance(a: &Layout, b: &Layout) -> usize {
    a.iter()
        .zip(b)
        .map(|(x, y)| {
            x.iter().filter(|i| !y.contains(i)).count()
                + y.iter().filter(|i| !x.contains(i)).count()
        })
        .sum()
}

/// Whether the layout is valid at the size, by the definition.
pub fn is_valid(c: &Cluster, layout: &Layout, size: u64) -> bool {
    if size == 0 || layout.len() != c.partitions() {
        return false;
    }
    for row in layout {
        if row.len() != c.replication || row.windows(2).any(|w| w[0] >= w[1]) {
            return false;
        }
        let Some(indices) = row
            .iter()
            .map(|id| c.nodes.iter().position(|n| n.id == *id))
            .collect::<Option<Vec<_>>>()
        else {
            return false;
        };
        if c.zones_of(&indices) < c.redundancy {
            return false;
        }
    }
    c.nodes.iter().all(|n| {
        let holding = layout.iter().filter(|r| r.contains(&n.id));
        n.takes(holding.count() as u64, size)
    })
}

#[cfg(test)]
mod tests {
    use super::*;

    fn usable(capacity: u32) -> u32 {
        Node {
            id: 1,
            zone: 0,
            capacity,
            ceiling: Node::NO_CEILING,
        }
        .usable()
    }

    /// Worked out by hand: below 16 nothing stays free, and from each multiple of 16 on one more.
    #[test]
    fn a_sixteenth_stays_free() {
        let known = [
            (0, 0),
            (1, 1),
            (15, 15),
            (16, 15),
            (17, 16),
            (31, 30),
            (32, 30),
            (100, 94),
            (u32::MAX, 4_026_531_840),
        ];
        for (capacity, expected) in known {
            assert_eq!(usable(capacity), expected, "{capacity}");
        }
    }

    #[test]
    fn no_smaller_capacity_has_as_much_that_is_usable() {
        let most = usable(u32::MAX);
        for wanted in (0..100_000).chain(most - 100_000..=most) {
            let capacity = capacity_for(wanted);
            assert_eq!(usable(capacity), wanted);
            assert!(capacity == 0 || usable(capacity - 1) < wanted, "{wanted}");
        }
    }
}
