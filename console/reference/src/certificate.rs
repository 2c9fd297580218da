//! The stranger's check of a certificate, the twin of `checker/certificate.py`: sums alone, from the
//! cluster, the two layouts, the size and a price for each node. It knows nothing of exchanges.

use crate::{is_valid, sent, Cluster, Layout, Node};

/// Why a certificate does not hold.
#[derive(Clone, Copy, Debug, PartialEq, Eq)]
pub enum Fault {
    /// The layout is not valid at the size, or there is not a price for each node.
    Form,
    /// A larger size has room for all copies, and for enough zones.
    LargerSize,
    /// The prices prove another number of copies than the layout sends; never a larger one.
    Sum { proved: i64, sent: i64 },
}

/// The most copies that a node may hold at a size.
fn room(c: &Cluster, node: &Node, size: u64) -> u64 {
    let copies = (c.partitions() as u64).min(node.ceiling.into());
    copies.min(u64::from(node.usable()) / size)
}

/// Whether the size falls short: of room for all copies, or for a copy in enough zones of each
/// partition.
fn falls_short(c: &Cluster, size: u64) -> bool {
    let partitions = c.partitions() as u64;
    let mut zones: Vec<(u16, u64)> = Vec::new();
    for node in &c.nodes {
        let room = room(c, node, size);
        match zones.iter_mut().find(|(zone, _)| *zone == node.zone) {
            Some((_, sum)) => *sum += room,
            None => zones.push((node.zone, room)),
        }
    }
    let all: u64 = zones.iter().map(|(_, sum)| sum).sum();
    let once: u64 = zones.iter().map(|(_, sum)| partitions.min(*sum)).sum();
    all < c.replication as u64 * partitions || once < c.redundancy as u64 * partitions
}

/// What the cheapest row costs, where there is one: the cheapest node of each zone, the cheapest of
/// those for as many zones as are wanted, then the cheapest of all others.
pub fn cheapest(c: &Cluster, costs: &[u64]) -> Option<u64> {
    let mut order: Vec<usize> = (0..c.nodes.len()).collect();
    order.sort_by_key(|&b| costs[b]);
    let (mut zones, mut first, mut rest) = (Vec::new(), Vec::new(), Vec::new());
    for b in order {
        let zone = c.nodes[b].zone;
        if first.len() < c.redundancy && !zones.contains(&zone) {
            zones.push(zone);
            first.push(costs[b]);
        } else {
            rest.push(costs[b]);
        }
    }
    let more = c.replication - c.redundancy;
    let full = first.len() == c.redundancy && more <= rest.len();
    full.then(|| first.iter().chain(&rest[..more]).sum())
}

/// What the cheapest nodes cost at least, zones forgotten, for a partition whose former nodes have these
/// prices: which nodes they are plays no part. Nothing where no nodes have these prices, or where there are
/// too few.
pub fn cheapest_by_prices(c: &Cluster, prices: &[u64], held: &[u64]) -> Option<u64> {
    let mut others = prices.to_vec();
    for price in held {
        let place = others.iter().position(|other| other == price)?;
        others.remove(place);
    }
    let others = others.iter().map(|price| price + 1);
    let mut costs: Vec<u64> = held.iter().copied().chain(others).collect();
    costs.sort_unstable();
    costs.get(..c.replication).map(|costs| costs.iter().sum())
}

/// What every layout of the size sends at least, by the prices.
pub fn proved(c: &Cluster, former: &Layout, size: u64, prices: &[u64]) -> Option<i64> {
    let mut low = 0;
    for old in former {
        let costs = c.nodes.iter().zip(prices);
        let costs: Vec<u64> = costs
            .map(|(node, price)| price + u64::from(!old.contains(&node.id)))
            .collect();
        low += cheapest(c, &costs)? as i64;
    }
    let rooms = c.nodes.iter().zip(prices);
    let taken: u64 = rooms.map(|(node, price)| price * room(c, node, size)).sum();
    Some(low - taken as i64)
}

/// Whether the prices show that the layout has the largest size and sends the fewest copies.
pub fn check(
    c: &Cluster,
    former: &Layout,
    layout: &Layout,
    size: u64,
    prices: &[u64],
) -> Result<(), Fault> {
    if prices.len() != c.nodes.len() || !is_valid(c, layout, size) {
        return Err(Fault::Form);
    }
    if !falls_short(c, size + 1) {
        return Err(Fault::LargerSize);
    }
    let sent = sent(layout, former) as i64;
    match proved(c, former, size, prices) {
        Some(proved) if proved == sent => Ok(()),
        Some(proved) => Err(Fault::Sum { proved, sent }),
        None => Err(Fault::Form),
    }
}

#[cfg(test)]
mod tests {
    use super::*;

    fn cluster(bits: u32, replication: usize, redundancy: usize, nodes: &[(u16, u32)]) -> Cluster {
        let node = |(b, &(zone, capacity)): (usize, &(u16, u32))| Node {
            id: b as u32 + 1,
            zone,
            capacity,
            ceiling: Node::NO_CEILING,
        };
        Cluster {
            bits,
            replication,
            redundancy,
            nodes: nodes.iter().enumerate().map(node).collect(),
        }
    }

    /// Worked out by hand from the paper's table: E has a price where there is no room, F one full
    /// node, K none at all.
    #[test]
    fn sheets_of_the_paper() {
        let e = cluster(1, 1, 1, &[(1, 10), (1, 4)]);
        let (old, new) = (vec![vec![2], vec![2]], vec![vec![1], vec![1]]);
        assert_eq!(check(&e, &old, &new, 5, &[0, 1]), Ok(()));
        let sum = Err(Fault::Sum { proved: 0, sent: 2 });
        assert_eq!(check(&e, &old, &new, 5, &[0, 0]), sum);
        assert_eq!(check(&e, &old, &new, 4, &[0, 1]), Err(Fault::LargerSize));

        let f = cluster(1, 1, 1, &[(1, 10), (1, 10)]);
        let (old, new) = (vec![vec![1], vec![1]], vec![vec![1], vec![2]]);
        assert_eq!(check(&f, &old, &new, 10, &[1, 0]), Ok(()));
        let far = vec![vec![2], vec![1]];
        assert_eq!(check(&f, &old, &far, 10, &[1, 0]), Ok(()));

        let k = cluster(0, 3, 2, &[(1, 9), (1, 9), (1, 9), (2, 1)]);
        let (old, new) = (vec![vec![1, 2, 3]], vec![vec![1, 2, 4]]);
        assert_eq!(check(&k, &old, &new, 1, &[0; 4]), Ok(()));
        assert_eq!(check(&k, &old, &old, 1, &[0; 4]), Err(Fault::Form));
    }

    /// Nodes of prices 0, 1 and 2 held a partition, those of 2, 0 and 3 did not: 0, 1, 2, 3, 1 and 4.
    #[test]
    fn a_row_by_prices() {
        let c = cluster(0, 4, 2, &[(1, 1); 6]);
        let prices = [1, 2, 0, 2, 0, 3];
        assert_eq!(cheapest_by_prices(&c, &prices, &[0, 1, 2]), Some(1 + 1 + 2));
        assert_eq!(cheapest_by_prices(&c, &prices, &[]), Some(1 + 1 + 2 + 3));
        assert_eq!(cheapest_by_prices(&c, &prices, &[1, 1]), None);
        assert_eq!(cheapest_by_prices(&c, &prices[..3], &[]), None);
    }

    /// The rule of the cheapest row against all rows.
    #[test]
    fn the_cheapest_row_is_the_cheapest() {
        let c = cluster(0, 3, 2, &[(1, 1), (1, 1), (2, 1), (1, 1), (3, 1)]);
        for costs in 0..4u64.pow(5) {
            let costs: Vec<u64> = (0..5).map(|b| costs / 4u64.pow(b) % 4).collect();
            let rows = (0..32usize).map(|set| (0..5).filter(|b| set >> b & 1 == 1).collect());
            let rows = rows.filter(|row: &Vec<usize>| row.len() == 3 && c.zones_of(row) >= 2);
            let least = rows.map(|row| row.iter().map(|&b| costs[b]).sum()).min();
            assert_eq!(cheapest(&c, &costs), least);
        }
    }
}
