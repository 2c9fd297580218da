//! The certificate of a layout: a price for each node, by which anybody can check with sums alone that no
//! layout has a larger size and none of this size sends fewer copies.

use crate::cluster::Cluster;
use crate::counts::Counts;
use crate::ffi;
use crate::layout::Layout;
use crate::refusal::Refused;
use std::collections::BTreeMap;

/// A sheet has one line for all partitions that the same nodes held, up to so many lines.
const MOST_LINES: usize = 32;

/// What the partitions of a [`Line`] have in common.
#[derive(Clone, Debug, PartialEq, Eq, Hash)]
pub enum Group {
    /// The nodes that held them.
    Nodes {
        /// The nodes of the cluster, by id, that held them.
        held: Vec<u32>,
        /// A cheapest row: that of the layout for the first of them.
        row: Vec<u32>,
    },
    /// The prices of the nodes that held them.
    Prices {
        /// The prices of the nodes of the cluster that held them, the smaller first.
        held: Vec<u32>,
    },
}

/// A line of a certificate's sheet: partitions whose cheapest rows cost the same, for the same reason.
///
/// Each line can be worked out anew. Let a copy in a node cost the price of the node, and 1 more unless the
/// node held the partition before. A row is cheapest that is made so, for as many zones as are wanted and as
/// many copies: the cheapest node of each zone; of those the cheapest, one for each zone that is wanted;
/// then the cheapest of all other nodes.
///
/// - [`Group::Nodes`]: the nodes that held the partitions are known, so are the costs of all nodes. The row
///   that the line shows costs as much as the cheapest.
/// - [`Group::Prices`]: take the prices of all nodes, and strike out those of the nodes that held the
///   partitions, one for one. The costs of all nodes are the struck prices as they are and the others with 1
///   more, whichever nodes they belong to. The line has the smallest of them, as many as copies are wanted.
///   Zones are forgotten here, so that no row costs less, and the line never claims too much.
#[derive(Clone, Debug, PartialEq, Eq, Hash)]
pub struct Line {
    /// What its partitions have in common.
    pub group: Group,
    /// How many partitions.
    pub partitions: u64,
    /// What each copy of a cheapest row costs: in the order of the row where the line shows one, and
    /// otherwise the smaller first.
    pub costs: Vec<u64>,
}

impl Line {
    /// What a cheapest row of one of its partitions costs.
    pub fn cost(&self) -> u64 {
        self.costs.iter().sum()
    }

    /// What the cheapest rows of all its partitions cost.
    pub fn together(&self) -> u64 {
        self.partitions * self.cost()
    }
}

/// Why no layout has a larger size, and none of this size sends fewer copies.
///
/// At the next size the nodes fall short of room for all copies, or of zones for each partition
/// ([`Counts::lack_room`], [`Counts::lack_zones`] of [`Certificate::next`]); so no layout has a larger one.
///
/// Let a copy cost the price of its node, and 1 more where it has to be sent. No row of a partition costs
/// less than its cheapest one, and no node takes in more than its price times its room. So every layout of
/// the size sends at least what the cheapest rows cost together ([`Certificate::low`]), less prices times
/// rooms ([`Certificate::takings`]); and this layout sends no more. The prices are those of the proved call,
/// and the least that do; the sums here are plain Rust, for the reader to check.
#[derive(Clone, Debug, PartialEq, Eq, Hash)]
pub struct Certificate {
    /// Megabytes of a partition.
    pub size: u32,
    /// Copies that the layout sends.
    pub sent: u64,
    /// The price of each node, in the order of the nodes.
    pub prices: Vec<u32>,
    /// The most copies that each node may hold at the size, in the order of the nodes.
    pub rooms: Vec<u64>,
    /// What the nodes can take at the next size, which is too little.
    pub next: Counts,
    /// The partitions, grouped by the nodes that held them.
    pub by_nodes: Vec<Line>,
    /// The partitions, grouped by the prices of the nodes that held them; those whose zones make the
    /// cheapest row dearer stand after them, by the nodes. These are never more lines.
    pub by_prices: Vec<Line>,
}

impl Certificate {
    /// What the cheapest rows cost together.
    pub fn low(&self) -> u64 {
        self.by_nodes.iter().map(Line::together).sum()
    }

    /// What the nodes can take in: prices times rooms.
    pub fn takings(&self) -> u64 {
        let nodes = self.prices.iter().zip(&self.rooms);
        nodes.map(|(price, room)| u64::from(*price) * room).sum()
    }

    /// The lines to print: by the nodes where these are 32 lines at most, and else by the prices, which are
    /// harder to look up and fewer. Either way they add up to [`Certificate::low`].
    pub fn sheet(&self) -> &[Line] {
        if self.by_nodes.len() <= MOST_LINES {
            &self.by_nodes
        } else {
            &self.by_prices
        }
    }
}

impl Cluster {
    /// Certifies a layout of this cluster at a size, whoever planned it, against the former layout.
    ///
    /// ```
    /// use dezghuri::{Cluster, Layout, Node};
    ///
    /// let node = |id, capacity| Node { id, zone: 1, capacity, ceiling: Node::NO_CEILING };
    /// let mut former = Layout::default();
    /// former.set_row(0, &[1]);
    /// former.set_row(1, &[1]);
    /// let nodes = vec![node(1, 10), node(2, 10)];
    /// let cluster = Cluster { bits: 1, replication: 1, redundancy: 1, nodes, former };
    /// let plan = cluster.plan(dezghuri::ENOUGH)?;
    /// let certificate = cluster.certify(&plan.layout, plan.size)?;
    /// assert_eq!(certificate.prices, [1, 0]);
    /// assert_eq!(certificate.low() - certificate.takings(), 1);
    /// assert_eq!(certificate.sent, 1);
    /// # Ok::<(), dezghuri::Refused>(())
    /// ```
    ///
    /// # Errors
    ///
    /// As [`Cluster::check`]; [`Refusal::Larger`](crate::Refusal::Larger) where a layout is valid at a
    /// larger size, [`Refusal::Fewer`](crate::Refusal::Fewer) where one of this size sends fewer copies.
    pub fn certify(&self, layout: &Layout, size: u32) -> Result<Certificate, Refused> {
        let mut answer = [0; ffi::CERTIFY_ANSWER];
        let record = self.to_record();
        let refusal = ffi::certify(&record, layout.cells(), size, &mut answer);
        self.judge_layout(refusal, &answer, size == 0)?;
        let prices = answer[3..][..self.nodes.len()].to_vec();
        let groups = self.groups();
        let by_nodes = self.lines_by_nodes(&groups, layout, &prices);
        Ok(Certificate {
            size,
            sent: self.former.diff(layout).received(),
            rooms: self.counts(size.into()).rooms,
            next: self.counts(u64::from(size) + 1),
            by_prices: self.lines_by_prices(&groups, &by_nodes, &prices),
            by_nodes,
            prices,
        })
    }

    /// The partitions that the same nodes of the cluster held.
    fn groups(&self) -> BTreeMap<Vec<u32>, Vec<u8>> {
        let mut groups: BTreeMap<Vec<u32>, Vec<u8>> = BTreeMap::new();
        for partition in (0..=u8::MAX).take(self.partitions() as usize) {
            let held = self.survivors(partition).collect();
            groups.entry(held).or_default().push(partition);
        }
        groups
    }

    /// A line for each group. Each row of a certified layout is a cheapest one, so that of the first
    /// partition stands for all.
    fn lines_by_nodes(
        &self,
        groups: &BTreeMap<Vec<u32>, Vec<u8>>,
        layout: &Layout,
        prices: &[u32],
    ) -> Vec<Line> {
        let line = |(held, partitions): (&Vec<u32>, &Vec<u8>)| {
            let row = layout.row(partitions[0]).to_vec();
            let costs = self.costs(held, prices);
            let costs = costs.filter(|(id, _)| row.contains(id));
            Line {
                costs: costs.map(|(_, cost)| cost).collect(),
                partitions: partitions.len() as u64,
                group: Group::Nodes {
                    held: held.clone(),
                    row,
                },
            }
        };
        groups.iter().map(line).collect()
    }

    /// One line for all groups that nodes of the same prices held, unless zones make a cheapest row of the
    /// group dearer.
    fn lines_by_prices(
        &self,
        groups: &BTreeMap<Vec<u32>, Vec<u8>>,
        by_nodes: &[Line],
        prices: &[u32],
    ) -> Vec<Line> {
        let mut lines: BTreeMap<Vec<u32>, Line> = BTreeMap::new();
        let mut dearer = Vec::new();
        for (held, line) in groups.keys().zip(by_nodes) {
            let costs = self.costs(held, prices).map(|(_, cost)| cost);
            let costs = smallest(costs, line.costs.len());
            if costs.iter().sum::<u64>() < line.cost() {
                dearer.push(line.clone());
                continue;
            }
            let nodes = self.nodes.iter().zip(prices);
            let nodes = nodes.filter(|(node, _)| held.contains(&node.id));
            let held = smallest(nodes.map(|(_, price)| *price), held.len());
            let of_prices = lines.entry(held.clone()).or_insert(Line {
                group: Group::Prices { held },
                partitions: 0,
                costs,
            });
            of_prices.partitions += line.partitions;
        }
        lines.into_values().chain(dearer).collect()
    }

    /// What a copy costs in each node, by id, for a partition that these nodes held.
    fn costs<'a>(
        &'a self,
        held: &'a [u32],
        prices: &'a [u32],
    ) -> impl Iterator<Item = (u32, u64)> + 'a {
        let nodes = self.nodes.iter().zip(prices);
        nodes.map(|(node, price)| {
            let sent = !held.contains(&node.id);
            (node.id, u64::from(*price) + u64::from(sent))
        })
    }
}

/// So many of the numbers, the smallest, in order.
fn smallest<T: Ord>(numbers: impl Iterator<Item = T>, many: usize) -> Vec<T> {
    let mut numbers: Vec<T> = numbers.collect();
    numbers.sort_unstable();
    numbers.truncate(many);
    numbers
}

#[cfg(test)]
mod tests {
    use super::*;
    use crate::{Node, Place, Refusal, ENOUGH};

    /// A cluster of nodes 1, 2, 3 and on, each of a zone and a capacity, and its former rows.
    fn cluster(numbers: [u8; 3], nodes: &[(u16, u32)], former: &[&[u32]]) -> Cluster {
        let [bits, replication, redundancy] = numbers;
        let node = |(id, &(zone, capacity)): (u32, &(u16, u32))| Node {
            id,
            zone,
            capacity,
            ceiling: Node::NO_CEILING,
        };
        Cluster {
            bits,
            replication,
            redundancy,
            nodes: (1..).zip(nodes).map(node).collect(),
            former: (0..).zip(former).collect(),
        }
    }

    fn certified(cluster: &Cluster) -> Certificate {
        let plan = cluster.plan(ENOUGH).expect("it has a layout");
        let certificate = cluster.certify(&plan.layout, plan.size);
        let certificate = certificate.expect("the plan is finished");
        assert_eq!(certificate.sent, u64::from(plan.sent));
        assert_eq!(certificate.low() - certificate.takings(), certificate.sent);
        certificate
    }

    fn by_nodes(held: &[u32], row: &[u32], partitions: u64, costs: &[u64]) -> Line {
        Line {
            group: Group::Nodes {
                held: held.to_vec(),
                row: row.to_vec(),
            },
            partitions,
            costs: costs.to_vec(),
        }
    }

    fn by_prices(held: &[u32], partitions: u64, costs: &[u64]) -> Line {
        Line {
            group: Group::Prices {
                held: held.to_vec(),
            },
            partitions,
            costs: costs.to_vec(),
        }
    }

    /// Example E of the paper: box 2, which held both partitions, has no room for one of 5 MB, and box 1
    /// none for two of 6 MB.
    #[test]
    fn a_node_without_room_may_have_a_price() {
        let e = certified(&cluster([1, 1, 1], &[(1, 10), (1, 4)], &[&[2], &[2]]));
        assert_eq!((e.size, e.sent), (5, 2));
        assert_eq!((&e.prices[..], &e.rooms[..]), (&[0, 1][..], &[2, 0][..]));
        assert_eq!((e.low(), e.takings()), (2, 0));
        assert_eq!(e.by_nodes, [by_nodes(&[2], &[1], 2, &[1])]);
        assert_eq!(e.by_prices, [by_prices(&[1], 2, &[1])]);
        assert_eq!((e.next.size, &e.next.rooms[..]), (6, &[1, 0][..]));
        assert!(e.next.lack_room());
    }

    /// Example K: at 2 MB there is room for three copies, but none in zone 2. Without the zones the row that
    /// is there would cost nothing, so the line stays one by nodes.
    #[test]
    fn zones_bind_the_size_and_make_a_row_dearer() {
        let nodes = [(1, 9), (1, 9), (1, 9), (2, 1)];
        let k = certified(&cluster([0, 3, 2], &nodes, &[&[1, 2, 3]]));
        assert_eq!((k.size, k.prices), (1, vec![0; 4]));
        assert!(!k.next.lack_room() && k.next.lack_zones());
        assert_eq!(k.next.zone_rooms, [(1, 1), (2, 0)]);
        let line = by_nodes(&[1, 2, 3], &[1, 2, 4], 1, &[0, 0, 1]);
        assert_eq!(k.by_nodes, [line]);
        assert_eq!(k.by_prices, k.by_nodes);
    }

    /// Boxes 1 and 2 have room for one partition of 10 MB each, box 3, which is new, for two in 21 MB. A copy
    /// in box 1 or 2 costs its price of 1, one in box 3 has to be sent: 4 - 2 = 2. Box 9 is gone.
    #[test]
    fn nodes_of_one_price_are_one_line() {
        let former: [&[u32]; 4] = [&[1], &[1], &[2, 9], &[2]];
        let nodes = [(1, 10), (1, 10), (1, 22)];
        let two = certified(&cluster([2, 1, 1], &nodes, &former));
        assert_eq!(
            (two.size, two.sent, &two.prices[..]),
            (10, 2, &[1, 1, 0][..])
        );
        let lines = [by_nodes(&[1], &[1], 2, &[1]), by_nodes(&[2], &[2], 2, &[1])];
        assert_eq!(two.by_nodes, lines);
        assert_eq!(two.by_prices, [by_prices(&[1], 4, &[1])]);
        assert_eq!(two.sheet(), two.by_nodes);
    }

    /// Each set of boxes 1 to 5 held two partitions; then box 6 alone held one of them.
    #[test]
    fn a_sheet_has_32_lines_by_nodes_at_most() {
        let sets = (0..64).map(|set| (1..=5).filter(|id| set >> (id - 1) & 1 == 1).collect());
        let sets: Vec<Vec<u32>> = sets.collect();
        let rows: Vec<&[u32]> = sets.iter().map(Vec::as_slice).collect();
        let mut many = cluster([6, 1, 1], &[(1, 1000); 6], &rows);
        let full = certified(&many);
        assert_eq!(full.sheet().len(), 32);
        assert_eq!(full.sheet(), full.by_nodes);
        many.former.set_row(63, &[6]);
        let more = certified(&many);
        assert_eq!(more.by_nodes.len(), 33);
        assert_eq!(more.sheet(), more.by_prices);
        assert_eq!(
            more.by_prices.iter().map(Line::together).sum::<u64>(),
            more.low()
        );
    }

    #[test]
    fn what_is_not_optimal_is_refused() {
        let f = cluster([1, 1, 1], &[(1, 10), (1, 10)], &[&[1], &[1]]);
        let refused = |rows: [u32; 2], size| {
            let layout: Layout = (0..).zip(rows.map(|id| [id])).collect();
            let refused = f.certify(&layout, size).unwrap_err();
            (refused.refusal, refused.place)
        };
        assert_eq!(refused([1, 2], 9), (Refusal::Larger, None));
        let far = cluster([1, 1, 1], &[(1, 10), (1, 10)], &[&[1], &[2]]);
        let crossed: Layout = [(0, [2]), (1, [1])].into_iter().collect();
        let fewer = far.certify(&crossed, 10).unwrap_err();
        assert_eq!((fewer.refusal, fewer.place), (Refusal::Fewer, None));
        assert_eq!(
            refused([1, 1], 10),
            (Refusal::Capacity, Some(Place::Node(1)))
        );
        assert_eq!(
            refused([1, 3], 10),
            (Refusal::Row, Some(Place::Partition(1)))
        );
        assert_eq!(refused([1, 2], 0), (Refusal::Range, None));
    }
}
