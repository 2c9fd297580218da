//! What the page tells, gathered before any of it is written.

use crate::labels;
use crate::loss::Loss;
use crate::units::{count, Unit};
use crate::why;
use dezghuri::{Certificate, Cluster, Description, Held, Layout, Plan, Refused, Step, ENOUGH};
use std::cmp::Ordering;
use std::collections::BTreeSet;

/// So many boxes that are gone are drawn; a cluster has no more, but a damaged record may name more.
pub const MOST_GONE: usize = 32;

/// All that the page is made of.
pub struct Facts<'a> {
    pub names: Names,
    pub described: &'a Description,
    /// Sentences on copies that are lost or at risk.
    pub losses: Vec<String>,
    /// That boxes of the former layout are missing, and what is left of their partitions; empty where
    /// none is.
    pub missing: String,
    /// The layout, or why there is none.
    pub laid: Result<Laid, String>,
}

/// The files as their owner calls them.
pub struct Names {
    pub file: String,
    pub layout: Option<String>,
    pub former: Option<String>,
}

/// A layout, and what becomes of each former copy.
pub struct Laid {
    pub size: u64,
    pub rows: Rows,
    /// What a partition was planned for before, where there was a plan.
    pub former_size: Option<u64>,
    /// The rows of the partitions before and after.
    pub before: Layout,
    pub after: Layout,
    /// The steps from the ones to the others; none without a former layout, and to one that is not valid.
    pub steps: Vec<Step>,
    /// How good it is; or, where it is not valid for the boxes, why.
    pub judged: Result<Judged, String>,
}

/// What can be said of a valid layout.
pub struct Judged {
    /// What no size can pass.
    pub upper_bound: u64,
    pub best: Best,
    /// Why the size is no larger, and which boxes are not used; nothing where a larger one is allowed.
    pub why: Vec<String>,
    /// Why no layout is better than this one from the former one; nothing without one, or where one is.
    pub certificate: Option<Certificate>,
    /// What the loss of boxes costs.
    pub loss: Loss,
}

/// A row of cells for each box: those of the cluster by id, and those that are gone.
pub struct Rows {
    pub here: Vec<Row>,
    pub gone: Vec<Row>,
    /// Boxes that are gone and not drawn, and their copies.
    pub more_gone: (usize, usize),
}

/// What one box has of each partition.
pub struct Row {
    pub id: u32,
    pub cells: Vec<Cell>,
}

/// A partition at a box. The order is that in which partitions stand in the map.
#[derive(Clone, Copy, Debug, PartialEq, Eq, PartialOrd, Ord)]
pub enum Cell {
    Kept,
    Received,
    /// Of a box that is gone: gone with it.
    Dropped,
    Empty,
}

/// How the layout stands beside the best one of these boxes.
#[derive(Clone, Copy, Debug, PartialEq, Eq)]
pub enum Best {
    /// It has the largest size, and none of that size needs fewer transfers.
    Fewest,
    /// It has the largest size, and one of that size sends so many copies fewer.
    FewerBy(u64),
    /// The disks allow this size.
    Larger(u64),
}

impl<'a> Facts<'a> {
    pub fn cluster(&self) -> &'a Cluster {
        &self.described.cluster
    }

    /// The unit of the command's tables, so that page and screen show the same numbers.
    pub fn unit(&self) -> Unit {
        let nodes = self.cluster().nodes.iter();
        Unit::for_all(nodes.map(|node| u64::from(node.capacity)))
    }

    pub fn has_former(&self) -> bool {
        self.names.former.is_some()
    }

    /// Whether copies have to be sent or dropped.
    pub fn has_steps(&self) -> bool {
        let laid = self.laid.as_ref();
        laid.is_ok_and(|laid| !laid.steps.is_empty())
    }

    /// The layout, where it is not valid for the boxes.
    pub fn not_valid(&self) -> Option<&Laid> {
        let laid = self.laid.as_ref().ok();
        laid.filter(|laid| laid.judged.is_err())
    }

    /// What the loss of boxes costs, where the layout is valid.
    pub fn loss(&self) -> Option<&Loss> {
        let judged = self.laid.as_ref().ok()?.judged.as_ref().ok()?;
        Some(&judged.loss)
    }

    pub fn has_ceilings(&self) -> bool {
        labels::has_ceilings(self.cluster())
    }

    /// The ceiling of a box in words, and whether it is reached or passed; nothing where it has none.
    pub fn ceiling_in_words(&self, b: usize) -> Option<String> {
        let node = &self.cluster().nodes[b];
        let ceiling = u64::from(labels::ceiling(node)?);
        let laid = self.laid.as_ref().ok();
        let copies = laid.map_or(0, |laid| laid.rows.here[b].copies());
        let most = count(ceiling, "copy", "copies");
        match copies.cmp(&ceiling) {
            Ordering::Less => labels::ceiling_in_words(node),
            Ordering::Equal => Some(format!("at its ceiling of {most}")),
            Ordering::Greater => Some(format!("above its ceiling of {most}")),
        }
    }

    /// The megabytes that a box is to hold above what may be filled of its disk.
    pub fn too_much(&self, laid: &Laid, b: usize) -> u64 {
        let usable = u64::from(self.cluster().nodes[b].usable());
        (laid.rows.here[b].copies() * laid.size).saturating_sub(usable)
    }

    /// Whether a box is to hold more copies than it may.
    pub fn is_above_ceiling(&self, laid: &Laid, b: usize) -> bool {
        laid.rows.here[b].copies() > self.cluster().nodes[b].ceiling.into()
    }

    /// The boxes that are not there, but in the layout: none where it is valid.
    pub fn astray(&self, laid: &Laid) -> Vec<u32> {
        let ids = laid.after.rows().flat_map(|(_, ids)| ids);
        let ids: BTreeSet<u32> = ids
            .filter(|id| !self.described.has(**id))
            .copied()
            .collect();
        ids.into_iter().collect()
    }

    /// What is wrong with the row of a partition, in a few words; nothing where nothing is.
    pub fn fault_of_row(&self, laid: &Laid, partition: u8) -> Option<String> {
        let (cluster, row) = (self.cluster(), laid.after.row(partition));
        let (copies, wanted) = (row.len(), usize::from(cluster.replication));
        let here = cluster.nodes.iter().filter(|node| row.contains(&node.id));
        let zones: BTreeSet<u16> = here.map(|node| node.zone).collect();
        let (zones, least) = (zones.len(), usize::from(cluster.redundancy));
        match row.iter().all(|id| self.described.has(*id)) {
            false => Some("not there".into()),
            true if copies != wanted => Some(format!("{copies} of {wanted} copies")),
            true if zones < least => Some(format!("{zones} of {least} zones")),
            true => None,
        }
    }

    /// The zones, each with the places of its boxes: in the order of their first boxes.
    pub fn zones(&self) -> Vec<(&'a str, Vec<usize>)> {
        let mut zones: Vec<(&str, Vec<usize>)> = Vec::new();
        for (b, label) in self.described.labels.iter().enumerate() {
            match zones.iter_mut().find(|(name, _)| *name == label.zone) {
                Some((_, places)) => places.push(b),
                None => zones.push((&label.zone, vec![b])),
            }
        }
        zones
    }
}

impl Laid {
    /// Refused where the plan is not valid for the cluster.
    pub fn new(
        described: &Description,
        plan: &Plan,
        former: Option<&Plan>,
    ) -> Result<Laid, Refused> {
        let cluster = &described.cluster;
        let upper_bound = cluster.figures(&plan.layout, plan.size)?.hope;
        let sent = former.map_or(0, |_| cluster.transfers(&plan.layout).all_received());
        let best = Best::of(cluster, plan, sent)?;
        let judged = Judged {
            upper_bound,
            why: match best {
                Best::Larger(_) => Vec::new(),
                _ => binding(described, plan),
            },
            best,
            certificate: former.and_then(|_| cluster.certify(&plan.layout, plan.size).ok()),
            loss: Loss::of(cluster, &plan.layout)?,
        };
        let laid = Laid::drawn(cluster, plan, former, Ok(judged));
        Ok(Laid {
            steps: cluster.moves(&Held::from(&laid.before), &plan.layout)?,
            ..laid
        })
    }

    /// A layout whose partitions are those of the cluster, be it valid or not, without the steps to it.
    pub fn drawn(
        cluster: &Cluster,
        plan: &Plan,
        former: Option<&Plan>,
        judged: Result<Judged, String>,
    ) -> Laid {
        // Without a former layout each copy is drawn as one that stays.
        let before = former.map_or(&plan.layout, |former| &former.layout);
        Laid {
            size: plan.size.into(),
            rows: Rows::new(cluster, before, &plan.layout),
            former_size: former.map(|former| former.size.into()),
            before: before.clone(),
            after: plan.layout.clone(),
            steps: Vec::new(),
            judged,
        }
    }

    pub fn sent(&self) -> u64 {
        self.rows.all(Cell::Received)
    }

    pub fn dropped(&self) -> u64 {
        self.rows.all(Cell::Dropped)
    }

    /// The partitions in the order of the map, those with the same cells together.
    pub fn groups(&self) -> Vec<Vec<u8>> {
        let rows = || self.rows.here.iter().chain(&self.rows.gone);
        let cells = |partition: u8| -> Vec<Cell> {
            let cell = |row: &Row| row.cells[usize::from(partition)];
            rows().map(cell).collect()
        };
        let count = rows().next().map_or(0, |row| row.cells.len());
        let mut order: Vec<u8> = (0..=u8::MAX).take(count).collect();
        order.sort_by_cached_key(|partition| cells(*partition));
        let alike = order.chunk_by(|a, b| cells(*a) == cells(*b));
        alike.map(<[u8]>::to_vec).collect()
    }
}

/// The sentences on what binds at the size of a plan that has the largest.
fn binding(described: &Description, plan: &Plan) -> Vec<String> {
    let mut why = why::sentences(described, plan.size);
    why.extend(why::unused(described, plan).lines().map(String::from));
    why
}

impl Best {
    /// The proved planner says how good the layout is from this former one; the layout's own record
    /// speaks of the former layout that it was planned from.
    fn of(cluster: &Cluster, plan: &Plan, sent: u64) -> Result<Best, Refused> {
        let best = cluster.plan(ENOUGH)?;
        if best.size > plan.size {
            return Ok(Best::Larger(best.size.into()));
        }
        // Without a former layout no copy is drawn as sent, and the best plan sends them all.
        Ok(match sent.saturating_sub(best.sent.into()) {
            0 => Best::Fewest,
            more => Best::FewerBy(more),
        })
    }
}

impl Rows {
    fn new(cluster: &Cluster, before: &Layout, after: &Layout) -> Rows {
        let partitions = 1 << cluster.bits;
        let row = |id: u32| Row {
            id,
            cells: (0..=u8::MAX)
                .take(partitions)
                .map(|p| Cell::of(before.row(p).contains(&id), after.row(p).contains(&id)))
                .collect(),
        };
        let is_here = |id: &u32| cluster.nodes.iter().any(|node| node.id == *id);
        let named = before.rows().chain(after.rows());
        let ids: BTreeSet<u32> = named.flat_map(|(_, ids)| ids.to_vec()).collect();
        let mut gone: Vec<Row> = ids.into_iter().filter(|id| !is_here(id)).map(row).collect();
        let more = gone.split_off(gone.len().min(MOST_GONE));
        let copies = more.iter().map(|row| row.named() as usize);
        Rows {
            here: cluster.nodes.iter().map(|node| row(node.id)).collect(),
            gone,
            more_gone: (more.len(), copies.sum()),
        }
    }

    /// Whether the layout has copies on boxes that are not there: then it is not valid.
    pub fn has_astray(&self) -> bool {
        self.gone.iter().any(|row| row.copies() > 0)
    }

    /// Whether former copies went with boxes.
    pub fn has_gone(&self) -> bool {
        self.gone.iter().any(|row| row.count(Cell::Dropped) > 0)
    }

    /// Such cells of all boxes that are there.
    fn all(&self, cell: Cell) -> u64 {
        self.here.iter().map(|row| row.count(cell)).sum()
    }
}

impl Row {
    pub fn count(&self, cell: Cell) -> u64 {
        self.cells.iter().filter(|other| **other == cell).count() as u64
    }

    /// Copies that it has in the former layout or in this one.
    pub fn named(&self) -> u64 {
        self.cells.len() as u64 - self.count(Cell::Empty)
    }

    /// Copies that it holds in the layout.
    pub fn copies(&self) -> u64 {
        self.count(Cell::Kept) + self.count(Cell::Received)
    }
}

impl Cell {
    fn of(before: bool, after: bool) -> Cell {
        match (before, after) {
            (true, true) => Cell::Kept,
            (false, true) => Cell::Received,
            (true, false) => Cell::Dropped,
            (false, false) => Cell::Empty,
        }
    }
}
