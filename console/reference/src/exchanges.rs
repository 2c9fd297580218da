//! The method of the proved planner, written plainly and unverified, as quick as we could make it:
//! dealing, then exchange graphs, levels, cycles and splits, and in the end the first of the nearest
//! layouts. It is what the proved planner's speed is held to.
//!
//! What a turn leaves as it was is not computed again: the exchange graph is kept by parts, and only
//! those parts are made anew whose rows have changed.

mod arcs;
mod circuit;
mod first;
pub(crate) mod ground;
mod held;
mod prices;
mod search;

use crate::dealing::{caps_at, deal, size, zones};
use crate::records::{read_masks, Numbers, Refused};
use crate::{Cluster, Layout};
use circuit::Circuit;
use first::Order;
use ground::{members, Ground, PARTITIONS};
use held::Held;
pub use prices::certify_record;
pub(crate) use prices::rows;
use search::{Found, Levels};

/// What comes after a turn.
#[derive(Clone, Copy, Debug, PartialEq, Eq)]
pub enum Path {
    /// Each improvement is found by a search. It may come to another of the nearest layouts, and is then
    /// ordered to the same one.
    Searched,
    /// What is left of a cycle is turned again as long as other rows allow its exchanges at their
    /// costs, and a search is made only where they do not: the proved planner's path.
    Repeated,
}

pub struct Planned {
    pub size: u32,
    pub finished: bool,
    pub improvements: u32,
    pub rows: Vec<u32>,
}

/// A run: its rows, the cycle turned last, and the levels of the search that found none.
struct Run {
    size: u32,
    ground: Ground,
    held: Held,
    path: Path,
    last: Option<Circuit>,
    levels: Option<Levels>,
}

impl Run {
    /// The run from the dealt beginning; nothing where no layout is valid at size 1.
    fn begin(c: &Cluster, former: &[u32], path: Path) -> Option<Box<Run>> {
        let zone = zones(c);
        let size = size(c, &zone);
        if size == 0 {
            return None;
        }
        let caps = caps_at(c, size);
        let mut run = Box::new(Run {
            size,
            ground: Ground::new(c, &zone, caps, former),
            held: Held::none(),
            path,
            last: None,
            levels: None,
        });
        let Run { ground, held, .. } = &mut *run;
        held.fill(ground, &deal(c, &zone, &caps));
        Some(run)
    }

    /// A cycle that gains, with a partition for each of its arcs.
    fn circuit(&mut self) -> Option<Circuit> {
        let graph = self.held.graph(&self.ground);
        match search::search(&self.ground, &graph) {
            Found::Cycle(walk) => Some(Circuit::new(&self.ground, &self.held, &graph, walk)),
            Found::None(levels) => {
                self.levels = Some(levels);
                None
            }
        }
    }

    /// Looks for the next cycle to turn; whether there is one.
    fn look(&mut self) -> bool {
        if let (Path::Repeated, Some(last)) = (self.path, &mut self.last) {
            if last.move_on(&self.ground, &self.held) {
                return true;
            }
        }
        self.last = self.circuit();
        self.last.is_some()
    }

    /// Frees the cycle of crossed pairs and makes its exchanges; how often it was split.
    fn free_and_turn(&mut self) -> u32 {
        let circuit = self.last.as_mut().expect("a cycle was found");
        let splits = circuit.uncross(&self.ground, &self.held);
        for (p, u, v) in circuit.exchanges(&self.ground) {
            self.held.exchange(&self.ground, p, u, v);
        }
        splits
    }

    /// One improvement; whether there was one.
    fn improve(&mut self) -> bool {
        if !self.look() {
            return false;
        }
        self.free_and_turn();
        true
    }

    /// So many improvements, or fewer where there are no more; how many, and whether there are none
    /// left.
    fn improve_all(&mut self, allowance: u32) -> (u32, bool) {
        for improvements in 0..allowance {
            if !self.improve() {
                return (improvements, true);
            }
        }
        (allowance, !self.look())
    }

    /// The whole run with so many improvements at most; where it is finished, its rows are those of
    /// the first of the nearest layouts. How many improvements it took, and whether it is finished.
    fn go(&mut self, allowance: u32) -> (u32, bool) {
        let (improvements, finished) = self.improve_all(allowance);
        if finished {
            let levels = self.levels.take().expect("the last search found none");
            Order::new(&self.ground, &mut self.held, &levels).settle();
        }
        (improvements, finished)
    }
}

/// The former rows as sets of the nodes that are still there.
fn masks(c: &Cluster, former: &Layout) -> Vec<u32> {
    let set = |row: &Vec<u32>| {
        let held = (0..c.nodes.len()).filter(|&b| row.contains(&c.nodes[b].id));
        held.fold(0, |m, b| m | 1 << b)
    };
    former.iter().map(set).collect()
}

/// The plan of a cluster; nothing where no layout is valid at size 1.
pub fn plan(c: &Cluster, former: &Layout, allowance: u32, path: Path) -> Option<Planned> {
    let mut run = Run::begin(c, &masks(c, former), path)?;
    let (improvements, finished) = run.go(allowance);
    Some(Planned {
        size: run.size,
        finished,
        improvements,
        rows: run.held.rows[..c.partitions()].to_vec(),
    })
}

/// The layout of a run that goes to its end from another beginning, a layout valid at the size.
pub fn finished_from(c: &Cluster, former: &Layout, beginning: &Layout) -> Layout {
    let run = Run::begin(c, &masks(c, former), Path::Repeated);
    let mut run = run.expect("a layout exists");
    let mut rows = [0; PARTITIONS];
    rows[..c.partitions()].copy_from_slice(&masks(c, beginning));
    run.held = Held::none();
    run.held.fill(&run.ground, &rows);
    run.go(u32::MAX);
    layout(c, &run.held.rows[..c.partitions()])
}

/// The plan of a cluster record, as the C function gives it: its numbers, and its rows in 2,048
/// cells.
pub fn plan_record(
    record: &[u8],
    allowance: u32,
    path: Path,
    cells: &mut [u32],
) -> Result<Numbers, Refused> {
    let (c, former) = read_masks(record)?;
    let partitions = c.partitions();
    let mut run = Run::begin(&c, &former[..partitions], path).ok_or((9, 0))?;
    let (improvements, finished) = run.go(allowance);
    let rows = &run.held.rows[..partitions];
    let pairs = rows.iter().zip(&former);
    let sent = pairs.map(|(row, old)| (row & !old).count_ones()).sum();
    cells.fill(0);
    for (cells, row) in cells.chunks_exact_mut(8).zip(rows) {
        let ids = members(*row).map(|b| c.nodes[b].id);
        cells.iter_mut().zip(ids).for_each(|(cell, id)| *cell = id);
    }
    Ok(Numbers {
        bits: c.bits,
        replication: c.replication as u32,
        size: run.size,
        sent,
        verdict: finished.into(),
        improvements,
    })
}

/// How the cycles of a whole run were split.
#[derive(Clone, Copy, Debug, Default, PartialEq, Eq)]
pub struct Splits {
    /// Cycles turned.
    pub cycles: u32,
    /// Those that were split.
    pub split: u32,
    /// Those that would have left an invalid row, had they been turned as found.
    pub needed: u32,
    /// The most splits of one cycle.
    pub most: u32,
}

/// The splits of the run that finishes, on the path of the proved planner.
pub fn splits(c: &Cluster, former: &Layout) -> Splits {
    let mut counted = Splits::default();
    let Some(mut run) = Run::begin(c, &masks(c, former), Path::Repeated) else {
        return counted;
    };
    while run.look() {
        let circuit = run.last.expect("a cycle was found");
        let mut as_found = run.held.rows;
        for (p, u, v) in circuit.exchanges(&run.ground) {
            as_found[p] = as_found[p] & !(1 << u) | 1 << v;
        }
        let is_invalid = |row: &u32| !run.ground.is_valid(*row);
        let needed = as_found[..c.partitions()].iter().any(is_invalid);
        let splits = run.free_and_turn();
        counted.cycles += 1;
        counted.split += (splits > 0) as u32;
        counted.needed += needed as u32;
        counted.most = counted.most.max(splits);
    }
    counted
}

/// The rows of masks as rows of ids.
pub fn layout(c: &Cluster, rows: &[u32]) -> Layout {
    rows.iter()
        .map(|m| members(*m).map(|b| c.nodes[b].id).collect())
        .collect()
}
