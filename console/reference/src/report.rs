//! The report's own method (document 000), read with usable in place of capacity and with no more from
//! a node to the sink than its ceiling: the size by dichotomy over maximal flows, a candidate that
//! starts from the former associations, then negative cycles by Bellman and Ford until there is none.
//! Unverified. The rounds of the search are cut at 4N + 1 only where a caller asks for it, to show that
//! the answer is then wrong.

use crate::{Cluster, Layout};

struct Arc {
    to: usize,
    capacity: u32,
    weight: i32,
}

/// A flow network by residual arcs: arc i and arc i ^ 1 are each other's reverse.
struct Network {
    arcs: Vec<Arc>,
    out: Vec<Vec<usize>>,
    level: Vec<u32>,
    next: Vec<usize>,
}

const SOURCE: usize = 0;
const SINK: usize = 1;

impl Network {
    fn new(vertices: usize) -> Network {
        Network {
            arcs: Vec::new(),
            out: vec![Vec::new(); vertices],
            level: vec![0; vertices],
            next: vec![0; vertices],
        }
    }

    fn arc(&mut self, from: usize, to: usize, capacity: u32) -> usize {
        let i = self.arcs.len();
        self.arcs.push(Arc {
            to,
            capacity,
            weight: 0,
        });
        self.arcs.push(Arc {
            to: from,
            capacity: 0,
            weight: 0,
        });
        self.out[from].push(i);
        self.out[to].push(i + 1);
        i
    }

    fn find_levels(&mut self) -> bool {
        self.level.fill(u32::MAX);
        self.level[SOURCE] = 0;
        let mut queue = std::collections::VecDeque::from([SOURCE]);
        while let Some(u) = queue.pop_front() {
            for &i in &self.out[u] {
                let a = &self.arcs[i];
                if a.capacity > 0 && self.level[a.to] == u32::MAX {
                    self.level[a.to] = self.level[u] + 1;
                    queue.push_back(a.to);
                }
            }
        }
        self.level[SINK] != u32::MAX
    }

    fn push(&mut self, u: usize, most: u32) -> u32 {
        if u == SINK {
            return most;
        }
        while self.next[u] < self.out[u].len() {
            let i = self.out[u][self.next[u]];
            let (to, capacity) = (self.arcs[i].to, self.arcs[i].capacity);
            if capacity > 0 && self.level[to] == self.level[u] + 1 {
                let sent = self.push(to, most.min(capacity));
                if sent > 0 {
                    self.arcs[i].capacity -= sent;
                    self.arcs[i ^ 1].capacity += sent;
                    return sent;
                }
            }
            self.next[u] += 1;
        }
        0
    }

    /// Dinic's algorithm from the flow in hand; what it adds.
    fn maximise(&mut self) -> u32 {
        let mut total = 0;
        while self.find_levels() {
            self.next.fill(0);
            loop {
                let sent = self.push(SOURCE, u32::MAX);
                if sent == 0 {
                    break;
                }
                total += sent;
            }
        }
        total
    }

    /// One round of Bellman and Ford over all arcs; whether a distance fell.
    fn relax(&self, dist: &mut [i32], via: &mut [usize]) -> bool {
        let mut fell = false;
        for u in 0..self.out.len() {
            for &i in &self.out[u] {
                let a = &self.arcs[i];
                if a.capacity > 0 && dist[u] + a.weight < dist[a.to] {
                    dist[a.to] = dist[u] + a.weight;
                    via[a.to] = i;
                    fell = true;
                }
            }
        }
        fell
    }

    /// Disjoint negative cycles of the residual graph, as lists of arcs; none only where there is
    /// none. It looks for cycles after each round, which the report does not.
    fn negative_cycles(&self) -> Vec<Vec<usize>> {
        let n = self.out.len();
        let mut dist = vec![0i32; n];
        let mut via = vec![usize::MAX; n];
        for _ in 0..n {
            if !self.relax(&mut dist, &mut via) {
                return Vec::new();
            }
            let found = self.cycles_back(&via);
            if !found.is_empty() {
                return found;
            }
        }
        self.cycles_back(&via)
    }

    /// The negative cycles as the report finds them: so many rounds, and then the cycles that they
    /// show.
    fn cycles_in_rounds(&self, rounds: usize) -> Vec<Vec<usize>> {
        let n = self.out.len();
        let mut dist = vec![0i32; n];
        let mut via = vec![usize::MAX; n];
        for _ in 0..rounds {
            self.relax(&mut dist, &mut via);
        }
        self.cycles_back(&via)
    }

    /// The cycles that so many rounds of Bellman and Ford show, each round working from the
    /// distances of the round before: after i rounds all shortest walks of at most i arcs are
    /// known, as the report counts them.
    fn cycles_after(&self, rounds: usize) -> Vec<Vec<usize>> {
        let n = self.out.len();
        let mut dist = vec![0i32; n];
        let mut via = vec![usize::MAX; n];
        for _ in 0..rounds {
            let before = dist.clone();
            for (out, reached) in self.out.iter().zip(&before) {
                for &i in out {
                    let a = &self.arcs[i];
                    if a.capacity > 0 && reached + a.weight < dist[a.to] {
                        dist[a.to] = reached + a.weight;
                        via[a.to] = i;
                    }
                }
            }
        }
        self.cycles_back(&via)
    }

    /// The cycles of the arcs by which the vertices were reached last: each has negative weight.
    fn cycles_back(&self, via: &[usize]) -> Vec<Vec<usize>> {
        let n = via.len();
        let mut mark = vec![0usize; n];
        let mut found = Vec::new();
        for start in 0..n {
            let mut v = start;
            while mark[v] == 0 && via[v] != usize::MAX {
                mark[v] = start + 1;
                v = self.arcs[via[v] ^ 1].to;
            }
            if mark[v] == start + 1 && via[v] != usize::MAX {
                let (mut cycle, mut u) = (Vec::new(), v);
                loop {
                    cycle.push(via[u]);
                    u = self.arcs[via[u] ^ 1].to;
                    if u == v {
                        break;
                    }
                }
                found.push(cycle);
            }
        }
        found
    }
}

/// The network of a cluster at a size: the graph G(s) of the report.
struct Assigning<'a> {
    cluster: &'a Cluster,
    net: Network,
    /// The arc from partition and zone to node, by partition and node.
    held: Vec<Vec<usize>>,
}

/// For each node the place of its zone among the zones in use.
fn zone_places(c: &Cluster) -> (Vec<usize>, usize) {
    let mut numbers: Vec<u16> = c.nodes.iter().map(|b| b.zone).collect();
    numbers.sort_unstable();
    numbers.dedup();
    let place = |zone| numbers.iter().position(|n| *n == zone).expect("in use");
    (
        c.nodes.iter().map(|b| place(b.zone)).collect(),
        numbers.len(),
    )
}

impl Assigning<'_> {
    /// The graph with only those associations that are open.
    fn new(c: &Cluster, size: u64, open: impl Fn(usize, usize) -> bool) -> Assigning<'_> {
        let (zone, zones) = zone_places(c);
        let (p, n) = (c.partitions(), c.nodes.len());
        let (plus, minus, cross) = (2, 2 + p, 2 + 2 * p);
        let node = cross + p * zones;
        let mut net = Network::new(node + n);
        let spare = (c.replication - c.redundancy) as u32;
        let mut held = vec![vec![0; n]; p];
        for (q, held) in held.iter_mut().enumerate() {
            net.arc(SOURCE, plus + q, c.redundancy as u32);
            net.arc(SOURCE, minus + q, spare);
            for z in 0..zones {
                net.arc(plus + q, cross + q * zones + z, 1);
                net.arc(minus + q, cross + q * zones + z, spare);
            }
            for (b, held) in held.iter_mut().enumerate() {
                *held = net.arc(cross + q * zones + zone[b], node + b, open(q, b) as u32);
            }
        }
        for (b, box_) in c.nodes.iter().enumerate() {
            let most = (box_.usable() as u64 / size).min(p as u64);
            net.arc(node + b, SINK, most.min(box_.ceiling.into()) as u32);
        }
        Assigning {
            cluster: c,
            net,
            held,
        }
    }

    /// A maximal flow that first takes all it can of the associations of `first`.
    fn starting_from<'a>(c: &'a Cluster, size: u64, first: &Layout) -> Assigning<'a> {
        let holds = |q: usize, b: usize| first[q].contains(&c.nodes[b].id);
        let mut g = Assigning::new(c, size, holds);
        g.net.maximise();
        for q in 0..c.partitions() {
            for b in (0..c.nodes.len()).filter(|&b| !holds(q, b)) {
                g.net.arcs[g.held[q][b]].capacity = 1;
            }
        }
        g.net.maximise();
        g
    }

    /// An association that stood before weighs -1, any other 1.
    fn weigh(&mut self, former: &Layout) {
        for (held, row) in self.held.iter().zip(former) {
            for (&i, node) in held.iter().zip(&self.cluster.nodes) {
                let weight = if row.contains(&node.id) { -1 } else { 1 };
                self.net.arcs[i].weight = weight;
                self.net.arcs[i ^ 1].weight = -weight;
            }
        }
    }

    /// Turns negative cycles as long as the search finds any.
    fn minimise(&mut self, search: impl Fn(&Network) -> Vec<Vec<usize>>) {
        loop {
            let cycles = search(&self.net);
            if cycles.is_empty() {
                return;
            }
            for i in cycles.into_iter().flatten() {
                self.net.arcs[i].capacity -= 1;
                self.net.arcs[i ^ 1].capacity += 1;
            }
        }
    }

    fn layout(&self) -> Layout {
        let row = |held: &Vec<usize>| {
            let nodes = held.iter().zip(&self.cluster.nodes);
            let taken = nodes.filter(|(&i, _)| self.net.arcs[i].capacity == 0);
            taken.map(|(_, node)| node.id).collect()
        };
        self.held.iter().map(row).collect()
    }
}

/// The size by dichotomy; nothing where no layout is valid at size 1.
fn size(c: &Cluster) -> Option<u64> {
    let full = (c.replication * c.partitions()) as u32;
    let fits = |size| Assigning::new(c, size, |_, _| true).net.maximise() == full;
    if !fits(1) {
        return None;
    }
    let total: u64 = c.nodes.iter().map(|b| b.usable() as u64).sum();
    let (mut low, mut high) = (1, 1 + total / c.replication as u64);
    while low + 1 < high {
        let middle = (low + high) / 2;
        if fits(middle) {
            low = middle;
        } else {
            high = middle;
        }
    }
    Some(low)
}

pub struct Planned {
    pub size: u64,
    pub layout: Layout,
}

/// The plan of a cluster; nothing where no layout is valid at size 1.
pub fn plan(c: &Cluster, former: &Layout) -> Option<Planned> {
    planned(c, former, Network::negative_cycles)
}

/// The plan as the report's text has it, with 4N + 1 rounds in every search.
pub fn plan_as_written(c: &Cluster, former: &Layout) -> Option<Planned> {
    let rounds = 4 * c.nodes.len() + 1;
    planned(c, former, |net| net.cycles_in_rounds(rounds))
}

fn planned(
    c: &Cluster,
    former: &Layout,
    search: impl Fn(&Network) -> Vec<Vec<usize>>,
) -> Option<Planned> {
    let size = size(c)?;
    let mut g = Assigning::starting_from(c, size, former);
    g.weigh(former);
    g.minimise(search);
    Some(Planned {
        size,
        layout: g.layout(),
    })
}

/// What the report's last step makes of a layout of that size, its search cut after so many rounds.
pub fn improve_cut(
    c: &Cluster,
    former: &Layout,
    size: u64,
    start: &Layout,
    rounds: usize,
) -> Layout {
    let mut g = Assigning::starting_from(c, size, start);
    g.weigh(former);
    g.minimise(|net| net.cycles_after(rounds));
    g.layout()
}
