//! The list of moves: cases worked out by hand, lists and refusals against plain sets, and lists that are cut
//! short and made afresh from what is then held.

use crate::clusters::{self, Kind, LARGE, MEDIUM, SMALL};
use crate::lent;
use crate::records::damaged;
use crate::{soak_factor, soak_seed};
use dezghuri::ffi;
use reference::cells::cells_of;
use reference::moves::{self, make, plain, sets, surviving, wide_cells, Held, Step, WIDE};
use reference::random::Random;
use reference::records::cluster_record;
use reference::{is_valid, sent, Cluster, Layout, Node};
use std::collections::BTreeSet;

/// Few partitions and many nodes, so that what is held and what is new have more than sixteen ids at times.
const WIDE_ROWS: Kind = Kind {
    most_bits: 3,
    most_nodes: 32,
    most_replication: 8,
    most_capacity: 200,
};

/// A cluster of k, R, Z and of nodes as id, zone and capacity, without ceilings.
fn cluster(numbers: [u32; 3], nodes: &[(u32, u16, u32)]) -> Cluster {
    let node = |&(id, zone, capacity): &(u32, u16, u32)| Node {
        id,
        zone,
        capacity,
        ceiling: Node::NO_CEILING,
    };
    Cluster {
        bits: numbers[0],
        replication: numbers[1] as usize,
        redundancy: numbers[2] as usize,
        nodes: nodes.iter().map(node).collect(),
    }
}

fn held_rows(rows: &[&[u32]]) -> Held {
    let set = |row: &&[u32]| row.iter().copied().collect();
    rows.iter().map(set).collect()
}

/// The list of the proved function, in a buffer that is just long enough; the count says so beforehand.
fn list(c: &Cluster, held: &Held, new: &Layout, r: &mut Random) -> Vec<Step> {
    let record = cluster_record(c, &vec![]);
    let former = wide_cells(held).expect("at most sixteen ids");
    let assignment = cells_of(new);
    let count = lent::count_moves(&record, &former, &assignment, r).expect("it is counted");
    let room = 4 * count as usize;
    let steps = lent::moves(&record, &former, &assignment, room, r).expect("it is listed");
    assert_eq!(steps.len(), count as usize);
    steps
}

fn known(c: &Cluster, former: &[&[u32]], new: &[&[u32]], steps: &[Step]) {
    let new: Layout = new.iter().map(|row| row.to_vec()).collect();
    assert!(is_valid(c, &new, 1));
    let listed = list(c, &held_rows(former), &new, &mut Random::new(1));
    assert_eq!(listed, steps, "{c:?}");
}

/// Of E both partitions go from node 2 to node 1, one after the other. Of H the only copy went with node 9:
/// it has no source. Of K node 4 gets a copy from node 1, and node 3 drops its own.
#[test]
fn e_h_and_k_are_moved() {
    let e = cluster([1, 1, 1], &[(1, 1, 10), (2, 1, 4)]);
    let steps = [[0, 0, 1, 2], [1, 0, 2, 0], [0, 1, 1, 2], [1, 1, 2, 0]];
    known(&e, &[&[2], &[2]], &[&[1], &[1]], &steps);
    let h = cluster([0, 1, 1], &[(1, 1, 10)]);
    known(&h, &[&[9]], &[&[1]], &[[0, 0, 1, 0]]);
    let k = cluster([0, 3, 2], &[(1, 1, 9), (2, 1, 9), (3, 1, 9), (4, 2, 1)]);
    let steps = [[0, 0, 4, 1], [1, 0, 3, 0]];
    known(&k, &[&[1, 2, 3]], &[&[1, 2, 4]], &steps);
}

/// Nodes 1 and 2 get copies from node 3, which then drops its own. Once node 1 has one, it is the source.
#[test]
fn a_list_made_afresh_may_have_another_source() {
    let c = cluster([0, 2, 1], &[(1, 1, 9), (2, 1, 9), (3, 1, 9)]);
    let steps = [[0, 0, 1, 3], [0, 0, 2, 3], [1, 0, 3, 0]];
    known(&c, &[&[3]], &[&[1, 2]], &steps);
    known(&c, &[&[1, 3]], &[&[1, 2]], &[[0, 0, 2, 1], [1, 0, 3, 0]]);
    known(&c, &[&[1, 2, 3]], &[&[1, 2]], &[[1, 0, 3, 0]]);
    known(&c, &[&[1, 2]], &[&[1, 2]], &[]);
}

/// Nothing has to be done, and a list of nothing needs no cell.
#[test]
fn nothing_is_listed_where_the_new_layout_is_held() {
    let c = cluster([1, 2, 1], &[(1, 1, 9), (2, 1, 9), (3, 1, 9)]);
    known(&c, &[&[1, 3], &[2, 3]], &[&[1, 3], &[2, 3]], &[]);
    known(&c, &[&[1, 3, 4], &[2, 3, 9]], &[&[1, 3], &[2, 3]], &[]);
}

/// Ids 1 to 16 hold the partition, and 17 to 24 get it: eight sends from node 1, then sixteen drops.
#[test]
fn a_partition_takes_at_most_24_steps() {
    let nodes: Vec<(u32, u16, u32)> = (1..=24).map(|id| (id, 1, 9)).collect();
    let c = cluster([0, 8, 1], &nodes);
    let ids: Vec<u32> = (1..=24).collect();
    let sends = ids[16..].iter().map(|id| [0, 0, *id, 1]);
    let drops = ids[..16].iter().map(|id| [1, 0, *id, 0]);
    let steps: Vec<Step> = sends.chain(drops).collect();
    assert_eq!(steps.len(), 24);
    known(&c, &[&ids[..16]], &[&ids[16..]], &steps);
}

/// In 256 partitions they come to as many steps as the header says are enough.
#[test]
fn the_longest_list_has_the_length_named_for_it() {
    let r = &mut Random::new(1);
    let nodes: Vec<(u32, u16, u32)> = (1..=24).map(|id| (id, 1, 300)).collect();
    let c = cluster([8, 8, 1], &nodes);
    let held = vec![(1..=16).collect(); 256];
    let new = vec![(17..=24).collect(); 256];
    let record = cluster_record(&c, &vec![]);
    let (former, assignment) = (wide_cells(&held).unwrap(), cells_of(&new));
    let mut listed = |room| lent::moves(&record, &former, &assignment, room, r);
    let steps = listed(ffi::MOVES_CELLS).expect("it is enough");
    assert_eq!(steps.len(), ffi::MOVES_CELLS / ffi::STEP_CELLS);
    assert_eq!(steps, moves::steps(&c, &held, &new));
    assert_eq!(listed(ffi::MOVES_CELLS - 1), Err((8, 0, 0)));
    assert_eq!(listed(ffi::MOVES_CELLS + 9), Ok(steps));
}

/// The refusal of a list in three cells, which are too few for a step; the count has the same, but for the last.
fn refused(record: &[u8], former: &[u32], assignment: &[u32]) -> (u32, u64, u32) {
    let r = &mut Random::new(1);
    let list = lent::moves(record, former, assignment, 3, r).expect_err("it is refused");
    let is_last = list.0 == 8 && assignment.len() >= 2048 && former.len() >= WIDE;
    let count = lent::count_moves(record, former, assignment, r);
    assert_eq!(count.err(), (!is_last).then_some(list));
    list
}

fn row_cells(row: &[u32]) -> Vec<u32> {
    cells_of(&vec![row.to_vec()])
}

/// Each call has all faults that come later, too: a short list last of all.
#[test]
fn refusals_come_in_their_order() {
    let c = |capacity| cluster([0, 2, 2], &[(1, 1, 9), (2, 1, 9), (3, 2, capacity)]);
    let record = cluster_record(&c(0), &vec![]);
    let mut former = lent::pattern(WIDE, &mut Random::new(1));
    former[..3].copy_from_slice(&[4, 0, 9]);
    let same = row_cells(&[2, 2]);
    assert_eq!(refused(&record[..30], &[], &[]), (1, 27, 0));
    assert_eq!(refused(&record, &former[..4095], &[]), (8, 0, 0));
    assert_eq!(refused(&record, &former[..4095], &same), (8, 0, 0));
    assert_eq!(refused(&record, &former, &same[..2047]), (8, 0, 0));
    assert_eq!(refused(&record, &former, &same), (10, 0, 0));
    let mut late = row_cells(&[1, 2]);
    late[8 * 200] = 1;
    let before_row_200 = (11, 0, 0);
    assert_eq!(refused(&record, &former, &late), before_row_200);
    late[1] = 3;
    let before_node_3 = (10, 0, 200);
    assert_eq!(refused(&record, &former, &late), before_node_3);
    let new = row_cells(&[1, 3]);
    assert_eq!(refused(&record, &former, &new), (12, 0, 3));
    let record = cluster_record(&c(1), &vec![]);
    assert_eq!(refused(&record, &former, &new), (5, 0, 0));
    former[..16].fill(0);
    former[0] = 3;
    assert_eq!(refused(&record, &former, &new), (8, 0, 0));
    former[..2].copy_from_slice(&[1, 3]);
    let list = lent::moves(&record, &former, &new, 3, &mut Random::new(1));
    assert_eq!(list, Ok(vec![]), "rows from 1 on are not looked at");
}

/// A short answer is refused before all else, and nothing is touched.
#[test]
fn a_short_answer_is_refused_first() {
    let r = &mut Random::new(1);
    for length in 0..ffi::MOVES_ANSWER {
        let lent = (lent::pattern(length, r), lent::pattern(8, r));
        let (mut answer, mut moves) = lent.clone();
        assert_eq!(ffi::count_moves(&[], &[], &[], &mut answer), 8);
        assert_eq!(ffi::moves(&[], &[], &[], &mut moves, &mut answer), 8);
        assert_eq!((answer, moves), lent);
    }
}

/// The rows of the record are judged, and what they say plays no part.
#[test]
fn former_rows_of_the_record_are_read_and_not_used() {
    let r = &mut Random::new(1);
    let c = cluster([0, 1, 1], &[(1, 1, 9), (2, 1, 9)]);
    let former = wide_cells(&held_rows(&[&[2]])).unwrap();
    let assignment = cells_of(&vec![vec![1]]);
    for rows in [vec![vec![]], vec![vec![1]], vec![vec![1, 2, 7]]] {
        let record = cluster_record(&c, &rows);
        let steps = lent::moves(&record, &former, &assignment, 8, r);
        assert_eq!(steps, Ok(vec![[0, 0, 1, 2], [1, 0, 2, 0]]));
    }
    let record = cluster_record(&c, &vec![vec![2, 1]]);
    let refused = lent::count_moves(&record, &former, &assignment, r);
    assert_eq!(
        refused,
        Err((5, 42, 0)),
        "twelve bytes and two nodes of fifteen"
    );
}

/// A layout that is valid at size 1: a plan, or any that is drawn.
pub fn some_layout(c: &Cluster, r: &mut Random) -> Option<Layout> {
    let drawn: Option<Layout> = (0..c.partitions()).map(|_| some_row(c, r)).collect();
    match drawn.filter(|layout| r.chance(60) && is_valid(c, layout, 1)) {
        Some(layout) => Some(layout),
        None => {
            let record = cluster_record(c, &clusters::former(c, r));
            let planned = lent::plan(&record, r.below(40) as u16, r).ok()?;
            Some(planned.layout)
        }
    }
}

/// So many different nodes; whether they lie in enough zones is not asked.
pub fn some_row(c: &Cluster, r: &mut Random) -> Option<Vec<u32>> {
    if c.nodes.len() < c.replication {
        return None;
    }
    let mut row = BTreeSet::new();
    while row.len() < c.replication {
        row.insert(c.nodes[r.below(c.nodes.len() as u64) as usize].id);
    }
    Some(row.into_iter().collect())
}

/// What is held: rows of 0 to 16 ids, at times with gone nodes, at times those of a layout or nearly so.
fn some_held(c: &Cluster, new: &Layout, r: &mut Random) -> Held {
    let last = c.nodes.last().map_or(3, |node| node.id + 5);
    let (most, gone) = (
        [8, 16][r.below(2) as usize],
        [0, 20, 60][r.below(3) as usize],
    );
    let mut row = |new: &Vec<u32>| {
        let mut ids: BTreeSet<u32> = match r.below(4) {
            0 => new.iter().copied().collect(),
            _ => BTreeSet::new(),
        };
        let more = match r.below(4) {
            0 => 0,
            1 => most,
            _ => r.between(0, most),
        };
        for _ in 0..3 * more {
            if ids.len() < more as usize {
                ids.insert(match r.chance(gone) {
                    true => r.between(1, last.into()) as u32,
                    false => c.nodes[r.below(c.nodes.len() as u64) as usize].id,
                });
            }
        }
        if r.chance(30) {
            ids.pop_first();
        }
        ids
    };
    new.iter().map(&mut row).collect()
}

/// A cluster with what is held and a new layout that is valid.
fn some_case(kind: Kind, r: &mut Random) -> (Cluster, Held, Layout) {
    loop {
        let mut c = clusters::cluster(kind, r);
        if r.chance(40) {
            for node in &mut c.nodes {
                (node.capacity, node.ceiling) = (u32::MAX, Node::NO_CEILING);
            }
        }
        if let Some(new) = some_layout(&c, r) {
            let held = some_held(&c, &new, r);
            return (c, held, new);
        }
    }
}

/// What was seen of random cases.
#[derive(Debug, Default)]
struct Seen {
    lists: u64,
    /// Lists with more than sixteen ids of a partition.
    without_room: u64,
    /// Sends that have no source.
    from_elsewhere: u64,
    /// Lists made afresh, and those with another source than before.
    afresh: u64,
    other_sources: u64,
}

impl Seen {
    /// The list is that of the sets, and it keeps its promises after every number of steps.
    fn try_list(&mut self, c: &Cluster, held: &Held, new: &Layout, r: &mut Random) {
        let steps = list(c, held, new, r);
        assert_eq!(steps, moves::steps(c, held, new), "{c:?} {held:?} {new:?}");
        let sends = steps.iter().filter(|step| step[0] == 0).count();
        let rows: Layout = held
            .iter()
            .map(|row| row.iter().copied().collect())
            .collect();
        assert_eq!(sends, sent(new, &rows));
        self.lists += 1;
        self.try_prefixes(c, held, new, &steps, r);
        self.try_cuts(c, held, new, &steps, r);
    }

    /// After every number of steps each partition has all its surviving copies or all its new ones, and a
    /// source has what it sends; a list made afresh there goes on where there is room for it.
    fn try_prefixes(
        &mut self,
        c: &Cluster,
        held: &Held,
        new: &Layout,
        steps: &[Step],
        r: &mut Random,
    ) {
        let (former, new_sets) = (surviving(c, held), sets(new));
        let has_room = moves::has_room(c, held, new);
        self.without_room += u64::from(!has_room);
        let mut now = former.clone();
        for (done, step) in steps.iter().enumerate() {
            if steps.len() < 40 || r.below(steps.len() as u64) < 6 {
                self.try_afresh(c, &now, new, &steps[done..], has_room, r);
            }
            let (p, source) = (step[1] as usize, step[3]);
            assert!(source == 0 || now[p].contains(&source));
            if step[0] == 0 && source == 0 {
                assert!(former[p].is_empty());
                self.from_elsewhere += 1;
            }
            make(&mut now, *step);
            assert!(now[p].is_superset(&former[p]) || now[p].is_superset(&new_sets[p]));
        }
        assert_eq!(now, new_sets, "it ends in the new layout");
    }

    /// The list made from what is held now has the steps that are left. Without room for all of them nothing
    /// is promised of it; but where the rows of now have room, it is so too.
    fn try_afresh(
        &mut self,
        c: &Cluster,
        now: &Held,
        new: &Layout,
        left: &[Step],
        has_room: bool,
        r: &mut Random,
    ) {
        if wide_cells(now).is_none() {
            assert!(!has_room);
            return;
        }
        let afresh = list(c, now, new, r);
        assert!(afresh
            .iter()
            .copied()
            .map(plain)
            .eq(left.iter().copied().map(plain)));
        self.afresh += 1;
        self.other_sources += u64::from(afresh != left);
    }

    /// The list is cut at random, again and again, and made afresh each time, until nothing is left.
    fn try_cuts(&mut self, c: &Cluster, held: &Held, new: &Layout, steps: &[Step], r: &mut Random) {
        if !moves::has_room(c, held, new) {
            return;
        }
        let (mut now, mut left) = (surviving(c, held), steps.to_vec());
        let mut made = 0;
        while !left.is_empty() {
            let cut = r.between(1, left.len() as u64) as usize;
            left[..cut].iter().for_each(|step| make(&mut now, *step));
            made += cut;
            left = list(c, &now, new, r);
            assert_eq!(left.len(), steps.len() - made);
        }
        assert_eq!(now, sets(new));
    }
}

fn try_lists(seed: u64, cases: u64, kind: Kind) -> Seen {
    let mut r = Random::new(seed);
    let mut seen = Seen::default();
    for _ in 0..cases {
        let (c, held, new) = some_case(kind, &mut r);
        seen.try_list(&c, &held, &new, &mut r);
    }
    seen
}

#[test]
fn lists_are_those_of_plain_sets_and_can_be_cut_anywhere() {
    let kinds = [
        (101, 800, SMALL),
        (102, 100, MEDIUM),
        (103, 300, WIDE_ROWS),
        (104, 15, LARGE),
    ];
    for (seed, cases, kind) in kinds {
        let seen = try_lists(seed, cases, kind);
        assert_eq!(seen.lists, cases);
        let others = [seen.from_elsewhere, seen.afresh, seen.other_sources];
        assert!(others.iter().all(|n| *n * 2 > cases), "{seen:?}");
        let is_wide = kind.most_nodes > 16 + 8;
        assert_eq!(seen.without_room * 20 > cases, is_wide, "{seen:?}");
    }
}

/// A call, with faults at times in each of what it is lent.
struct Lent {
    record: Vec<u8>,
    former: Vec<u32>,
    assignment: Vec<u32>,
}

fn some_call(r: &mut Random) -> Lent {
    let kind = [SMALL, MEDIUM, WIDE_ROWS][r.below(3) as usize];
    let (mut c, held, new) = some_case(kind, r);
    let mut former = wide_cells(&held).expect("at most sixteen ids");
    let mut assignment = cells_of(&new);
    // Rows that are not looked at, and cells beyond the last one.
    let rest = lent::pattern(WIDE, r);
    former[16 * c.partitions()..].copy_from_slice(&rest[16 * c.partitions()..]);
    former.extend(lent::pattern(r.below(4) as usize, r));
    assignment.extend(lent::pattern(r.below(4) as usize, r));
    if r.chance(15) {
        alter(&mut assignment, 8 * c.partitions(), 2048, r);
    }
    if r.chance(15) {
        alter(&mut former, 16 * c.partitions(), WIDE, r);
    }
    alter_cluster(&mut c, r);
    let mut record = cluster_record(&c, &clusters::former(&c, r));
    if r.chance(20) {
        record = damaged(record, r);
    }
    if r.chance(2) {
        record.truncate(4 * r.below(3) as usize);
    }
    if r.chance(6) {
        assignment.truncate(2048 - r.between(0, 2) as usize);
    }
    if r.chance(6) {
        former.truncate(WIDE - r.between(0, 2) as usize);
    }
    Lent {
        record,
        former,
        assignment,
    }
}

/// At times a node may hold nothing, more zones are wanted, or there are 33 nodes.
pub fn alter_cluster(c: &mut Cluster, r: &mut Random) {
    let node = r.below(c.nodes.len() as u64) as usize;
    match r.below(20) {
        0 => c.nodes[node].capacity = 0,
        1 => c.nodes[node].ceiling = 0,
        2 | 3 => c.redundancy = c.replication,
        _ => (),
    }
    if r.chance(2) {
        let any = c.nodes[node];
        c.nodes = (1..=33).map(|id| Node { id, ..any }).collect();
    }
}

/// Alters a cell: mostly one of the first so many, at times another of those that there are.
pub fn alter(cells: &mut [u32], first: usize, all: usize, r: &mut Random) {
    let within = if r.chance(80) { first } else { all };
    let at = r.below(within as u64) as usize;
    cells[at] = match r.below(4) {
        0 => 0,
        1 => cells[at].wrapping_add(1),
        2 => cells[(at + 1) % all],
        _ => r.below(40) as u32,
    };
}

/// Calls with buffers of all lengths, most of them with a fault or several; how many had each refusal.
fn try_calls(seed: u64, cases: u64) -> [u64; 15] {
    let mut r = Random::new(seed);
    let mut refusals = [0; 15];
    for _ in 0..cases {
        let call = some_call(&mut r);
        let Lent {
            record,
            former,
            assignment,
        } = &call;
        let answer = |room| {
            let answer = moves::answer(record, former, assignment, room);
            answer.map_err(|(refusal, byte, place)| (refusal, byte as u64, place))
        };
        let counted = answer(None);
        let count = lent::count_moves(record, former, assignment, &mut r);
        let number = |steps: &Vec<Step>| steps.len() as u32;
        assert_eq!(count, counted.as_ref().map(number).map_err(|e| *e));
        let exact = 4 * count.unwrap_or(0) as usize;
        for room in [0, exact.saturating_sub(1), exact, exact + 1, exact + 9] {
            let listed = lent::moves(record, former, assignment, room, &mut r);
            assert_eq!(listed, answer(Some(room)), "{room} of {exact}");
            refusals[listed.err().map_or(0, |(refusal, _, _)| refusal as usize)] += 1;
        }
    }
    refusals
}

#[test]
fn refusals_and_buffers_are_those_of_the_papers() {
    let refusals = try_calls(111, 3000);
    for refusal in [0, 1, 2, 3, 4, 5, 6, 7, 8, 10, 11, 12] {
        assert!(refusals[refusal] > 30, "{refusal}: {refusals:?}");
    }
}

/// The Rust package names what the C functions answer.
#[test]
fn the_package_has_the_same_steps() {
    let mut r = Random::new(121);
    for _ in 0..200 {
        let (c, held, new) = some_case(WIDE_ROWS, &mut r);
        let record = cluster_record(&c, &vec![]);
        let known = dezghuri::Cluster::from_record(&record).unwrap();
        let new_layout: dezghuri::Layout = (0..).zip(&new).collect();
        let mut now = dezghuri::Held::default();
        for (partition, ids) in (0..).zip(&held) {
            now.set_row(partition, &ids.iter().copied().collect::<Vec<u32>>());
        }
        let steps = known.moves(&now, &new_layout).unwrap();
        let cells = |step: &dezghuri::Step| {
            let kind = u32::from(step.kind == dezghuri::StepKind::Drop);
            let source = step.source.unwrap_or(0);
            [kind, step.partition.into(), step.node, source]
        };
        let expected = moves::steps(&c, &held, &new);
        assert!(steps.iter().map(cells).eq(expected.iter().copied()));
        let done = r.below(steps.len() as u64 + 1) as usize;
        let mut after = surviving(&c, &held);
        expected[..done]
            .iter()
            .for_each(|step| make(&mut after, *step));
        let known = known.held_after(&now, &steps[..done]);
        let cells = known.map(|held| held.cells().to_vec());
        assert_eq!(cells, wide_cells(&after));
    }
}

#[test]
#[ignore = "make soak"]
fn soak_moves() {
    try_lists(soak_seed(105), 800 * soak_factor(), SMALL);
    try_lists(soak_seed(106), 100 * soak_factor(), MEDIUM);
    try_lists(soak_seed(107), 300 * soak_factor(), WIDE_ROWS);
    try_lists(soak_seed(108), 15 * soak_factor(), LARGE);
    try_calls(soak_seed(112), 3000 * soak_factor());
}
