//! Changes of the nodes against a plain model: which are refused, what is made of the cluster, and the
//! reverses; and chains of changes undone in backward order.

use crate::lent::{self, Changed};
use crate::records::{damaged, ids};
use crate::{soak_factor, soak_seed};
use dezghuri::{ffi, Place, Refused};
use reference::changes::{change, fault, Change};
use reference::random::Random;
use reference::records::{cluster_record, read_cluster};
use reference::{Cluster, Node};

/// A cluster of 0 to 32 nodes, more often with few or nearly as many as there can be, whose ids lie close
/// together or anywhere.
fn cluster(r: &mut Random) -> Cluster {
    let number = match r.below(6) {
        0 => r.below(3),
        1 => r.between(30, 32),
        _ => r.between(0, 32),
    };
    let ids = match r.chance(50) {
        true => (1..=48)
            .filter(|_| r.chance(70))
            .take(number as usize)
            .collect(),
        false => ids(number, r),
    };
    let replication = r.between(1, 8);
    Cluster {
        bits: r.between(0, 8) as u32,
        replication: replication as usize,
        redundancy: r.between(1, replication) as usize,
        nodes: ids.into_iter().map(|id| node(id, r)).collect(),
    }
}

fn node(id: u32, r: &mut Random) -> Node {
    Node {
        id,
        zone: edge(r) as u16,
        capacity: edge(r),
        ceiling: ceiling(r),
    }
}

/// A ceiling within its range, more often one at an end of it.
fn ceiling(r: &mut Random) -> u16 {
    match r.below(4) {
        0 => 0,
        1 => 256,
        _ => r.between(0, 256) as u16,
    }
}

/// A ceiling, at times one that is above its range: just above, with a low byte that is within it, or the
/// highest.
fn some_ceiling(r: &mut Random) -> u16 {
    match r.below(20) {
        0 => 257,
        1 => 512 + r.below(256) as u16,
        2 => u16::MAX,
        _ => ceiling(r),
    }
}

/// Any number, more often one at an end of its range.
fn edge(r: &mut Random) -> u32 {
    match r.below(6) {
        0 => 0,
        1 => u32::MAX,
        2 => r.below(300) as u32,
        _ => r.number() as u32,
    }
}

/// The cluster's record; at times with former rows, of which nothing is asked.
fn record_of(c: &Cluster, r: &mut Random) -> Vec<u8> {
    let rows = if r.chance(20) {
        c.partitions().min(4)
    } else {
        0
    };
    let former = (0..rows).map(|_| ids(r.between(0, 8), r)).collect();
    cluster_record(c, &former)
}

/// An id that is there, one beside it, 0, or any.
fn some_id(c: &Cluster, r: &mut Random) -> u32 {
    match (r.below(20), c.nodes.len() as u64) {
        (0, _) => 0,
        (1..=3, _) | (_, 0) => edge(r),
        (4..=8, _) => r.between(1, 50) as u32,
        (way, nodes) => {
            let id = c.nodes[r.below(nodes) as usize].id;
            id.wrapping_add([u32::MAX, 1, 0][way as usize % 3])
        }
    }
}

fn some_change(c: &Cluster, r: &mut Random) -> Change {
    let id = some_id(c, r);
    match r.below(3) {
        0 => Change::Add(Node {
            ceiling: some_ceiling(r),
            ..node(id, r)
        }),
        1 => Change::Remove(id),
        _ => Change::Resize(id, edge(r)),
    }
}

/// Some field, with a tag and a length about those of a change.
fn odd_field(r: &mut Random) -> Vec<u8> {
    let tag = if r.chance(80) {
        r.between(19, 23)
    } else {
        r.below(256)
    };
    let length = if r.chance(80) {
        [4, 8, 10, 12][r.below(4) as usize]
    } else {
        r.below(15)
    };
    let claimed = if r.chance(80) {
        length
    } else {
        length + 256 * r.below(3)
    };
    let mut field = vec![tag as u8];
    field.extend((claimed as u16).to_be_bytes());
    field.extend((0..length).map(|_| r.below(4) as u8));
    field
}

/// A record of changes that may be whole or not, and the bytes at which its fields began.
fn some_changes(c: &Cluster, r: &mut Random) -> (Vec<u8>, Vec<usize>) {
    let (mut record, mut starts) = (Vec::new(), Vec::new());
    for _ in 0..r.between(1, 4) {
        starts.push(record.len());
        record.extend(match r.chance(80) {
            true => some_change(c, r).field(),
            false => odd_field(r),
        });
    }
    if r.chance(25) {
        record = damaged(record, r);
    }
    (record, starts)
}

/// A byte of the record: mostly where a field begins, at times any other, the end or past it.
fn some_byte(record: &[u8], starts: &[usize], r: &mut Random) -> usize {
    match r.below(20) {
        0 => usize::MAX - r.below(16) as usize,
        1 => r.number() as usize,
        2 => record.len(),
        3 => r.below(record.len() as u64 + 3) as usize,
        _ => starts[r.below(starts.len() as u64) as usize],
    }
}

/// What the call answers, by the parser and the model.
fn expected(record: &[u8], changes: &[u8], at: usize) -> Changed {
    let refused = |refusal, read: usize, cluster| Changed {
        refusal,
        read: read as u64,
        byte: at as u64,
        reverse: Vec::new(),
        cluster,
    };
    let c = match read_cluster(record) {
        Ok((c, _)) => c,
        Err((refusal, byte)) => return refused(refusal, byte, lent::no_nodes()),
    };
    match change(&c, changes, at) {
        Err(refusal) => refused(refusal, 0, c),
        Ok(made) => Changed {
            refusal: 0,
            read: 0,
            byte: made.next as u64,
            reverse: made.reverse.field(),
            cluster: made.cluster,
        },
    }
}

/// The call answers as the parser and the model do.
fn agrees(record: &[u8], changes: &[u8], at: usize, r: &mut Random) -> Changed {
    let answered = lent::change(record, changes, at, r);
    let expected = expected(record, changes, at);
    assert_eq!(answered, expected, "{record:?} {changes:?} {at}");
    answered
}

/// Changes one to three of the cluster's numbers or nodes, so that planning may refuse it.
fn damage(c: &mut Cluster, r: &mut Random) {
    for _ in 0..r.between(1, 3) {
        let at = r.below(c.nodes.len().max(1) as u64) as usize;
        match r.below(8) {
            0 => c.bits = r.between(7, 10) as u32,
            1 => c.replication = r.below(11) as usize,
            2 => c.redundancy = r.below(11) as usize,
            3 => {
                let last = c.nodes.last().map_or(0, |node| node.id);
                let missing = 33_u32.saturating_sub(c.nodes.len() as u32);
                let ids = (1..=missing).map(|more| last.saturating_add(more));
                c.nodes.extend(ids.map(|id| node(id, r)));
            }
            4 if !c.nodes.is_empty() => c.nodes[at].id = 0,
            5 if !c.nodes.is_empty() => c.nodes[at].id = r.between(1, 40) as u32,
            6 if !c.nodes.is_empty() => c.nodes[at].ceiling = some_ceiling(r).max(256),
            _ => c.nodes.reverse(),
        }
    }
}

/// Tries so many clusters; each refusal has to come up.
fn try_changes(seed: u64, cases: u64) {
    let mut r = Random::new(seed);
    let (mut of_readings, mut of_changes) = ([0; 15], [0; 15]);
    for _ in 0..cases {
        let mut c = cluster(&mut r);
        if r.chance(10) {
            damage(&mut c, &mut r);
        }
        let mut record = record_of(&c, &mut r);
        if r.chance(15) {
            record = damaged(record, &mut r);
        }
        let met = match read_cluster(&record) {
            Ok(_) => &mut of_changes,
            Err(_) => &mut of_readings,
        };
        for _ in 0..3 {
            let (changes, starts) = some_changes(&c, &mut r);
            let at = some_byte(&changes, &starts, &mut r);
            met[agrees(&record, &changes, at, &mut r).refusal as usize] += 1;
        }
    }
    let readings = [1, 2, 3, 4, 5, 6, 7];
    assert!(
        readings.iter().all(|n| of_readings[*n] > 0),
        "{of_readings:?}"
    );
    let changes = [0, 1, 2, 3, 4, 6, 7, 13, 14];
    assert!(changes.iter().all(|n| of_changes[*n] > 0), "{of_changes:?}");
}

/// The cluster as the library has it.
fn in_hand(c: &Cluster) -> dezghuri::Cluster {
    let node = |node: &Node| dezghuri::Node {
        id: node.id,
        zone: node.zone,
        capacity: node.capacity,
        ceiling: node.ceiling,
    };
    dezghuri::Cluster {
        bits: c.bits as u8,
        replication: c.replication as u8,
        redundancy: c.redundancy as u8,
        nodes: c.nodes.iter().map(node).collect(),
        former: dezghuri::Layout::from_iter([(0, [7])]),
    }
}

/// Stages changes, most of which can be made, and undoes them: each call's answer is the cluster of the
/// next. Answers how many were made.
fn chain_comes_back(r: &mut Random) -> u64 {
    let first = cluster(r);
    let (mut c, mut made) = (first.clone(), Vec::new());
    for _ in 0..r.between(1, 40) {
        let field = some_change(&c, r).field();
        let answered = agrees(&record_of(&c, r), &field, 0, r);
        if answered.refusal == 0 {
            made.push((field, answered.reverse));
        }
        c = answered.cluster;
    }
    the_library_agrees(&first, &c, &made);
    let undo: Vec<u8> = made.iter().rev().flat_map(|(_, v)| v.clone()).collect();
    let mut at = 0;
    for (field, reverse) in made.iter().rev() {
        let answered = agrees(&record_of(&c, r), &undo, at, r);
        assert_eq!(answered.refusal, 0, "{first:?}");
        assert_eq!(answered.reverse, *field, "the reverse of a reverse");
        at += reverse.len();
        assert_eq!(answered.byte, at as u64);
        c = answered.cluster;
    }
    assert_eq!(c, first);
    assert_eq!(at, undo.len());
    made.len() as u64
}

/// The library stages the same fields all at once, undoes them all at once, and makes them one by one.
fn the_library_agrees(first: &Cluster, last: &Cluster, made: &[(Vec<u8>, Vec<u8>)]) {
    if made.is_empty() {
        return;
    }
    let record: Vec<u8> = made.iter().flat_map(|(field, _)| field.clone()).collect();
    let undo: Vec<u8> = made.iter().rev().flat_map(|(_, v)| v.clone()).collect();
    let mut own = in_hand(first);
    let staged = own.change_all(&record);
    assert_eq!((staged.refused, &staged.undo), (None, &undo));
    assert_eq!(own, in_hand(last));
    let back = own.change_all(&undo);
    assert_eq!((back.refused, back.undo), (None, record));
    assert_eq!(own, in_hand(first));
    let change = |field: &[u8]| dezghuri::Change::from_field(field).expect("it was made");
    for (field, reverse) in made {
        assert_eq!(own.change(change(field)), Ok(change(reverse)));
    }
    assert_eq!(own, in_hand(last));
}

fn try_chains(seed: u64, cases: u64) {
    let mut r = Random::new(seed);
    let made: u64 = (0..cases).map(|_| chain_comes_back(&mut r)).sum();
    assert!(
        made > 5 * cases,
        "{made} changes were made in {cases} chains"
    );
}

/// A cluster in hand is refused first, and just where planning refuses it for its numbers or nodes; a
/// refused call alters nothing.
fn try_clusters_at_fault(seed: u64, cases: u64) {
    let mut r = Random::new(seed);
    let mut met = [0; 7];
    for _ in 0..cases {
        let mut c = cluster(&mut r);
        damage(&mut c, &mut r);
        let (changes, starts) = some_changes(&c, &mut r);
        let at = some_byte(&changes, &starts, &mut r);
        let (mut own, before) = (in_hand(&c), in_hand(&c));
        let answered = own.change_at(&changes, at);
        met[fault(&c) as usize] += 1;
        if fault(&c) != 0 {
            let refused = answered.expect_err("the cluster is at fault");
            assert!([4, 5, 6].contains(&refused.refusal.number()), "{c:?}");
            assert!(!matches!(refused.place, Some(Place::Byte(_))), "{c:?}");
            assert_eq!(before.plan(0), Err(refused));
            assert_eq!(own, before);
            continue;
        }
        match change(&c, &changes, at) {
            Ok(made) => {
                let changed = answered.expect("it can be made");
                let expected = (made.next, made.reverse.field());
                assert_eq!((changed.next, changed.reverse), expected);
                assert_eq!(own, in_hand(&made.cluster));
            }
            Err(refusal) => {
                let refusal = refusal.try_into().expect("a refusal");
                let place = Some(Place::Byte(at as u64));
                assert_eq!(answered, Err(Refused { refusal, place }));
                assert_eq!(own, before);
            }
        }
    }
    assert!([0, 4, 5, 6].iter().all(|n| met[*n] > 100), "{met:?}");
}

/// A cluster of the nodes 2, 4 and so on.
fn even(nodes: u32) -> Cluster {
    let node = |id| Node {
        id,
        zone: 3,
        capacity: 1000 + id,
        ceiling: 256 - id as u16,
    };
    Cluster {
        bits: 1,
        replication: 3,
        redundancy: 2,
        nodes: (1..=nodes).map(|place| node(2 * place)).collect(),
    }
}

/// One change of each kind that can be made on nodes 2, 4 and 6.
fn small_fields() -> [Vec<u8>; 3] {
    let node = Node {
        id: 3,
        zone: 258,
        capacity: 70_000,
        ceiling: 5,
    };
    let changes = [Change::Add(node), Change::Remove(4), Change::Resize(6, 9)];
    changes.map(|change| change.field())
}

#[test]
fn every_byte_of_a_change_may_be_any_other() {
    let mut r = Random::new(71);
    let cluster = cluster_record(&even(3), &vec![]);
    for field in small_fields() {
        assert_eq!(agrees(&cluster, &field, 0, &mut r).refusal, 0);
        for at in 0..field.len() {
            for value in 0..=255 {
                let mut field = field.clone();
                field[at] = value;
                agrees(&cluster, &field, 0, &mut r);
            }
        }
    }
}

#[test]
fn a_record_of_changes_may_end_anywhere_and_be_read_from_anywhere() {
    let mut r = Random::new(72);
    let cluster = cluster_record(&even(3), &vec![]);
    let record = small_fields().concat();
    for end in 0..=record.len() {
        let ends = [1 << 32, 1 << 63, usize::MAX - 3, usize::MAX];
        for at in (0..=end + 4).chain(ends) {
            let answered = agrees(&cluster, &record[..end], at, &mut r);
            assert_eq!(answered.refusal == 7, at >= end);
        }
    }
}

/// All places at which a node can be added to, removed from, or resized among 0 to 32 nodes.
#[test]
fn every_place_among_the_nodes_is_right() {
    let mut r = Random::new(73);
    for nodes in 0..=32 {
        let record = cluster_record(&even(nodes), &vec![]);
        for id in 0..=2 * nodes + 2 {
            let there = id != 0 && id % 2 == 0 && id <= 2 * nodes;
            let mut refusal = |change: Change| agrees(&record, &change.field(), 0, &mut r).refusal;
            let node = Node {
                id,
                zone: 1,
                capacity: 5,
                ceiling: Node::NO_CEILING,
            };
            let added = match id {
                0 => 4,
                _ if there => 13,
                _ if nodes == 32 => 6,
                _ => 0,
            };
            assert_eq!(refusal(Change::Add(node)), added, "{id} of {nodes}");
            let others = match id {
                0 => 4,
                _ if there => 0,
                _ => 14,
            };
            assert_eq!(refusal(Change::Remove(id)), others, "{id} of {nodes}");
            assert_eq!(refusal(Change::Resize(id, 5)), others, "{id} of {nodes}");
        }
    }
}

/// All ceilings of an added node; those of the nodes that are there stay, and come back with the reverse.
#[test]
fn every_ceiling_is_added_or_refused() {
    let mut r = Random::new(80);
    let record = cluster_record(&even(3), &vec![]);
    for ceiling in 0..=u16::MAX {
        let added = |id| {
            let node = Node {
                id,
                zone: 1,
                capacity: 5,
                ceiling,
            };
            Change::Add(node).field()
        };
        let refusal = if ceiling <= 256 { [0, 13] } else { [4, 4] };
        let answered = [3, 4].map(|id| agrees(&record, &added(id), 0, &mut r).refusal);
        assert_eq!(answered, refusal, "{ceiling}");
    }
}

/// What is added and then removed comes back from the reverse with its ceiling; a resized node keeps it.
#[test]
fn ceilings_come_back() {
    let mut r = Random::new(81);
    let mut c = even(3);
    for ceiling in [0, 1, 255, 256] {
        c.nodes[1].ceiling = ceiling;
        let record = cluster_record(&c, &vec![]);
        let resized = agrees(&record, &Change::Resize(4, 7).field(), 0, &mut r);
        let node = Node {
            capacity: 7,
            ..c.nodes[1]
        };
        assert_eq!(resized.cluster.nodes[1], node);
        let removed = agrees(&record, &Change::Remove(4).field(), 0, &mut r);
        assert_eq!(removed.reverse, Change::Add(c.nodes[1]).field());
        let fewer = cluster_record(&removed.cluster, &vec![]);
        let back = agrees(&fewer, &removed.reverse, 0, &mut r);
        assert_eq!(back.cluster, c);
    }
}

#[test]
fn a_short_reverse_or_answer_is_refused_before_all_and_nothing_is_touched() {
    let good = cluster_record(&even(3), &vec![]);
    let change = Change::Remove(4).field();
    for record in [&good[..], &[1]] {
        for changes in [&change[..], &[]] {
            for (reverse, answer) in [(14, 137), (0, 200), (15, 136), (99, 0), (0, 0)] {
                let (mut v, mut a) = (vec![7; reverse], vec![9; answer]);
                assert_eq!(ffi::change(record, changes, 0, &mut v, &mut a), 8);
                assert!(v.iter().all(|byte| *byte == 7) && a.iter().all(|cell| *cell == 9));
            }
        }
    }
}

#[test]
fn changes_agree_with_the_model() {
    try_changes(74, 12_000);
}

#[test]
fn changes_undone_in_backward_order_restore_the_nodes() {
    try_chains(75, 800);
}

#[test]
fn a_cluster_at_fault_is_refused_before_the_change() {
    try_clusters_at_fault(76, 6000);
}

#[test]
#[ignore = "make soak"]
fn soak_changes() {
    try_changes(soak_seed(77), 12_000 * soak_factor());
    try_chains(soak_seed(78), 800 * soak_factor());
    try_clusters_at_fault(soak_seed(79), 6000 * soak_factor());
}
