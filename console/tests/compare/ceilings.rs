//! Ceilings, the most copies that nodes may hold, through reading, changing, planning, check and figures:
//! cases worked out by hand, and what ceilings can alter of a plan and what they cannot.

use crate::clusters::{self, Kind, LARGE, MEDIUM, SMALL};
use crate::lent::{self, Planned};
use crate::{soak_factor, soak_seed};
use reference::cells::cells_of;
use reference::changes::Change;
use reference::random::Random;
use reference::records::cluster_record;
use reference::{is_valid, Cluster, Layout, Node};

/// A cluster of k, R, Z and of nodes as id, zone, capacity and ceiling.
fn cluster(numbers: [u32; 3], nodes: &[(u32, u16, u32, u16)]) -> Cluster {
    let node = |&(id, zone, capacity, ceiling): &(u32, u16, u32, u16)| Node {
        id,
        zone,
        capacity,
        ceiling,
    };
    Cluster {
        bits: numbers[0],
        replication: numbers[1] as usize,
        redundancy: numbers[2] as usize,
        nodes: nodes.iter().map(node).collect(),
    }
}

/// The finished plan; refused, the refusal and the byte.
fn finished(c: &Cluster, former: &Layout) -> Result<Planned, (u32, u64)> {
    lent::plan(&cluster_record(c, former), 2048, &mut Random::new(1))
}

/// Size, copies to be sent and layout of the finished plan.
fn outcome(c: &Cluster, former: &Layout) -> Result<(u32, u32, Layout), (u32, u64)> {
    finished(c, former).map(|planned| (planned.size, planned.sent, planned.layout))
}

/// Of 10 and 99 MB 10 and 93 may be filled, but node 2 may hold nothing, though it had both copies.
#[test]
fn a_ceiling_of_0_holds_nothing_and_limits_nothing_else() {
    let c = |ceiling| cluster([1, 1, 1], &[(1, 1, 10, 256), (2, 1, 99, ceiling)]);
    let former = vec![vec![2], vec![2]];
    let expected = (5, 2, vec![vec![1], vec![1]]);
    assert_eq!(outcome(&c(0), &former), Ok(expected));
    assert_eq!(outcome(&c(256), &former), Ok((46, 0, former.clone())));
}

/// The disk of 100 MB would take two partitions of 47 MB; and of example A each node has to hold both.
#[test]
fn there_is_no_layout_by_ceilings_alone() {
    let none = vec![vec![]; 2];
    let one = |ceiling| outcome(&cluster([1, 1, 1], &[(1, 1, 100, ceiling)]), &none);
    assert_eq!((one(0), one(1)), (Err((9, 0)), Err((9, 0))));
    let expected = (47, 2, vec![vec![1], vec![1]]);
    assert_eq!(one(2), Ok(expected.clone()));
    assert_eq!(one(256), Ok(expected));
    let a = |ceilings: [u16; 3]| {
        let [x, y, z] = ceilings;
        let c = cluster([1, 3, 2], &[(1, 1, 100, x), (2, 1, 70, y), (3, 2, 50, z)]);
        outcome(&c, &none).map(|(size, sent, _)| (size, sent))
    };
    assert_eq!(a([2, 2, 2]), Ok((23, 6)));
    for ceilings in [[1, 256, 256], [256, 1, 256], [256, 256, 1]] {
        assert_eq!(a(ceilings), Err((9, 0)));
    }
}

/// Example L, whose row 1 2 3 of 9 MB lies in one zone. With a ceiling of 0 for node 3 node 4, in the
/// other zone and of 1 MB, has to take a copy.
#[test]
fn a_ceiling_forces_another_zone() {
    let c = |ceiling| {
        let third = (3, 1, 9, ceiling);
        cluster(
            [0, 3, 1],
            &[(1, 1, 9, 256), (2, 1, 9, 256), third, (4, 2, 1, 256)],
        )
    };
    let former = vec![vec![1, 2, 3]];
    assert_eq!(outcome(&c(1), &former), Ok((9, 0, former.clone())));
    assert_eq!(outcome(&c(0), &former), Ok((1, 1, vec![vec![1, 2, 4]])));
}

/// Of 47 MB 45 may be filled: at 15 MB node 1 takes the three copies that it had. With a ceiling of 2
/// one of them is sent to node 3, which changes the last row that can change.
#[test]
fn a_ceiling_makes_more_be_sent() {
    let c = |ceiling| {
        let first = (1, 1, 47, ceiling);
        cluster([2, 1, 1], &[first, (2, 1, 15, 256), (3, 1, 15, 256)])
    };
    let former = vec![vec![1], vec![1], vec![1], vec![2]];
    assert_eq!(outcome(&c(3), &former), Ok((15, 0, former.clone())));
    let expected = vec![vec![1], vec![1], vec![3], vec![2]];
    assert_eq!(outcome(&c(2), &former), Ok((15, 1, expected)));
}

/// Nothing was there before, and all disks are equal and large enough: the first layout fills node 1 up to
/// its ceiling, then node 2.
#[test]
fn the_first_layout_goes_up_to_the_ceilings() {
    let c = |first, second| {
        let nodes = [(1, 1, 9, first), (2, 1, 9, second), (3, 1, 9, 256)];
        cluster([2, 1, 1], &nodes)
    };
    let rows = |first, second| {
        let planned = outcome(&c(first, second), &vec![vec![]; 4]).expect("a layout exists");
        (planned.0, planned.2.concat())
    };
    assert_eq!(rows(256, 256), (4, vec![1, 1, 2, 2]));
    assert_eq!(rows(2, 1), (4, vec![1, 1, 2, 3]));
    assert_eq!(rows(1, 2), (4, vec![1, 2, 2, 3]));
    assert_eq!(rows(1, 1), (4, vec![1, 2, 3, 3]));
    assert_eq!(rows(0, 1), (3, vec![2, 3, 3, 3]));
    assert_eq!(rows(0, 0), (2, vec![3, 3, 3, 3]));
}

#[test]
fn a_ceiling_of_256_is_legal_for_one_partition() {
    let c = cluster([0, 1, 1], &[(1, 1, 5, 256), (2, 1, 9, 256)]);
    assert_eq!(outcome(&c, &vec![vec![]]), Ok((9, 1, vec![vec![2]])));
}

/// The second node begins at byte 27. It is refused whatever is asked of the cluster.
#[test]
fn a_ceiling_of_257_is_refused_by_every_call() {
    let r = &mut Random::new(1);
    for ceiling in [257, 512, u16::MAX] {
        let c = cluster([0, 1, 1], &[(1, 1, 5, 256), (2, 1, 9, ceiling)]);
        refused_by_all(&cluster_record(&c, &vec![vec![]]), (4, 27), r);
        let added = Change::Add(c.nodes[1]).field();
        let one = cluster([0, 1, 1], &[(1, 1, 5, 256)]);
        let answered = lent::change(&cluster_record(&one, &vec![]), &added, 0, r);
        assert_eq!((answered.refusal, answered.byte), (4, 0));
        assert_eq!(answered.cluster, one);
    }
}

/// Reading, planning, check, figures, certify, losses and changing refuse the record alike, with the byte.
fn refused_by_all(record: &[u8], refused: (u32, u64), r: &mut Random) {
    assert_eq!(lent::read_cluster(record, r), Err(refused));
    assert_eq!(lent::plan(record, 2048, r), Err(refused));
    let cells = cells_of(&vec![vec![1]]);
    let (refusal, byte) = refused;
    assert_eq!(lent::check(record, &cells, 1, r), (refusal, byte, 0));
    let figures = lent::figures(record, &cells, 1, r);
    assert_eq!(figures, Err((refusal, byte, 0)));
    let certified = lent::certify(record, &cells, 1, r);
    assert_eq!(certified, Err((refusal, byte, 0)));
    let worst = lent::worst_loss(record, &cells, 5, r);
    assert_eq!(worst, Err((refusal, byte, 0)));
    let lost = lent::loss(record, &cells, &[1], r);
    assert_eq!(lost, Err((refusal, byte, 0)));
    let changed = lent::change(record, &Change::Remove(1).field(), 0, r);
    assert_eq!((changed.refusal, changed.read), refused);
    assert_eq!(changed.cluster, lent::no_nodes());
}

/// The node as it was before ceilings; its length is looked at before the record's end.
#[test]
fn a_node_of_ten_bytes_has_a_wrong_length() {
    let r = &mut Random::new(1);
    let head = [1, 0, 1, 0, 2, 0, 1, 1, 3, 0, 1, 1];
    let node = [4, 0, 10, 0, 0, 0, 1, 0, 1, 0, 0, 0, 9];
    for end in 3..=node.len() {
        refused_by_all(&[&head[..], &node[..end]].concat(), (3, 12), r);
    }
    let twelve = [4, 0, 12, 0, 0, 0, 1, 0, 1, 0, 0, 0, 9, 1, 0];
    for end in 3..twelve.len() {
        refused_by_all(&[&head[..], &twelve[..end]].concat(), (1, 12), r);
    }
    let added = [20, 0, 10, 0, 0, 0, 1, 0, 1, 0, 0, 0, 9];
    for end in 3..=added.len() {
        let answered = lent::change(&head, &added[..end], 0, r);
        assert_eq!(answered.refusal, 3, "{end}");
    }
}

/// Rows come first, then the nodes in order, capacity and ceiling of each together. Of 20 and 10 MB 19
/// and 10 may be filled, so both copies of 5 MB fit node 8.
#[test]
fn a_ceiling_that_is_passed_is_refused_with_the_node() {
    let r = &mut Random::new(1);
    let c = |first, second| cluster([1, 2, 1], &[(7, 1, 20, first), (8, 1, 10, second)]);
    let good = cells_of(&vec![vec![7, 8]; 2]);
    let mut check = |first, second, size| {
        let record = cluster_record(&c(first, second), &vec![]);
        let (refusal, byte, place) = lent::check(&record, &good, size, r);
        let figures = lent::figures(&record, &good, size, r).err();
        let refused = (refusal != 0).then_some((refusal, byte, place));
        assert_eq!(figures, refused, "figures refuse alike");
        assert_eq!(byte, 0);
        (refusal, place)
    };
    assert_eq!(check(2, 2, 5), (0, 0), "to the brim");
    assert_eq!(check(256, 256, 5), (0, 0));
    assert_eq!(check(2, 1, 1), (12, 8));
    assert_eq!(check(2, 0, 1), (12, 8));
    assert_eq!(check(1, 2, 1), (12, 7));
    assert_eq!(check(1, 2, 6), (12, 7), "the disk of 8 comes later");
    assert_eq!(check(2, 2, 6), (12, 8));
    assert_eq!(check(2, 1, 10), (12, 7), "the ceiling of 8 comes later");
    let record = cluster_record(&c(0, 0), &vec![]);
    let bad = cells_of(&vec![vec![7, 8], vec![8, 7]]);
    assert_eq!(lent::check(&record, &bad, 1, r), (10, 0, 1));
}

/// A ceiling holds at every number of copies, one more is refused, and one higher allows it.
#[test]
fn check_passes_just_what_is_within_the_ceiling() {
    let r = &mut Random::new(1);
    for bits in 0..=8 {
        let all = 1u16 << bits;
        for held in [0, 1, all / 2, all - 1, all] {
            let rows = (0..all).map(|p| vec![if p < held { 1 } else { 2 }]);
            let cells = cells_of(&rows.collect());
            for ceiling in [0, held.saturating_sub(1), held, held + 1, 256] {
                let ceiling = ceiling.min(256);
                let nodes = [(1, 1, 9999, ceiling), (2, 1, 9999, 256)];
                let record = cluster_record(&cluster([bits, 1, 1], &nodes), &vec![]);
                let expected = if held <= ceiling {
                    (0, 0, 0)
                } else {
                    (12, 0, 1)
                };
                let checked = lent::check(&record, &cells, 1, r);
                assert_eq!(checked, expected, "{held} of {all} at {ceiling}");
            }
        }
    }
}

#[test]
fn the_size_to_hope_for_knows_no_ceilings() {
    let r = &mut Random::new(1);
    let c = |ceiling| cluster([0, 1, 1], &[(1, 1, 10, 1), (2, 1, 90, ceiling)]);
    let cells = cells_of(&vec![vec![1]]);
    for ceiling in [0, 1, 256] {
        let record = cluster_record(&c(ceiling), &vec![]);
        let (_, hope) = lent::figures(&record, &cells, 10, r).expect("it is valid");
        assert_eq!(hope, 10 + 85);
    }
}

/// The cluster with all ceilings changed.
fn with_ceilings(c: &Cluster, change: impl Fn(u16) -> u16) -> Cluster {
    let mut c = c.clone();
    for node in &mut c.nodes {
        node.ceiling = change(node.ceiling);
    }
    c
}

/// What ceilings alter in the plans of clusters: for how many of them there is no layout, the size is
/// smaller, more is sent at the same size, or the layout is another one that sends as few.
#[derive(Debug, Default)]
struct Altered {
    none: u64,
    smaller: u64,
    more_sent: u64,
    first: u64,
    nothing: u64,
}

impl Altered {
    /// Layouts valid with ceilings are valid without. So a plan made without is the plan with ceilings
    /// just where it keeps within them, and the size and the nearness are never better with ceilings.
    fn count(&mut self, c: &Cluster, former: &Layout) {
        let (bound, free) = (
            finished(c, former),
            finished(&with_ceilings(c, |_| Node::NO_CEILING), former),
        );
        let (Ok(bound), Ok(free)) = (&bound, &free) else {
            assert_eq!(bound.err(), Some((9, 0)));
            self.none += u64::from(free.is_ok());
            return;
        };
        let outcome = |planned: &Planned| (planned.size, planned.sent, planned.layout.clone());
        let keeps_within = is_valid(c, &free.layout, free.size.into());
        assert_eq!(outcome(bound) == outcome(free), keeps_within);
        assert!(bound.size <= free.size);
        if bound.size < free.size {
            self.smaller += 1;
        } else if bound.sent != free.sent {
            assert!(bound.sent > free.sent);
            self.more_sent += 1;
        } else if bound.layout != free.layout {
            self.first += 1;
        } else {
            self.nothing += 1;
        }
    }
}

/// Ceilings of all partitions or more say nothing, and a node that may hold nothing is as good as gone.
fn equals_have_equal_plans(c: &Cluster, former: &Layout, allowance: u16, r: &mut Random) {
    let all = c.partitions() as u16;
    let mut plan = |c: &Cluster, allowance| {
        let record = cluster_record(c, former);
        lent::plan(&record, allowance, r)
    };
    let highest = with_ceilings(c, |ceiling| if ceiling < all { ceiling } else { 256 });
    let lowest = with_ceilings(c, |ceiling| ceiling.min(all));
    let planned = plan(c, allowance);
    assert_eq!(plan(&highest, allowance), planned);
    assert_eq!(plan(&lowest, allowance), planned);
    let mut without = c.clone();
    without.nodes.retain(|node| node.ceiling > 0);
    let outcome = |planned: Planned| (planned.size, planned.sent, planned.layout);
    assert_eq!(
        plan(&without, 2048).map(outcome),
        plan(c, 2048).map(outcome)
    );
}

fn try_ceilings(seed: u64, cases: u64, kind: Kind) -> Altered {
    let mut r = Random::new(seed);
    let mut altered = Altered::default();
    let mut tried = 0;
    while tried < cases {
        let (c, former, _) = clusters::case(kind, &mut r);
        if c.nodes.iter().all(|node| node.ceiling == Node::NO_CEILING) {
            continue;
        }
        tried += 1;
        altered.count(&c, &former);
        let allowance = r.below(30) as u16;
        equals_have_equal_plans(&c, &former, allowance, &mut r);
    }
    altered
}

/// So many of the random clusters would have other plans without their ceilings.
#[test]
fn ceilings_alter_plans_by_what_they_forbid_alone() {
    let kinds = [(91, 4000, SMALL), (92, 1000, MEDIUM), (93, 200, LARGE)];
    for (seed, cases, kind) in kinds {
        let altered = try_ceilings(seed, cases, kind);
        let Altered {
            none,
            smaller,
            more_sent,
            first,
            nothing,
        } = altered;
        let seen = [none, smaller, nothing, more_sent + first];
        assert!(seen.iter().all(|n| *n * 100 > cases), "{altered:?}");
    }
}

#[test]
#[ignore = "make soak"]
fn soak_ceilings() {
    try_ceilings(soak_seed(94), 4000 * soak_factor(), SMALL);
    try_ceilings(soak_seed(95), 1000 * soak_factor(), MEDIUM);
    try_ceilings(soak_seed(96), 200 * soak_factor(), LARGE);
}
