//! The unverified programs agree with one another: the listing, the method of exchanges and the
//! report's method.

use reference::cells::cells_of;
use reference::exchanges::{self, Path};
use reference::listing::{self, Listed};
use reference::random::Random;
use reference::records::cluster_record;
use reference::{capacity_for, ceilings, distance, is_valid, report, sent, Cluster, Layout, Node};

/// A disk: a small one, or one at whose capacity what stays free changes.
fn capacity(r: &mut Random) -> u32 {
    match r.chance(50) {
        true => r.between(0, 12) as u32,
        false => (16 * r.between(1, 3) + r.below(3) - 1) as u32,
    }
}

/// A small cluster and a former layout, with gone nodes, long former rows, capacities of 0, ceilings and
/// too many zones wanted.
fn small(r: &mut Random) -> (Cluster, Layout) {
    let bits = r.between(0, 2) as u32;
    let n = r.between(0, 5) as usize;
    let replication = r.between(1, 3) as usize;
    let redundancy = r.between(1, replication as u64) as usize;
    let nodes = (0..n)
        .map(|b| Node {
            id: 3 * b as u32 + 1,
            zone: r.between(0, 3) as u16,
            capacity: capacity(r),
            ceiling: Node::NO_CEILING,
        })
        .collect();
    let mut c = Cluster {
        bits,
        replication,
        redundancy,
        nodes,
    };
    ceilings::draw(&mut c, r);
    let former = (0..c.partitions())
        .map(|_| {
            (1..=16u32)
                .filter(|id| r.chance(if id % 3 == 1 { 40 } else { 5 }))
                .take(8)
                .collect()
        })
        .collect();
    (c, former)
}

/// The layout is valid, of the cluster's size, and one of the nearest by either count.
fn is_nearest(c: &Cluster, former: &Layout, listed: &Listed, size: u64, layout: &Layout) {
    assert_eq!(size, listed.size, "{c:?}");
    assert!(is_valid(c, layout, size), "{c:?} {layout:?}");
    assert_eq!(
        (sent(layout, former), distance(layout, former)),
        (listed.least_sent, listed.least_distance),
        "{c:?} {former:?}"
    );
}

/// The method of exchanges comes to the first of the nearest layouts on either path, and from the
/// record to the same as from the cluster.
fn exchanges_agree(c: &Cluster, former: &Layout, listed: Option<&Listed>) {
    let record = cluster_record(c, former);
    for path in [Path::Searched, Path::Repeated] {
        let mut cells = vec![1; 2048];
        let by_record = exchanges::plan_record(&record, 2048, path, &mut cells);
        let planned = exchanges::plan(c, former, 2048, path);
        let (Some(planned), Some(listed)) = (&planned, listed) else {
            assert!(planned.is_none() && listed.is_none(), "{c:?}");
            assert_eq!(by_record, Err((9, 0)));
            continue;
        };
        let layout = exchanges::layout(c, &planned.rows);
        is_nearest(c, former, listed, planned.size.into(), &layout);
        assert_eq!(layout, listed.first, "{c:?} {former:?}");
        assert!(planned.finished);
        let numbers = by_record.expect("a layout exists");
        assert_eq!(numbers.size, planned.size);
        assert_eq!(numbers.sent as usize, listed.least_sent);
        assert_eq!(numbers.improvements, planned.improvements);
        assert_eq!(numbers.verdict, 1);
        assert_eq!(cells, cells_of(&layout));
    }
}

/// Whether the size would be another if disks were filled to the brim.
fn loses_by_what_stays_free(c: &Cluster, size: u64) -> bool {
    let mut c = c.clone();
    for node in &mut c.nodes {
        node.capacity = capacity_for(node.capacity);
    }
    let none = vec![Vec::new(); c.partitions()];
    listing::list(&c, &none).is_some_and(|listed| listed.size > size)
}

/// The cluster without ceilings.
fn without_ceilings(c: &Cluster) -> Cluster {
    let mut c = c.clone();
    c.nodes
        .iter_mut()
        .for_each(|node| node.ceiling = Node::NO_CEILING);
    c
}

/// What ceilings alter: how many of the clusters have no layout because of them, a smaller size, more
/// to be sent at the same size, or another first layout.
#[derive(Default)]
struct Altered {
    none: u64,
    smaller: u64,
    more_sent: u64,
    first: u64,
}

impl Altered {
    /// A cluster has no layout, size or nearness that it would not have without its ceilings.
    fn count(&mut self, c: &Cluster, former: &Layout, listed: Option<&Listed>) {
        let free = listing::list(&without_ceilings(c), former);
        let (Some(listed), Some(free)) = (listed, &free) else {
            assert!(listed.is_none(), "{c:?}");
            self.none += u64::from(free.is_some());
            return;
        };
        assert!(listed.size <= free.size && listed.layouts > 0, "{c:?}");
        self.smaller += u64::from(listed.size < free.size);
        if listed.size == free.size {
            assert!(listed.least_sent >= free.least_sent, "{c:?} {former:?}");
            self.more_sent += u64::from(listed.least_sent > free.least_sent);
            self.first += u64::from(listed.first != free.first);
        }
    }
}

#[test]
fn all_agree_on_small_clusters() {
    let mut r = Random::new(7);
    let (mut tried, mut losing) = (0, 0);
    let mut altered = Altered::default();
    while tried < 10_000 {
        let (c, former) = small(&mut r);
        if listing::effort(&c) > 2000 {
            continue;
        }
        tried += 1;
        let listed = listing::list(&c, &former);
        exchanges_agree(&c, &former, listed.as_ref());
        altered.count(&c, &former, listed.as_ref());
        match (listed, report::plan(&c, &former)) {
            (Some(listed), Some(flow)) => {
                is_nearest(&c, &former, &listed, flow.size, &flow.layout);
                losing += u64::from(loses_by_what_stays_free(&c, listed.size));
            }
            (None, None) => {}
            _ => panic!("one of the two finds no layout: {c:?}"),
        }
    }
    assert!(
        losing > 1000,
        "too few of the sizes hang on what stays free"
    );
    let altered = [
        altered.none,
        altered.smaller,
        altered.more_sent,
        altered.first,
    ];
    assert!(altered.iter().all(|n| *n > 30), "{altered:?}");
}

/// From one former layout the distance is twice what is sent plus a difference that is the same for
/// all layouts, so those that send the fewest copies are the nearest, and no others.
#[test]
fn the_layouts_that_send_least_are_the_nearest() {
    let mut r = Random::new(8);
    let (mut tried, mut different) = (0, 0);
    while tried < 1000 {
        let (c, former) = small(&mut r);
        if listing::effort(&c) > 2000 {
            continue;
        }
        let Some(listed) = listing::list(&c, &former) else {
            continue;
        };
        tried += 1;
        let all = c.replication * c.partitions();
        let before: usize = former.iter().map(Vec::len).sum();
        let mut nearest = 0;
        listing::each_valid(&c, listed.size, |layout| {
            let (sent, far) = (sent(layout, &former), distance(layout, &former));
            assert_eq!(far + all, 2 * sent + before, "{c:?} {former:?} {layout:?}");
            assert_eq!(sent == listed.least_sent, far == listed.least_distance);
            nearest += usize::from(sent == listed.least_sent);
        });
        different += u64::from(nearest < listed.layouts && before != all);
    }
    assert!(
        different > 100,
        "too few of the clusters tell the counts apart"
    );
}
