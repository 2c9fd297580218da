//! Demands 2 and 3 at allowances 0, 1, 2 and on, with the first of the nearest layouts wherever a run
//! is finished: against a listing of all layouts where there are few, against the report's method where
//! there are many.

use crate::clusters::{self, MEDIUM, SMALL};
use crate::lent::{self, Planned};
use crate::{soak_factor, soak_seed};
use reference::cells::cells_of;
use reference::random::Random;
use reference::records::cluster_record;
use reference::{distance, exchanges, is_valid, listing, report, sent, tied, Cluster, Layout};

/// What is known of a cluster and a former layout from elsewhere.
struct Known {
    size: u64,
    least_sent: usize,
    least_distance: usize,
    first: Layout,
    /// Whether other layouts than the first are as near.
    is_tied: bool,
}

/// A cluster with its former layout, and what is known of them.
struct Case<'a> {
    c: &'a Cluster,
    former: &'a Layout,
    record: Vec<u8>,
    known: Known,
}

impl Case<'_> {
    /// Checks all that is promised of the answers at all allowances; whether anything improves.
    fn keeps_the_rules(&self, other: &Layout, r: &mut Random) -> bool {
        let mut now = self.answer(0, r);
        self.begins_alike(other, &now, r);
        let mut allowance = 0;
        while !now.finished {
            assert_eq!(
                now.improvements,
                allowance.into(),
                "a stopped run has used all"
            );
            allowance += 1;
            let next = self.answer(allowance, r);
            self.improves(&now, &next);
            now = next;
        }
        assert!(allowance <= 2048);
        assert_eq!(
            now.improvements,
            allowance.into(),
            "the smallest that finishes"
        );
        let larger = r.between(2048, 65_535) as u16;
        for more in [allowance + 1, allowance + 2, 2048, larger, 65_535] {
            assert_eq!(
                self.answer(more, r),
                now,
                "a larger allowance changes nothing"
            );
        }
        if self.former.iter().all(Vec::is_empty) {
            assert_eq!(allowance, 0);
            assert_eq!(now.sent as usize, self.c.replication * self.c.partitions());
        }
        allowance > 0
    }

    /// One improvement sends fewer copies, by one at least and one for each node at most; in the words
    /// of the demand, it is nearer by two at least and two for each node at most.
    fn improves(&self, now: &Planned, next: &Planned) {
        let nodes = self.c.nodes.len();
        let fewer = now.sent as usize - next.sent as usize;
        assert!((1..=nodes).contains(&fewer), "{fewer} fewer are sent");
        let far = |planned: &Planned| distance(&planned.layout, self.former);
        let nearer = far(now) - far(next);
        assert!((2..=2 * nodes).contains(&nearer), "{nearer} nearer");
    }

    /// Plans, and checks what holds at every allowance: the layout is valid at the cluster's size
    /// and at no larger one, sends as many copies as named, and is one of those that send the fewest,
    /// which are the nearest, just when it is finished; it is then the first of them.
    fn answer(&self, allowance: u16, r: &mut Random) -> Planned {
        let planned = lent::plan(&self.record, allowance, r).expect("a layout exists");
        let (size, copies) = (u64::from(planned.size), planned.sent as usize);
        assert_eq!(size, self.known.size);
        assert!(is_valid(self.c, &planned.layout, size));
        assert_eq!(copies, sent(&planned.layout, self.former));
        assert_eq!(copies == self.known.least_sent, planned.finished);
        let far = distance(&planned.layout, self.former);
        assert_eq!(far == self.known.least_distance, planned.finished);
        if planned.finished {
            assert_eq!(planned.layout, self.known.first, "allowance {allowance}");
        }
        let cells = cells_of(&planned.layout);
        assert_eq!(
            lent::check(&self.record, &cells, planned.size, r),
            (0, 0, 0)
        );
        if let Some(larger) = planned.size.checked_add(1) {
            assert_eq!(lent::check(&self.record, &cells, larger, r).0, 12);
        }
        planned
    }

    /// At allowance 0 the layout sends as many copies as the beginning, which all former layouts have
    /// alike; it is the beginning itself where the run is stopped.
    fn begins_alike(&self, other: &Layout, first: &Planned, r: &mut Random) {
        let mut at_0 = |former| lent::plan(&cluster_record(self.c, former), 0, r);
        // With a former layout that is valid a run is finished at once only where it begins with it.
        let beginning = at_0(&self.known.first).expect("a layout exists").layout;
        let elsewhere = at_0(other).expect("a layout exists");
        for (planned, former) in [(first, self.former), (&elsewhere, other)] {
            let expected = sent(&beginning, former);
            assert_eq!(planned.sent as usize, expected, "another beginning");
            assert!(planned.finished || planned.layout == beginning);
        }
    }
}

fn refuses_all(c: &Cluster, former: &Layout, r: &mut Random) {
    let record = cluster_record(c, former);
    for allowance in [0, 1, 2048, 65_535] {
        assert_eq!(lent::plan(&record, allowance, r), Err((9, 0)));
    }
}

/// Prints the case when a test fails in it.
struct ToldOnFailure<'a>(&'a Cluster, &'a Layout);

impl Drop for ToldOnFailure<'_> {
    fn drop(&mut self) {
        if std::thread::panicking() {
            eprintln!("{:?}\nformer {:?}", self.0, self.1);
        }
    }
}

/// A cluster, a former layout and another one.
type Drawn = (Cluster, Layout, Layout);

/// How many clusters were tried, and how many of them have a layout, improve, and have several nearest
/// layouts.
#[derive(Default)]
struct Counts {
    tried: u64,
    planned: u64,
    improved: u64,
    tied: u64,
}

/// Tries so many clusters; what is known of each comes from `know`.
fn try_clusters(
    seed: u64,
    cases: u64,
    draw: impl Fn(&mut Random) -> Drawn,
    know: impl Fn(&Cluster, &Layout) -> Option<Known>,
) -> Counts {
    let mut r = Random::new(seed);
    let mut counts = Counts::default();
    while counts.tried < cases {
        let (c, former, other) = draw(&mut r);
        counts.tried += 1;
        let _told = ToldOnFailure(&c, &former);
        match know(&c, &former) {
            None => refuses_all(&c, &former, &mut r),
            Some(known) => {
                counts.planned += 1;
                counts.tied += u64::from(known.is_tied);
                let record = cluster_record(&c, &former);
                let case = Case {
                    c: &c,
                    former: &former,
                    record,
                    known,
                };
                counts.improved += u64::from(case.keeps_the_rules(&other, &mut r));
            }
        }
    }
    assert!(
        counts.planned * 2 > counts.tried,
        "too few of the clusters have a layout"
    );
    counts
}

/// What the listing of all layouts tells.
fn listed(c: &Cluster, former: &Layout) -> Option<Known> {
    listing::list(c, former).map(|listed| Known {
        size: listed.size,
        least_sent: listed.least_sent,
        least_distance: listed.least_distance,
        first: listed.first,
        is_tied: listed.nearest > 1,
    })
}

/// What the report's method tells, and of the first layout the plain program, from where that ends.
fn by_report(c: &Cluster, former: &Layout) -> Option<Known> {
    report::plan(c, former).map(|planned| {
        let first = exchanges::finished_from(c, former, &planned.layout);
        Known {
            size: planned.size,
            least_sent: sent(&planned.layout, former),
            least_distance: distance(&planned.layout, former),
            is_tied: first != planned.layout,
            first,
        }
    })
}

/// Small clusters, against a listing of all their layouts.
fn try_small(seed: u64, cases: u64) {
    let draw = |r: &mut Random| loop {
        let drawn = clusters::case(SMALL, r);
        if listing::effort(&drawn.0) <= 10_000 {
            return drawn;
        }
    };
    let counts = try_clusters(seed, cases, draw, listed);
    let enough = counts.improved * 4 > counts.planned;
    assert!(enough, "too few of the layouts improve");
}

/// Small clusters with several nearest layouts, against a listing of all.
fn try_tied(seed: u64, cases: u64) {
    let draw = |r: &mut Random| {
        let (c, former) = tied::case(r);
        let other = clusters::former(&c, r);
        (c, former, other)
    };
    let counts = try_clusters(seed, cases, draw, listed);
    let enough = counts.tied * 2 > counts.planned;
    assert!(enough, "too few have several nearest layouts");
}

/// Larger clusters, against the report's method.
fn try_larger(seed: u64, cases: u64) {
    let draw = |r: &mut Random| clusters::case(MEDIUM, r);
    let counts = try_clusters(seed, cases, draw, by_report);
    let enough = counts.improved * 4 > counts.planned && counts.tied * 4 > counts.planned;
    assert!(enough, "too few of the layouts improve or are ordered");
}

#[test]
fn small_clusters_against_all_their_layouts() {
    try_small(11, 20_000);
}

#[test]
fn tied_clusters_against_all_their_layouts() {
    try_tied(15, 20_000);
}

#[test]
fn larger_clusters_against_the_reports_method() {
    try_larger(12, 800);
}

#[test]
#[ignore = "make soak"]
fn soak_small_clusters() {
    try_small(soak_seed(13), 20_000 * soak_factor());
}

#[test]
#[ignore = "make soak"]
fn soak_tied_clusters() {
    try_tied(soak_seed(16), 20_000 * soak_factor());
}

#[test]
#[ignore = "make soak"]
fn soak_larger_clusters() {
    try_larger(soak_seed(14), 800 * soak_factor());
}
