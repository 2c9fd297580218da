//! How fast the proved planner is, beside the best program of the same method and the report's
//! method, both in plain Rust.
//!
//! All plan the same clusters in turn in one run, each from the bytes of the cluster's record, and
//! have to send the same number of copies. "proved" is the planner through its C function. "plain" is
//! the same method in `console/reference`, with all that makes it quick; it turns a cycle again as
//! long as rows allow it, and "search" is the same program with a search for each improvement. These
//! three order what they come to: they answer the first of the nearest layouts, the others any.
//! "report's" is the report's method as document 000 has it, with 4N + 1 rounds in every search for
//! cycles, and "stopping" ends each search at the first round that shows a cycle or lowers nothing,
//! which the report does not. A line is the median of several clusters of its kind, each column by
//! itself.
//!
//! The quick methods are called in turn, each on another cluster than the call before: an owner plans
//! a cluster once, and a processor that has just planned it a hundred times knows its way by heart.
//! Such a time is the median of many calls by the clock. The report's method takes long enough to be
//! interrupted; its time is what a call takes of the processor, as the system counts it, or by the
//! clock where the system does not tell.
//!
//! What the ordering adds is seen beside a run that is stopped one improvement short of its end, and so
//! orders nothing: run and ordering together are to take no more than twice as long, at the median of
//! every kind. Without former copies all layouts are nearest, and there is little to a plan but its
//! order: it is to take no more than 3 ms.
//!
//! A certificate is timed beside a check of the same layout, which it contains: beyond that it is to take no more
//! than 60 microseconds for 32 nodes. "plain" there is the plain program's way to the same prices.
//!
//! Losses are timed of finished plans of 32 nodes, beside a plain program that makes words of the rows and counts
//! for each set of nodes: the worst loss of four nodes is to take no more than 2 ms, and no more than 1.5 times as
//! long as that. Beside each time stands the least of all calls: a call of a millisecond hangs on what else a
//! processor does.
//!
//!     cargo bench --bench plan                     all tables (`make bench`)
//!     cargo bench --bench plan -- ordering         the tables of what the ordering adds
//!     cargo bench --bench plan -- certify          the table of certificates
//!     cargo bench --bench plan -- loss             the table of losses
//!     cargo bench --bench plan -- proved           the proved planner's times alone
//!     cargo bench --bench plan -- once worst       one call of proved, plain and search, to be counted
//!     cargo bench --bench plan -- once loss        one call of proved and plain for four nodes lost, to be counted
//!
//! Two builds of the static library are compared by two programs that are run in turn: put the one
//! library into `build/`, run `cargo bench --bench plan --no-run`, and copy the program that it names;
//! do the same with the other, and let the two print their times by `PROGRAM proved`, several times.
//!
//! Instructions do not hang on what else the machine does. The programs are small enough to be run
//! under callgrind, which counts within one function where it is told so:
//! `valgrind --tool=callgrind --toggle-collect=dezghuri_plan PROGRAM once worst`, and for the other two
//! `--toggle-collect='*plain_plan*'` and `'*search_plan*'`.

use dezghuri::ffi;
use reference::exchanges::{certify_record, plan_record, Path};
use reference::losses::{loss_record, worst_loss_record};
use reference::random::Random;
use reference::records::{cluster_record, read_cluster};
use reference::{capacity_for, report, sent, Cluster, Layout, Node};
use std::time::Instant;

/// Clusters of each kind.
const CLUSTERS: u64 = 11;
/// Calls of each quick method for each cluster.
const ROUNDS: usize = 101;
/// Calls of the report's method for each cluster.
const LONG_ROUNDS: usize = 5;

/// A cluster and the layout before.
type Case = (Cluster, Layout);

/// A kind of cluster: its name, what it is, and how one is drawn.
type Kind = (&'static str, &'static str, fn(&mut Random) -> Case);

const KINDS: [Kind; 7] = [
    ("home", "4 to 6 nodes, R 3, one replaced", home),
    ("nineteen", "19 nodes, R 3, two changed", nineteen),
    ("full", "32 nodes, R 3 to 8, by lot", full),
    ("worst", "32 nodes, R 8, former far away", worst),
    ("tight", "32 nodes, disks just enough", tight),
    ("ties", "32 nodes, disks all equal", ties),
    ("ceilings", "32 nodes, low for a third", ceilings),
];

/// The times in microseconds, and how many improvements the proved plan took.
#[derive(Clone, Copy)]
struct Times {
    proved: f64,
    plain: f64,
    search: f64,
    report: f64,
    stopping: f64,
    improvements: f64,
}

fn main() {
    let words: Vec<String> = std::env::args().skip(1).collect();
    let words = words.iter().map(String::as_str);
    let words: Vec<&str> = words.filter(|word| *word != "--bench").collect();
    match words[..] {
        [] => all_tables(),
        ["ordering"] => ordering_tables(),
        ["certify"] => certify_table(),
        ["loss"] => loss_table(),
        ["proved"] => proved_alone(),
        ["once", "loss"] => once_loss(),
        ["once", name] => once(name),
        _ => panic!("ordering, certify, loss, proved, once KIND, once loss, or nothing"),
    }
}

fn all_tables() {
    println!(
        "microseconds for a plan; medians of {CLUSTERS} clusters, {ROUNDS} calls in turn each\n"
    );
    head("cluster (256 partitions)");
    for (name, what, case) in KINDS {
        line(&format!("{name}: {what}"), case);
    }
    println!();
    head("growth with nodes (k 8, R 3)");
    for nodes in [4, 8, 16, 32] {
        line(&format!("{nodes} nodes"), |r| by_lot(8, nodes, 3, 2, r));
    }
    println!();
    head("growth with copies (k 8, 32 nodes)");
    for copies in [1, 2, 4, 8] {
        line(&format!("R {copies}"), |r| {
            by_lot(8, 32, copies, copies.min(2), r)
        });
    }
    println!();
    head("growth with partitions (16 nodes, R 3)");
    for bits in [2, 4, 6, 8] {
        let partitions = 1 << bits;
        line(&format!("{partitions} partitions"), |r| {
            by_lot(bits, 16, 3, 2, r)
        });
    }
    println!();
    ordering_tables();
    println!();
    certify_table();
    println!();
    loss_table();
}

fn head(name: &str) {
    println!(
        "{name:<41} {:>7} {:>7} {:>7} {:>8} {:>8} {:>12} {:>15} {:>15} {:>12} {:>7}",
        "proved",
        "plain",
        "search",
        "report's",
        "stopping",
        "proved/plain",
        "report's/proved",
        "stopping/proved",
        "improvements",
        "us each"
    );
}

/// Times a kind of cluster and prints its line.
fn line(name: &str, case: impl Fn(&mut Random) -> Case) {
    let times = times_of(&drawn(case));
    let middle = |part: fn(&Times) -> f64| median(times.iter().map(part).collect());
    println!(
        "{name:<41} {:>7.0} {:>7.0} {:>7.0} {:>8.0} {:>8.0} {:>12.2} {:>15.1} {:>15.1} {:>12} {:>7.2}",
        middle(|t| t.proved),
        middle(|t| t.plain),
        middle(|t| t.search),
        middle(|t| t.report),
        middle(|t| t.stopping),
        middle(|t| t.proved / t.plain),
        middle(|t| t.report / t.proved),
        middle(|t| t.stopping / t.proved),
        middle(|t| t.improvements),
        middle(|t| t.proved / t.improvements),
    );
}

/// What the ordering adds to a run, and what it takes where there are no former copies.
fn ordering_tables() {
    println!("microseconds for a run stopped one improvement short, and for a finished one that is ordered");
    for (planner, plan) in PLANNERS {
        let name = format!("{planner} (at most 2.00 times as long at the median)");
        println!(
            "{name:<55} {:>7} {:>8} {:>5} {:>6}",
            "stopped", "finished", "times", "most"
        );
        for (name, what, case) in KINDS {
            added_line(&format!("{name}: {what}"), &drawn(case), plan);
        }
        println!();
    }
    println!("microseconds for a plan without former copies");
    println!(
        "{:<55} {:>7} {:>8} {:>5} {:>6}",
        "kind (at most 3000)", "proved", "most", "plain", "most"
    );
    for (name, what, case) in KINDS {
        unformed_line(&format!("{name}: {what}"), &drawn(|r| unformed(case(r))));
    }
}

/// A planner: the copies that it sends and its improvements, by an allowance.
type Planner = fn(&mut Lent, &[u8], u16) -> (u32, u32);

const PLANNERS: [(&str, Planner); 2] = [("proved", Lent::proved_plan), ("plain", Lent::plain_plan)];

/// Times the runs of a kind that have an improvement, stopped and finished in turn.
fn added_line(name: &str, cases: &[Case], plan: Planner) {
    let mut lent = Lent::new();
    let records = cases.iter().map(|(c, former)| cluster_record(c, former));
    let with_allowance = |record: Vec<u8>| {
        let (_, improvements) = plan(&mut lent, &record, dezghuri::ENOUGH);
        let short = improvements.checked_sub(1)? as u16;
        Some((record, short))
    };
    let runs: Vec<(Vec<u8>, u16)> = records.filter_map(with_allowance).collect();
    let calls = [0, 1].map(|finished| {
        move |lent: &mut Lent, (record, short): &(Vec<u8>, u16)| {
            plan(lent, record, [*short, dezghuri::ENOUGH][finished]);
        }
    });
    let times = in_turn(&runs, &calls);
    let times_as_long: Vec<f64> = times.iter().map(|t| t[1] / t[0]).collect();
    println!(
        "{name:<55} {:>7.0} {:>8.0} {:>5.2} {:>6.2}",
        median(times.iter().map(|t| t[0]).collect()),
        median(times.iter().map(|t| t[1]).collect()),
        median(times_as_long.clone()),
        most(times_as_long),
    );
}

/// Times both planners on the clusters of a kind.
fn unformed_line(name: &str, cases: &[Case]) {
    let records: Vec<Vec<u8>> = cases.iter().map(|(c, f)| cluster_record(c, f)).collect();
    let calls = PLANNERS.map(|(_, plan)| {
        move |lent: &mut Lent, record: &Vec<u8>| {
            plan(lent, record, dezghuri::ENOUGH);
        }
    });
    let times = in_turn(&records, &calls);
    let column = |i: usize| times.iter().map(|t| t[i]).collect::<Vec<f64>>();
    println!(
        "{name:<55} {:>7.0} {:>8.0} {:>5.0} {:>6.0}",
        median(column(0)),
        most(column(0)),
        median(column(1)),
        most(column(1)),
    );
}

/// A finished plan: its record, its layout and its size.
type Finished = (Vec<u8>, Vec<u32>, u32);

/// What a certificate takes, beside a check of the same layout and beside the plain program.
fn certify_table() {
    println!("microseconds for a check and for a certificate of a finished plan");
    println!(
        "{:<55} {:>7} {:>7} {:>6} {:>6} {:>7} {:>12}",
        "kind (at most 60 beyond a check)",
        "check",
        "certify",
        "beyond",
        "most",
        "plain",
        "proved/plain"
    );
    let calls: [fn(&mut Lent, &Finished); 3] = [check, certify, plain_certify];
    for (name, what, case) in KINDS {
        let runs: Vec<Finished> = drawn(case).iter().map(finished).collect();
        let times = in_turn(&runs, &calls);
        let column = |part: fn(&[f64; 3]) -> f64| times.iter().map(part).collect::<Vec<f64>>();
        println!(
            "{:<55} {:>7.1} {:>7.1} {:>6.1} {:>6.1} {:>7.1} {:>12.2}",
            format!("{name}: {what}"),
            median(column(|t| t[0])),
            median(column(|t| t[1])),
            median(column(|t| t[1] - t[0])),
            most(column(|t| t[1] - t[0])),
            median(column(|t| t[2])),
            median(column(|t| t[1] / t[2])),
        );
    }
}

fn finished((c, former): &Case) -> Finished {
    let record = cluster_record(c, former);
    let mut lent = Lent::new();
    let mut answer = [0; ffi::PLAN_ANSWER];
    let (cells, scratch) = (&mut lent.cells, &mut lent.scratch);
    let refusal = ffi::plan(&record, dezghuri::ENOUGH, cells, scratch, &mut answer);
    assert_eq!(refusal, 0);
    (record, lent.cells, answer[2])
}

fn check(_: &mut Lent, (record, cells, size): &Finished) {
    let mut answer = [0; ffi::CHECK_ANSWER];
    assert_eq!(ffi::check(record, cells, *size, &mut answer), 0);
}

fn certify(_: &mut Lent, (record, cells, size): &Finished) {
    let mut answer = [0; ffi::CERTIFY_ANSWER];
    assert_eq!(ffi::certify(record, cells, *size, &mut answer), 0);
}

fn plain_certify(_: &mut Lent, (record, cells, size): &Finished) {
    assert!(certify_record(record, cells, *size).is_ok());
}

/// A finished plan, and which nodes are lost: at worst so many, or those of one house.
struct Losing {
    plan: Finished,
    number: u32,
    house: Vec<u32>,
}

/// What the losses of a layout take, beside the plain program; both have to answer the same.
fn loss_table() {
    println!("microseconds for the losses of a finished plan of 32 nodes in eight houses, 256 partitions, R 3, Z 2");
    println!(
        "{:<55} {:>7} {:>7} {:>7} {:>7} {:>12}",
        "lost (four: at most 2000, and 1.50 times as long)",
        "proved",
        "least",
        "plain",
        "least",
        "proved/plain"
    );
    for number in 1..=4 {
        let calls: [fn(&mut Lent, &Losing) -> u32; 2] = [worst_loss, plain_worst_loss];
        loss_line(&format!("at worst {number} of 32 nodes"), number, calls);
    }
    let calls: [fn(&mut Lent, &Losing) -> u32; 2] = [house_loss, plain_house_loss];
    loss_line("the four nodes of a house", 4, calls);
}

fn loss_line(name: &str, number: u32, calls: [fn(&mut Lent, &Losing) -> u32; 2]) {
    let cases = drawn(|r| by_lot(8, 32, 3, 2, r));
    let runs: Vec<Losing> = cases.iter().map(|case| losing(case, number)).collect();
    let mut lent = Lent::new();
    for run in &runs {
        assert_eq!(calls[0](&mut lent, run), calls[1](&mut lent, run));
    }
    let timed = calls.map(|call| {
        move |lent: &mut Lent, run: &Losing| {
            std::hint::black_box(call(lent, run));
        }
    });
    let times = all_in_turn(&runs, &timed);
    let of_runs = |part: fn(Vec<f64>) -> f64| -> Vec<[f64; 2]> {
        times.iter().cloned().map(|t| t.map(part)).collect()
    };
    let (medians, least) = (of_runs(median), of_runs(least));
    let middle = |t: &[[f64; 2]], i: usize| median(t.iter().map(|t| t[i]).collect());
    println!(
        "{name:<55} {:>7.1} {:>7.1} {:>7.1} {:>7.1} {:>12.2}",
        middle(&medians, 0),
        middle(&least, 0),
        middle(&medians, 1),
        middle(&least, 1),
        median(medians.iter().map(|t| t[0] / t[1]).collect()),
    );
}

fn losing(case: &Case, number: u32) -> Losing {
    let nodes = &case.0.nodes;
    let house = nodes.iter().filter(|node| node.zone == nodes[0].zone);
    Losing {
        plan: finished(case),
        number,
        house: house.map(|node| node.id).collect(),
    }
}

/// How many partitions are lost, and with which nodes, in one number.
fn worst_loss(_: &mut Lent, losing: &Losing) -> u32 {
    let (record, cells, _) = &losing.plan;
    let mut answer = [0; ffi::WORST_LOSS_ANSWER];
    assert_eq!(
        ffi::worst_loss(record, cells, losing.number, &mut answer),
        0
    );
    in_one(answer[3], &answer[4..])
}

#[inline(never)]
fn plain_worst_loss(_: &mut Lent, losing: &Losing) -> u32 {
    let (record, cells, _) = &losing.plan;
    let worst = worst_loss_record(record, cells, losing.number);
    let (lost, ids) = worst.expect("a layout");
    in_one(lost, &ids)
}

fn in_one(lost: u32, ids: &[u32]) -> u32 {
    ids.iter().fold(lost, |all, id| all * 33 + id)
}

fn house_loss(_: &mut Lent, losing: &Losing) -> u32 {
    let (record, cells, _) = &losing.plan;
    let mut answer = [0; ffi::LOSS_ANSWER];
    assert_eq!(ffi::loss(record, cells, &losing.house, &mut answer), 0);
    answer[3]
}

fn plain_house_loss(_: &mut Lent, losing: &Losing) -> u32 {
    let (record, cells, _) = &losing.plan;
    loss_record(record, cells, &losing.house).expect("a layout")
}

/// One call of each for the worst loss of four nodes, to be counted.
fn once_loss() {
    let losing = losing(&by_lot(8, 32, 3, 2, &mut Random::new(1)), 4);
    let mut lent = Lent::new();
    let proved = worst_loss(&mut lent, &losing);
    assert_eq!(proved, plain_worst_loss(&mut lent, &losing));
}

/// For each of the runs the median of the times of some calls.
fn in_turn<T, const N: usize>(runs: &[T], calls: &[impl Fn(&mut Lent, &T); N]) -> Vec<[f64; N]> {
    let times = all_in_turn(runs, calls);
    times.into_iter().map(|times| times.map(median)).collect()
}

/// For each of the runs the times of some calls, which are made in turn, each on one run after the other.
fn all_in_turn<T, const N: usize>(
    runs: &[T],
    calls: &[impl Fn(&mut Lent, &T); N],
) -> Vec<[Vec<f64>; N]> {
    let mut lent = Lent::new();
    let none = |_| [const { Vec::new() }; N];
    let mut times: Vec<[Vec<f64>; N]> = runs.iter().map(none).collect();
    for _ in 0..ROUNDS {
        for (i, call) in calls.iter().enumerate() {
            for (run, times) in runs.iter().zip(&mut times) {
                by_clock(&mut times[i], || call(&mut lent, run));
            }
        }
    }
    times
}

/// The cluster with nothing before.
fn unformed((c, mut former): Case) -> Case {
    former.iter_mut().for_each(Vec::clear);
    (c, former)
}

/// The clusters of a kind.
fn drawn(case: impl Fn(&mut Random) -> Case) -> Vec<Case> {
    (1..=CLUSTERS)
        .map(|seed| case(&mut Random::new(seed)))
        .collect()
}

fn median(mut values: Vec<f64>) -> f64 {
    values.sort_by(f64::total_cmp);
    values[values.len() / 2]
}

fn least(values: Vec<f64>) -> f64 {
    values.into_iter().fold(f64::INFINITY, f64::min)
}

fn most(values: Vec<f64>) -> f64 {
    values.into_iter().fold(0.0, f64::max)
}

/// A cluster with its record, and the times of the calls on it by method.
struct Timed<'a> {
    former: &'a Layout,
    record: Vec<u8>,
    proved: Vec<f64>,
    plain: Vec<f64>,
    search: Vec<f64>,
    report: Vec<f64>,
    stopping: Vec<f64>,
    /// The copies that the proved plan sends, and its improvements.
    made: (u32, u32),
}

impl Timed<'_> {
    fn new((c, former): &Case) -> Timed<'_> {
        Timed {
            former,
            record: cluster_record(c, former),
            proved: Vec::new(),
            plain: Vec::new(),
            search: Vec::new(),
            report: Vec::new(),
            stopping: Vec::new(),
            made: (0, 0),
        }
    }

    fn call_proved(&mut self, lent: &mut Lent) {
        self.made = by_clock(&mut self.proved, || {
            lent.proved_plan(&self.record, dezghuri::ENOUGH)
        });
    }

    fn call_plain(&mut self, lent: &mut Lent) {
        let made = by_clock(&mut self.plain, || {
            lent.plain_plan(&self.record, dezghuri::ENOUGH)
        });
        assert_eq!(made, self.made);
    }

    fn call_search(&mut self, lent: &mut Lent) {
        let sent = by_clock(&mut self.search, || lent.search_plan(&self.record));
        assert_eq!(sent, self.made.0);
    }

    fn call_report(&mut self) {
        let least = self.made.0 as usize;
        let layout = by_processor(&mut self.stopping, || by_flows(&self.record, report::plan));
        assert_eq!(sent(&layout, self.former), least);
        let layout = by_processor(&mut self.report, || {
            by_flows(&self.record, report::plan_as_written)
        });
        assert!(sent(&layout, self.former) >= least);
    }

    fn medians(self) -> Times {
        Times {
            proved: median(self.proved),
            plain: median(self.plain),
            search: median(self.search),
            report: median(self.report),
            stopping: median(self.stopping),
            improvements: f64::from(self.made.1),
        }
    }
}

/// Calls the methods in turn, each on one cluster after the other, so that none finds a record at hand
/// that another has just read.
fn times_of(cases: &[Case]) -> Vec<Times> {
    let mut lent = Lent::new();
    let mut clusters: Vec<Timed> = cases.iter().map(Timed::new).collect();
    for _ in 0..ROUNDS {
        for call in [Timed::call_proved, Timed::call_plain, Timed::call_search] {
            clusters
                .iter_mut()
                .for_each(|cluster| call(cluster, &mut lent));
        }
    }
    for _ in 0..LONG_ROUNDS {
        clusters.iter_mut().for_each(Timed::call_report);
    }
    clusters.into_iter().map(Timed::medians).collect()
}

/// Notes how long a call takes by the clock; what it made.
fn by_clock<T>(times: &mut Vec<f64>, call: impl FnOnce() -> T) -> T {
    let begun = Instant::now();
    let made = call();
    times.push(begun.elapsed().as_secs_f64() * 1e6);
    made
}

/// Notes how long a call has a processor; what it made.
fn by_processor<T>(times: &mut Vec<f64>, call: impl FnOnce() -> T) -> T {
    let begun = Instant::now();
    let before = microseconds(begun);
    let made = call();
    times.push(microseconds(begun) - before);
    made
}

/// How long this thread has had a processor; where the system does not tell, the time since `begun`.
/// The system brings its count up to date when a thread offers to let others go first.
fn microseconds(begun: Instant) -> f64 {
    std::thread::yield_now();
    let counts = std::fs::read_to_string("/proc/thread-self/schedstat");
    let first = |counts: String| counts.split(' ').next()?.parse::<f64>().ok();
    let told = counts.ok().and_then(first).map(|ns| ns / 1e3);
    told.unwrap_or_else(|| begun.elapsed().as_secs_f64() * 1e6)
}

/// What the quick methods are lent: a caller that plans often keeps it.
struct Lent {
    cells: Vec<u32>,
    scratch: Vec<u32>,
}

impl Lent {
    fn new() -> Lent {
        Lent {
            cells: vec![0; ffi::LAYOUT_CELLS],
            scratch: vec![0; ffi::SCRATCH_CELLS],
        }
    }

    /// The copies that the proved plan sends, and its improvements.
    fn proved_plan(&mut self, record: &[u8], allowance: u16) -> (u32, u32) {
        let mut answer = [0; ffi::PLAN_ANSWER];
        let (cells, scratch) = (&mut self.cells, &mut self.scratch);
        let refusal = ffi::plan(record, allowance, cells, scratch, &mut answer);
        assert_eq!(refusal, 0);
        (answer[3], answer[5])
    }

    /// The copies that the plain plan sends, and its improvements. It is not made part of its callers,
    /// so that its instructions can be counted.
    #[inline(never)]
    fn plain_plan(&mut self, record: &[u8], allowance: u16) -> (u32, u32) {
        let plan = plan_record(record, allowance.into(), Path::Repeated, &mut self.cells);
        let plan = plan.expect("a layout exists");
        (plan.sent, plan.improvements)
    }

    /// The copies sent with a search for each improvement.
    #[inline(never)]
    fn search_plan(&mut self, record: &[u8]) -> u32 {
        let allowance = dezghuri::ENOUGH.into();
        let plan = plan_record(record, allowance, Path::Searched, &mut self.cells);
        plan.expect("a layout exists").sent
    }
}

fn by_flows(record: &[u8], plan: impl Fn(&Cluster, &Layout) -> Option<report::Planned>) -> Layout {
    let (c, former) = read_cluster(record).expect("a record");
    plan(&c, &former).expect("a layout exists").layout
}

/// The proved planner's time for each kind, to be set beside that of another build.
fn proved_alone() {
    let mut lent = Lent::new();
    println!("microseconds for a proved plan; medians of {CLUSTERS} clusters");
    for (name, _, case) in KINDS {
        let cases = drawn(case);
        let mut clusters: Vec<Timed> = cases.iter().map(Timed::new).collect();
        for _ in 0..ROUNDS {
            for cluster in &mut clusters {
                cluster.call_proved(&mut lent);
            }
        }
        let times = clusters.into_iter().map(|cluster| median(cluster.proved));
        println!("{name:<8} {:>8.1}", median(times.collect()));
    }
}

/// One call of each quick method on the first cluster of the kind.
fn once(name: &str) {
    let kind = KINDS.iter().find(|kind| kind.0 == name);
    let (_, what, case) = kind.expect("the name of a kind");
    let (c, former) = case(&mut Random::new(1));
    let record = cluster_record(&c, &former);
    let mut lent = Lent::new();
    let (least, improvements) = lent.proved_plan(&record, dezghuri::ENOUGH);
    let plain = lent.plain_plan(&record, dezghuri::ENOUGH);
    assert_eq!(plain, (least, improvements));
    assert_eq!(lent.search_plan(&record), least);
    println!("{name}: {what}: {improvements} improvements");
}

/// Nodes 1, 2, 3 and on with disks of 1 to 4 TB, in so many zones, without ceilings.
fn nodes(number: u32, zones: u32, r: &mut Random) -> Vec<Node> {
    let node = |id: u32| Node {
        id,
        zone: (id % zones) as u16,
        capacity: disk(r),
        ceiling: Node::NO_CEILING,
    };
    (1..=number).map(node).collect()
}

fn disk(r: &mut Random) -> u32 {
    500_000 * r.between(2, 8) as u32
}

fn cluster(bits: u32, replication: usize, redundancy: usize, nodes: Vec<Node>) -> Cluster {
    Cluster {
        bits,
        replication,
        redundancy,
        nodes,
    }
}

/// The layout of the cluster, planned with nothing before it.
fn laid_out(c: &Cluster) -> Layout {
    let none = vec![Vec::new(); c.partitions()];
    report::plan(c, &none).expect("a layout exists").layout
}

/// Four to six boxes in three houses, the third of which is replaced by a new one.
fn home(r: &mut Random) -> Case {
    let number = r.between(4, 6) as u32;
    let before = cluster(8, 3, 2, nodes(number, 3, r));
    let mut after = before.clone();
    after.nodes.remove(2);
    after.nodes.push(Node {
        id: number + 1,
        zone: before.nodes[2].zone,
        capacity: disk(r),
        ceiling: Node::NO_CEILING,
    });
    (after, laid_out(&before))
}

/// Nineteen boxes in six houses; one goes, and another gets a disk of twice the size.
fn nineteen(r: &mut Random) -> Case {
    let before = cluster(8, 3, 2, nodes(19, 6, r));
    let mut after = before.clone();
    after.nodes[4].capacity *= 2;
    after.nodes.remove(11);
    (after, laid_out(&before))
}

/// As many boxes as there may be, three to eight copies, and two zones or more.
fn full(r: &mut Random) -> Case {
    let copies = r.between(3, 8);
    let zones = r.between(2, copies);
    by_lot(8, 32, copies as usize, zones as usize, r)
}

/// The largest cluster, each row of which was drawn by lot.
fn worst(r: &mut Random) -> Case {
    by_lot(8, 32, 8, 2, r)
}

/// A full cluster in which every box is filled to the last copy.
fn tight(r: &mut Random) -> Case {
    let copies = r.between(3, 8);
    let (mut c, former) = by_lot(8, 32, copies as usize, 2, r);
    let mut dealt = [0u32; 32];
    let mut left = 256 * copies;
    while left > 0 {
        let b = r.below(32) as usize;
        if r.below(4_000_000) < c.nodes[b].capacity.into() && dealt[b] < 256 {
            dealt[b] += 1;
            left -= 1;
        }
    }
    for (node, dealt) in c.nodes.iter_mut().zip(dealt) {
        node.capacity = capacity_for(5_000 * dealt);
    }
    (c, former)
}

/// A full cluster of boxes with equal disks.
fn ties(r: &mut Random) -> Case {
    let (mut c, former) = full(r);
    let capacity = disk(r);
    c.nodes.iter_mut().for_each(|node| node.capacity = capacity);
    (c, former)
}

/// A full cluster of which each third box may hold half as many copies as it would hold without a
/// ceiling.
fn ceilings(r: &mut Random) -> Case {
    let (mut c, former) = full(r);
    let layout = laid_out(&c);
    for node in c.nodes.iter_mut().step_by(3) {
        let held = layout.iter().filter(|row| row.contains(&node.id));
        node.ceiling = held.count() as u16 / 2;
    }
    (c, former)
}

/// A cluster in a quarter as many houses as it has boxes, three at least, and former rows drawn by
/// lot.
fn by_lot(bits: u32, number: u32, copies: usize, redundancy: usize, r: &mut Random) -> Case {
    let zones = (number / 4).max(3);
    let c = cluster(bits, copies, redundancy, nodes(number, zones, r));
    let row = |_| {
        let mut ids: Vec<u32> = (1..=number).collect();
        while ids.len() > copies {
            ids.remove(r.below(ids.len() as u64) as usize);
        }
        ids
    };
    let former = (0..c.partitions()).map(row).collect();
    (c, former)
}
