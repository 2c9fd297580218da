//! Certificates: each finished plan has one that the stranger's check passes, each stopped one is refused; and
//! the sheets that the package makes of them are worked out anew.

use crate::clusters::{self, Kind, LARGE, MEDIUM, SMALL};
use crate::lent::{self, Planned};
use crate::{soak_factor, soak_seed};
use dezghuri::{Certificate, Group, Line};
use reference::cells::cells_of;
use reference::certificate::{cheapest, cheapest_by_prices, check, proved, Fault};
use reference::exchanges::certify_record;
use reference::random::Random;
use reference::records::{cluster_record, read_cluster};
use reference::{report, Cluster, Layout, Node};

/// A price for each node of the cluster; slots that are not in use have none.
fn prices_of(c: &Cluster, prices: &[u32]) -> Vec<u64> {
    let (used, unused) = prices.split_at(c.nodes.len());
    assert!(unused.iter().all(|price| *price == 0), "slots not in use");
    used.iter().map(|price| u64::from(*price)).collect()
}

/// Judges a plan: all plans of the comparisons pass by here. A finished one is certified, and the stranger's
/// check passes; a stopped one both refuse, the check with prices drawn by lot. It draws apart from its callers,
/// whose cases stay as they are.
pub fn judge(record: &[u8], planned: &Planned) {
    let r = &mut Random::new(planned.sent.into());
    let (c, former) = read_cluster(record).expect("it was planned");
    let check = |prices: &[u64]| check(&c, &former, &planned.layout, planned.size.into(), prices);
    let cells = cells_of(&planned.layout);
    let certified = lent::certify(record, &cells, planned.size, r);
    let plain = certify_record(record, &cells, planned.size);
    assert_eq!(
        plain.ok().map(Vec::from),
        certified.clone().ok(),
        "by the plain program"
    );
    if planned.finished {
        let prices = prices_of(&c, &certified.expect("it is finished"));
        assert_eq!(check(&prices), Ok(()), "{c:?} {former:?}");
    } else {
        assert_eq!(certified, Err((20, 0, 0)), "{c:?} {former:?}");
        let any: Vec<u64> = c.nodes.iter().map(|_| r.below(3)).collect();
        assert!(matches!(check(&any), Err(Fault::Sum { proved, sent }) if proved < sent));
    }
}

/// A cluster with its former layout, a finished plan, and the prices that certify it.
struct Case<'a> {
    c: &'a Cluster,
    former: &'a Layout,
    record: Vec<u8>,
    plan: Planned,
    prices: Vec<u64>,
}

impl Case<'_> {
    fn certify(&self, layout: &Layout, size: u32, r: &mut Random) -> Result<Vec<u64>, u32> {
        let certified = lent::certify(&self.record, &cells_of(layout), size, r);
        let certified = certified.map(|prices| prices_of(self.c, &prices));
        certified.map_err(|(refusal, ..)| refusal)
    }

    fn check(&self, layout: &Layout, size: u32) -> Result<(), Fault> {
        check(self.c, self.former, layout, size.into(), &self.prices)
    }

    /// No price can fall by one, and no prices prove more than is sent.
    fn are_least(&self, r: &mut Random) {
        let bound = |prices: &[u64]| {
            let bound = proved(self.c, self.former, self.plan.size.into(), prices);
            bound.expect("there are rows")
        };
        for b in (0..self.prices.len()).filter(|b| self.prices[*b] > 0) {
            let mut less = self.prices.clone();
            less[b] -= 1;
            assert!(bound(&less) < self.plan.sent.into(), "{less:?}");
        }
        let near = |price: &u64| (price + r.below(3)).saturating_sub(1);
        let any: Vec<u64> = self.prices.iter().map(near).collect();
        assert!(bound(&any) <= self.plan.sent.into(), "{any:?}");
    }

    /// A smaller size is told. A plan that was stopped early is refused with the prices of the finished one;
    /// whether there is one.
    fn refuses_others(&self, r: &mut Random) -> bool {
        let (size, layout) = (self.plan.size, &self.plan.layout);
        if size > 1 {
            assert_eq!(self.certify(layout, size - 1, r), Err(19));
            assert_eq!(self.check(layout, size - 1), Err(Fault::LargerSize));
        }
        if self.plan.improvements == 0 {
            return false;
        }
        let allowance = r.below(self.plan.improvements.into()) as u16;
        let early = lent::plan(&self.record, allowance, r).expect("a layout exists");
        let sum = self.check(&early.layout, size);
        assert!(matches!(sum, Err(Fault::Sum { proved, sent }) if proved < sent));
        true
    }

    /// A layout that the report's method planned is certified by the same prices.
    fn serves_the_reports_method(&self, r: &mut Random) {
        let other = report::plan(self.c, self.former).expect("a layout exists");
        assert_eq!(other.size, u64::from(self.plan.size));
        let certified = self.certify(&other.layout, self.plan.size, r);
        assert_eq!(certified.as_ref(), Ok(&self.prices));
        assert_eq!(self.check(&other.layout, self.plan.size), Ok(()));
    }

    /// The certificate that the package makes of the plan.
    fn certificate(&self) -> Certificate {
        let known = dezghuri::Cluster::from_record(&self.record).expect("a cluster");
        let layout = (0..=u8::MAX).zip(&self.plan.layout).collect();
        let certificate = known.certify(&layout, self.plan.size);
        certificate.expect("it is finished")
    }

    /// Works the sheets out anew, as a stranger would.
    fn adds_up(&self, certificate: &Certificate) {
        let prices = certificate.prices.iter().map(|price| u64::from(*price));
        assert!(prices.eq(self.prices.iter().copied()));
        assert_eq!(certificate.sent, self.plan.sent.into());
        let taken = certificate.takings();
        assert_eq!(certificate.low(), certificate.sent + taken);
        assert!(certificate.next.lack_room() || certificate.next.lack_zones());
        let (by_nodes, by_prices) = (&certificate.by_nodes, &certificate.by_prices);
        assert!(by_prices.len() <= by_nodes.len());
        for sheet in [by_nodes, by_prices] {
            let mut counts = vec![0; sheet.len()];
            for (old, row) in self.former.iter().zip(&self.plan.layout) {
                let place = self.line_of(sheet, old);
                counts[place] += 1;
                self.costs_as_told(&sheet[place], old, row);
            }
            assert!(counts.iter().eq(sheet.iter().map(|line| &line.partitions)));
            let low: u64 = sheet.iter().map(Line::together).sum();
            assert_eq!(low, certificate.low());
        }
    }

    /// The nodes of the cluster that held a partition, with their prices.
    fn held(&self, old: &[u32]) -> (Vec<u32>, Vec<u64>) {
        let nodes = self.c.nodes.iter().zip(&self.prices);
        let held = nodes.filter(|(node, _)| old.contains(&node.id));
        held.map(|(node, price)| (node.id, price)).unzip()
    }

    /// The line of a partition: that of the nodes that held it, where there is one, else that of their prices.
    fn line_of(&self, sheet: &[Line], old: &[u32]) -> usize {
        let (ids, prices) = self.held(old);
        let mut prices: Vec<u32> = prices.iter().map(|price| *price as u32).collect();
        prices.sort_unstable();
        let by_nodes =
            |line: &Line| matches!(&line.group, Group::Nodes { held, .. } if *held == ids);
        let by_prices =
            |line: &Line| matches!(&line.group, Group::Prices { held } if *held == prices);
        let place = sheet.iter().position(by_nodes);
        let place = place.or_else(|| sheet.iter().position(by_prices));
        place.expect("each partition has a line")
    }

    /// The line costs as much as the cheapest row of its partition, and so does the row that the layout has;
    /// a line by prices can be told from prices alone.
    fn costs_as_told(&self, line: &Line, old: &[u32], row: &[u32]) {
        let nodes = self.c.nodes.iter().zip(&self.prices);
        let cost = |(node, price): (&Node, &u64)| price + u64::from(!old.contains(&node.id));
        let costs: Vec<u64> = nodes.clone().map(cost).collect();
        let least = cheapest(self.c, &costs);
        let in_row = nodes.filter(|(node, _)| row.contains(&node.id));
        assert_eq!(Some(in_row.map(cost).sum()), least, "the row of the layout");
        assert_eq!(Some(line.cost()), least, "the line");
        if matches!(line.group, Group::Prices { .. }) {
            let (_, held) = self.held(old);
            assert_eq!(cheapest_by_prices(self.c, &self.prices, &held), least);
        }
    }
}

/// How many plans have a certificate, have a price, were stopped too, have more than 32 lines by nodes, and
/// have a line by nodes among those by prices.
#[derive(Debug, Default)]
struct Seen {
    certified: u64,
    priced: u64,
    stopped: u64,
    long: u64,
    dearer: u64,
}

fn try_certificates(seed: u64, cases: u64, kind: Kind) -> Seen {
    let mut r = Random::new(seed);
    let mut seen = Seen::default();
    for _ in 0..cases {
        let (c, former, _) = clusters::case(kind, &mut r);
        let record = cluster_record(&c, &former);
        let Ok(plan) = lent::plan(&record, 2048, &mut r) else {
            continue;
        };
        let certified = lent::certify(&record, &cells_of(&plan.layout), plan.size, &mut r);
        let case = Case {
            c: &c,
            former: &former,
            prices: prices_of(&c, &certified.expect("it is finished")),
            record,
            plan,
        };
        case.are_least(&mut r);
        case.serves_the_reports_method(&mut r);
        let certificate = case.certificate();
        case.adds_up(&certificate);
        let by_nodes = |line: &Line| matches!(line.group, Group::Nodes { .. });
        seen.certified += 1;
        seen.priced += u64::from(case.prices.iter().any(|price| *price > 0));
        seen.stopped += u64::from(case.refuses_others(&mut r));
        seen.long += u64::from(certificate.by_nodes.len() > 32);
        seen.dearer += u64::from(certificate.by_prices.iter().any(by_nodes));
    }
    seen
}

#[test]
fn finished_plans_have_certificates_and_stopped_ones_none() {
    for (seed, cases, kind) in [(171, 3000, SMALL), (172, 600, MEDIUM), (173, 100, LARGE)] {
        let seen = try_certificates(seed, cases, kind);
        assert!(seen.certified * 2 > cases, "too few have a layout");
        assert!(seen.priced * 10 > cases, "too few have a price: {seen:?}");
        assert!(seen.stopped * 10 > cases, "too few were stopped: {seen:?}");
        assert!(seen.dearer * 100 > cases, "zones hardly matter: {seen:?}");
        let is_large = kind.most_bits == LARGE.most_bits;
        assert!(
            !is_large || seen.long * 10 > cases,
            "short sheets: {seen:?}"
        );
    }
}

#[test]
#[ignore = "make soak"]
fn soak_certificates() {
    try_certificates(soak_seed(174), 3000 * soak_factor(), SMALL);
    try_certificates(soak_seed(175), 600 * soak_factor(), MEDIUM);
    try_certificates(soak_seed(176), 100 * soak_factor(), LARGE);
}
