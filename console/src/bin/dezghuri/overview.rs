//! A layout at a glance.

use crate::json::Json;
use crate::labels;
use crate::table::{self, Column, Side};
use crate::units::{count, percent, thousands, Unit};
use dezghuri::{Description, Plan, Refused, Transfers, Verdict};
use std::collections::BTreeMap;

/// A plan, with its copies counted by boxes and by zones.
pub struct Overview<'a> {
    plan: &'a Plan,
    boxes: Vec<BoxLine>,
    zones: Vec<ZoneLine>,
    /// What no size can pass, where the layout is valid for the boxes.
    pub upper_bound: Option<u64>,
}

struct BoxLine {
    id: u32,
    name: String,
    zone: String,
    /// The most copies that it may hold; of a box that is gone it is not known.
    ceiling: Option<u16>,
    held: Held,
}

struct ZoneLine {
    zone: String,
    boxes: usize,
    held: Held,
}

/// What a line of a table holds on its disks.
#[derive(Clone, Copy)]
struct Held {
    /// In megabytes; of a box that is gone it is not known.
    capacity: Option<u64>,
    /// What of it may be filled, known where it is.
    usable: Option<u64>,
    copies: u64,
}

impl<'a> Overview<'a> {
    /// Counts the copies; refused where the plan is not valid for the cluster.
    pub fn of_valid(described: &Description, plan: &'a Plan) -> Result<Overview<'a>, Refused> {
        let figures = described.cluster.figures(&plan.layout, plan.size)?;
        Ok(Overview {
            plan,
            boxes: box_lines(described, &figures.copies),
            zones: zone_lines(described, &figures.zone_copies),
            upper_bound: Some(figures.hope),
        })
    }

    /// Counts the copies of a layout that was made for other boxes; those that are gone have their
    /// lines too.
    pub fn of_other(described: &Description, plan: &'a Plan) -> Overview<'a> {
        let nodes = &described.cluster.nodes;
        let mut counts: BTreeMap<u32, u32> = BTreeMap::new();
        for id in plan.layout.rows().flat_map(|(_, ids)| ids) {
            *counts.entry(*id).or_default() += 1;
        }
        let copies = nodes
            .iter()
            .map(|node| counts.remove(&node.id).unwrap_or(0));
        let copies: Vec<u32> = copies.collect();
        let in_zone = |zone: u16| {
            let counted = nodes.iter().zip(&copies);
            counted.filter(move |(node, _)| node.zone == zone)
        };
        let of_zone = |zone: u16| in_zone(zone).map(|(_, copies)| copies).sum();
        let zone_copies: Vec<u32> = nodes.iter().map(|node| of_zone(node.zone)).collect();
        let mut overview = Overview {
            plan,
            boxes: box_lines(described, &copies),
            zones: zone_lines(described, &zone_copies),
            upper_bound: None,
        };
        overview.add_gone(described, &counts);
        overview
    }

    /// Adds the boxes that the cluster has no more, each with its copies.
    fn add_gone(&mut self, described: &Description, counts: &BTreeMap<u32, u32>) {
        let held = |copies: u32| Held {
            capacity: None,
            usable: None,
            copies: copies.into(),
        };
        for (id, copies) in counts {
            self.boxes.push(BoxLine {
                id: *id,
                name: labels::of(described, *id).name,
                zone: labels::of(described, *id).zone,
                ceiling: None,
                held: held(*copies),
            });
        }
        self.boxes.sort_by_key(|line| line.id);
        if let Some(id) = counts.keys().next() {
            self.zones.push(ZoneLine {
                zone: labels::of(described, *id).zone,
                boxes: counts.len(),
                held: held(counts.values().sum()),
            });
        }
    }

    /// The table of the boxes, with the transfers of a plan that was made just now.
    pub fn boxes(&self, transfers: Option<&Transfers>) -> String {
        let ids = self.boxes.iter().map(|line| line.id.to_string());
        let names = self.boxes.iter().map(|line| line.name.clone());
        let zones = self.boxes.iter().map(|line| line.zone.clone());
        let mut columns = vec![
            Column::new(Side::Right, "box", ids.chain(["all".into()])),
            Column::new(Side::Left, "name", names.chain([String::new()])),
            Column::new(Side::Left, "zone", zones.chain([String::new()])),
        ];
        columns.retain(|column| !column.is_blank());
        let mut held: Vec<Held> = self.boxes.iter().map(|line| line.held).collect();
        held.push(sum(&held));
        let [capacity, rest @ ..] = self.disk_columns(&held);
        columns.push(capacity);
        if self.has_ceilings() {
            let ceilings = self.boxes.iter().map(BoxLine::ceiling_in_words);
            let ceilings = ceilings.chain([String::new()]);
            columns.push(Column::new(Side::Right, "ceiling", ceilings));
        }
        columns.extend(rest);
        if let Some(transfers) = transfers {
            columns.push(counted("to receive", &transfers.received));
            columns.push(counted("to drop", &transfers.dropped));
        }
        table::text(&columns)
    }

    /// The table of the zones, in the order of their first boxes.
    pub fn zones(&self) -> String {
        let names = self.zones.iter().map(|line| line.zone.clone());
        let boxes = self.zones.iter().map(|line| line.boxes.to_string());
        let held: Vec<Held> = self.zones.iter().map(|line| line.held).collect();
        let mut columns = vec![
            Column::new(Side::Left, "zone", names),
            Column::new(Side::Right, "boxes", boxes),
        ];
        columns.extend(self.disk_columns(&held));
        table::text(&columns)
    }

    /// All of a plan that was kept.
    pub fn past(&self) -> String {
        [
            self.boxes(None),
            "\n".into(),
            self.zones(),
            "\n".into(),
            self.size(),
            self.past_verdict(),
        ]
        .concat()
    }

    /// What the size means.
    pub fn size(&self) -> String {
        let size = u64::from(self.plan.size);
        let (partition, unit) = (thousands(size), self.unit());
        let (all, name) = (unit.of(size << self.plan.bits), unit.name);
        match self.upper_bound {
            Some(upper_bound) => format!(
                "Size: each partition may grow to {partition} MB, all data to {all} {name}; used is \
                 what it takes then.\n{}{}\
                 {}\n",
                self.free(),
                self.ceilings(),
                upper_bound_in_words(upper_bound, self.has_ceilings()),
            ),
            None => format!(
                "Size: it was planned for partitions of {partition} MB, {all} {name} of data in all; \
                 used is what that takes.\n"
            ),
        }
    }

    /// Why a valid layout fills no disk; nothing where each is too small to lose a part.
    fn free(&self) -> &'static str {
        let loses = |line: &BoxLine| line.held.usable < line.held.capacity;
        match self.boxes.iter().any(loses) {
            true => "Free: a sixteenth of each disk stays free; share is of the whole disk.\n",
            false => "",
        }
    }

    /// What a ceiling is, and which boxes are at theirs; nothing where no box has one.
    fn ceilings(&self) -> String {
        let at_theirs = self.boxes.iter().filter(|line| line.is_at_ceiling());
        let at_theirs = at_theirs.map(|line| labels::numbered(line.id, &line.name));
        let at_theirs: Vec<String> = at_theirs.collect();
        let who = match at_theirs.len() {
            _ if !self.has_ceilings() => return String::new(),
            0 => "no box is at its ceiling".into(),
            1 => format!("box {} is at its ceiling", at_theirs[0]),
            _ => format!(
                "boxes {} are at their ceilings",
                labels::listed(at_theirs.iter())
            ),
        };
        format!("Ceiling: the most copies that a box may hold; {who}.\n")
    }

    fn has_ceilings(&self) -> bool {
        self.boxes.iter().any(|line| line.own_ceiling().is_some())
    }

    /// The numbers of the plan, its boxes with the transfers of a plan that was made just now, and
    /// its zones.
    pub fn json(&self, transfers: Option<&Transfers>) -> Vec<(&'static str, Json)> {
        let size = u64::from(self.plan.size);
        let moved = |b: usize| transfers.map(|t| (t.received[b], t.dropped[b]));
        let boxes = self.boxes.iter().enumerate();
        let boxes = boxes.map(|(b, line)| line.json(size, moved(b)));
        let zones = self.zones.iter().map(|line| line.json(size));
        vec![
            ("size_mb", size.into()),
            ("upper_bound_mb", self.upper_bound.into()),
            ("data_mb", (size << self.plan.bits).into()),
            ("optimal", (self.plan.verdict == Verdict::Finished).into()),
            ("boxes", Json::list(boxes)),
            ("zones", Json::list(zones)),
        ]
    }

    /// What the verdict means of a plan that was made just now.
    pub fn verdict(&self) -> String {
        match self.plan.verdict {
            Verdict::Finished => "Optimal: no layout of this size needs fewer transfers.\n".into(),
            Verdict::Stopped => format!(
                "Stopped after {}: the layout is valid, but another one of this size needs fewer\n\
                 transfers. A larger allowance comes nearer to it.\n",
                self.improvements(),
            ),
        }
    }

    /// What the verdict means of a plan that was kept.
    fn past_verdict(&self) -> String {
        match self.plan.verdict {
            Verdict::Finished => {
                "Planned: optimal, no layout of this size needed fewer transfers.\n".into()
            }
            Verdict::Stopped => format!(
                "Planned: stopped after {}, another layout of this size needed fewer transfers.\n",
                self.improvements(),
            ),
        }
    }

    fn improvements(&self) -> String {
        count(self.plan.improvements.into(), "improvement", "improvements")
    }

    /// One unit for everything, so that numbers can be compared.
    fn unit(&self) -> Unit {
        Unit::for_all(self.boxes.iter().filter_map(|line| line.held.capacity))
    }

    /// Capacity, copies, and how much of the disk they fill once each partition has its size.
    fn disk_columns(&self, held: &[Held]) -> [Column; 4] {
        let unit = self.unit();
        let used = |line: &Held| line.copies * u64::from(self.plan.size);
        let unknown = || String::from("-");
        let number = |head: &str, cell: &dyn Fn(&Held) -> String| {
            Column::new(Side::Right, head, held.iter().map(cell))
        };
        [
            number(&format!("capacity {}", unit.name), &|line| {
                line.capacity.map_or_else(unknown, |whole| unit.of(whole))
            }),
            number("copies", &|line| thousands(line.copies)),
            number(&format!("used {}", unit.name), &|line| unit.of(used(line))),
            number("share", &|line| {
                let share = |whole| percent(used(line), whole);
                line.capacity.map_or_else(unknown, share)
            }),
        ]
    }
}

impl BoxLine {
    /// The ceiling where it has one: below 256.
    fn own_ceiling(&self) -> Option<u16> {
        self.ceiling.and_then(labels::own_ceiling)
    }

    fn ceiling_in_words(&self) -> String {
        let ceiling = self.own_ceiling();
        ceiling.map_or_else(String::new, |ceiling| ceiling.to_string())
    }

    fn is_at_ceiling(&self) -> bool {
        let ceiling = self.own_ceiling();
        ceiling.is_some_and(|ceiling| self.held.copies == ceiling.into())
    }

    fn json(&self, size: u64, moved: Option<(u64, u64)>) -> Json {
        let is_present = self.held.capacity.is_some();
        let mut members = vec![
            ("id", self.id.into()),
            ("name", self.name.as_str().into()),
            ("zone", is_present.then_some(self.zone.as_str()).into()),
            ("present", is_present.into()),
        ];
        let [capacity, rest @ ..] = self.held.json(size);
        members.push(capacity);
        // Without one a box that is there has no ceiling; of one that is gone none is known.
        if is_present {
            members.push(("ceiling", self.own_ceiling().into()));
        }
        members.extend(rest);
        if let Some((received, dropped)) = moved {
            members.push(("received", received.into()));
            members.push(("dropped", dropped.into()));
        }
        Json::Object(members)
    }
}

impl ZoneLine {
    fn json(&self, size: u64) -> Json {
        let zone = self.held.capacity.map(|_| self.zone.as_str());
        let mut members = vec![("zone", zone.into()), ("boxes", self.boxes.into())];
        members.extend(self.held.json(size));
        Json::Object(members)
    }
}

impl Held {
    fn json(&self, size: u64) -> [(&'static str, Json); 4] {
        [
            ("capacity_mb", self.capacity.into()),
            ("usable_mb", self.usable.into()),
            ("copies", self.copies.into()),
            ("used_mb", (self.copies * size).into()),
        ]
    }
}

/// What no size can pass, and what it does not know of.
pub fn upper_bound_in_words(upper_bound: u64, has_ceilings: bool) -> String {
    let unknown = match has_ceilings {
        true => "rounding, zones and ceilings",
        false => "rounding and zones",
    };
    let bound = thousands(upper_bound);
    format!("Upper bound: with nothing lost to {unknown} it would be {bound} MB a partition.")
}

/// A line for each box of the cluster.
fn box_lines(described: &Description, copies: &[u32]) -> Vec<BoxLine> {
    let nodes = described.cluster.nodes.iter().zip(&described.labels);
    let lines = nodes.zip(copies).map(|((node, label), copies)| BoxLine {
        id: node.id,
        name: label.name.clone(),
        zone: label.zone.clone(),
        ceiling: Some(node.ceiling),
        held: Held {
            capacity: Some(node.capacity.into()),
            usable: Some(node.usable().into()),
            copies: (*copies).into(),
        },
    });
    lines.collect()
}

/// A line for each zone, from the copies in the zone of each box.
fn zone_lines(described: &Description, zone_copies: &[u32]) -> Vec<ZoneLine> {
    let nodes = &described.cluster.nodes;
    let is_first = |b: &usize| nodes[..*b].iter().all(|node| node.zone != nodes[*b].zone);
    let mates = |b: usize| nodes.iter().filter(move |node| node.zone == nodes[b].zone);
    let firsts = (0..nodes.len()).filter(is_first);
    let lines = firsts.map(|b| ZoneLine {
        zone: described.labels[b].zone.clone(),
        boxes: mates(b).count(),
        held: Held {
            capacity: Some(mates(b).map(|node| u64::from(node.capacity)).sum()),
            usable: Some(mates(b).map(|node| u64::from(node.usable())).sum()),
            copies: zone_copies[b].into(),
        },
    });
    lines.collect()
}

/// What the transfers come to where there was no layout before.
pub fn first_transfers_in_words(transfers: &Transfers) -> String {
    format!(
        "Transfers: there was no layout before, all {} are new.\n",
        count(transfers.all_received(), "copy", "copies")
    )
}

/// What the transfers come to.
pub fn transfers_in_words(transfers: &Transfers) -> String {
    format!(
        "Transfers: {} to be sent, {} to be dropped.\n",
        count(transfers.all_received(), "copy is", "copies are"),
        count(transfers.all_dropped(), "copy is", "copies are"),
    )
}

/// All lines together; their capacity is known only where that of each is.
fn sum(lines: &[Held]) -> Held {
    Held {
        capacity: lines.iter().map(|line| line.capacity).sum(),
        usable: lines.iter().map(|line| line.usable).sum(),
        copies: lines.iter().map(|line| line.copies).sum(),
    }
}

/// A column of numbers with their sum below.
fn counted(head: &str, numbers: &[u64]) -> Column {
    let total = numbers.iter().sum();
    let cells = numbers.iter().copied().chain([total]).map(thousands);
    Column::new(Side::Right, head, cells)
}
