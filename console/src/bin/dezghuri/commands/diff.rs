//! `diff`: what comes and goes from one layout to another, by box and by zone.

use super::{describe, Answer};
use crate::args::Source;
use crate::failure::Failure;
use crate::files;
use crate::history::{Given, History};
use crate::json::Json;
use crate::labels::{self, GONE};
use crate::table::{self, Column, Side};
use crate::terminal::shown;
use crate::units::{count, thousands, Unit};
use dezghuri::{Description, Label, NodeDiff, Plan};
use std::collections::BTreeSet;
use std::path::Path;

/// Copies of a line of a table.
#[derive(Clone, Copy, Default)]
struct Moved {
    kept: u64,
    received: u64,
    /// By boxes that the file has.
    dropped: u64,
    /// With boxes that it does not have.
    gone: u64,
}

struct BoxLine {
    id: u32,
    label: Label,
    is_present: bool,
    moved: Moved,
}

struct ZoneLine {
    /// Nothing for the boxes that the file does not have.
    zone: Option<String>,
    moved: Moved,
}

/// The two layouts, and what the file says of their boxes.
struct Compared<'a> {
    described: &'a Description,
    old: &'a Plan,
    new: &'a Plan,
    boxes: Vec<BoxLine>,
    zones: Vec<ZoneLine>,
}

pub fn run(
    source: &Source,
    old_path: &Path,
    new_path: &Path,
    warnings: &mut Vec<String>,
) -> Result<Answer, Failure> {
    let described = describe(source, None, warnings)?.described;
    let (old, new) = (files::read_plan(old_path)?, files::read_plan(new_path)?);
    if old.bits != new.bits {
        return Err(Failure::bad(format!(
            "{} was planned with bits {}, {} with bits {}: their partitions have nothing in common",
            shown(old_path),
            old.bits,
            shown(new_path),
            new.bits
        )));
    }
    let history = History::read(&source.file, warnings);
    for (path, plan) in [(old_path, &old), (new_path, &new)] {
        history.tell(&Given::compared(path, plan), &described, warnings);
    }
    let compared = Compared::new(&described, &old, &new);
    let heading = format!(
        "From {} ({} MB a partition) to {} ({} MB a partition)\n\n",
        shown(old_path),
        thousands(old.size.into()),
        shown(new_path),
        thousands(new.size.into()),
    );
    let mut members = vec![
        ("command", "diff".into()),
        ("file", source.file.as_path().into()),
        ("old", old_path.into()),
        ("new", new_path.into()),
    ];
    members.extend(compared.json());
    Ok(Answer::with_json(heading + &compared.text(), members))
}

impl<'a> Compared<'a> {
    fn new(described: &'a Description, old: &'a Plan, new: &'a Plan) -> Compared<'a> {
        let diff = old.layout.diff(&new.layout);
        let nodes = described.cluster.nodes.iter().map(|node| node.id);
        let ids: BTreeSet<u32> = nodes.chain(diff.nodes().map(|(id, _)| id)).collect();
        let line = |id: u32| BoxLine {
            id,
            label: labels::of(described, id),
            is_present: described.has(id),
            moved: Moved::of(diff.node(id), described.has(id)),
        };
        let boxes: Vec<BoxLine> = ids.into_iter().map(line).collect();
        Compared {
            described,
            old,
            new,
            zones: zone_lines(&boxes),
            boxes,
        }
    }

    fn text(&self) -> String {
        [
            self.box_table(),
            "\n".into(),
            self.zone_table(),
            "\n".into(),
            self.in_words(),
        ]
        .concat()
    }

    fn box_table(&self) -> String {
        let ids = self.boxes.iter().map(|line| line.id.to_string());
        let names = self.boxes.iter().map(|line| line.label.name.clone());
        let zones = self.boxes.iter().map(|line| line.label.zone.clone());
        let mut columns = vec![
            Column::new(Side::Right, "box", ids.chain(["all".into()])),
            Column::new(Side::Left, "name", names.chain([String::new()])),
            Column::new(Side::Left, "zone", zones.chain([String::new()])),
        ];
        let nodes = &self.described.cluster.nodes;
        let ceiling = |line: &BoxLine| {
            let node = nodes.iter().find(|node| node.id == line.id);
            let ceiling = node.and_then(labels::ceiling);
            ceiling.map_or_else(String::new, |ceiling| ceiling.to_string())
        };
        let ceilings = self.boxes.iter().map(ceiling).chain([String::new()]);
        columns.push(Column::new(Side::Right, "ceiling", ceilings));
        columns.retain(|column| !column.is_blank());
        let mut moved: Vec<Moved> = self.boxes.iter().map(|line| line.moved).collect();
        moved.push(self.all());
        columns.extend(self.columns(&moved));
        table::text(&columns)
    }

    fn zone_table(&self) -> String {
        let name = |line: &ZoneLine| line.zone.clone().unwrap_or_else(|| GONE.into());
        let moved: Vec<Moved> = self.zones.iter().map(|line| line.moved).collect();
        let mut columns = vec![Column::new(Side::Left, "zone", self.zones.iter().map(name))];
        columns.extend(self.columns(&moved));
        table::text(&columns)
    }

    /// Copies before and after, and what comes and goes, each with what it takes.
    fn columns(&self, moved: &[Moved]) -> Vec<Column> {
        let unit = self.unit();
        let number = |head: &str, of: &dyn Fn(&Moved) -> u64| {
            Column::new(Side::Right, head, moved.iter().map(|m| thousands(of(m))))
        };
        let space = |head: &str, of: &dyn Fn(&Moved) -> u64| {
            let head = format!("{head} {}", unit.name);
            Column::new(Side::Right, &head, moved.iter().map(|m| unit.of(of(m))))
        };
        vec![
            number("before", &|m| m.kept + m.goes()),
            number("after", &|m| m.kept + m.received),
            number("comes", &|m| m.received),
            space("comes", &|m| self.new_mb(m.received)),
            number("goes", &|m| m.goes()),
            space("goes", &|m| self.old_mb(m.goes())),
        ]
    }

    fn in_words(&self) -> String {
        let (all, unit) = (self.all(), self.unit());
        let gone = match all.gone {
            0 => String::new(),
            gone => format!(
                ", {} of them on boxes that are not there any more",
                thousands(gone)
            ),
        };
        format!(
            "Comes: {}, {} {}. Goes: {}, {} {2}{gone}. Stays: {}.\n\
             A copy that comes takes the size of the new layout, one that goes that of the old one: \
             as much as it\ntakes once its partition has grown to that.\n",
            count(all.received, "copy", "copies"),
            unit.of(self.new_mb(all.received)),
            unit.name,
            count(all.goes(), "copy", "copies"),
            unit.of(self.old_mb(all.goes())),
            count(all.kept, "copy", "copies"),
        )
    }

    fn json(&self) -> Vec<(&'static str, Json)> {
        let boxes = self.boxes.iter().map(|line| {
            let zone = line.is_present.then_some(line.label.zone.as_str());
            let mut members = vec![
                ("id", line.id.into()),
                ("name", line.label.name.as_str().into()),
                ("zone", zone.into()),
                ("present", line.is_present.into()),
            ];
            members.extend(self.moved_json(&line.moved));
            Json::Object(members)
        });
        let zones = self.zones.iter().map(|line| {
            let mut members = vec![("zone", line.zone.clone().into())];
            members.extend(self.moved_json(&line.moved));
            Json::Object(members)
        });
        let mut members = vec![
            ("old_size_mb", self.old.size.into()),
            ("new_size_mb", self.new.size.into()),
        ];
        members.extend(self.moved_json(&self.all()));
        members.push(("boxes", Json::list(boxes)));
        members.push(("zones", Json::list(zones)));
        members
    }

    fn moved_json(&self, moved: &Moved) -> [(&'static str, Json); 7] {
        [
            ("kept", moved.kept.into()),
            ("received", moved.received.into()),
            ("received_mb", self.new_mb(moved.received).into()),
            ("dropped", moved.dropped.into()),
            ("dropped_mb", self.old_mb(moved.dropped).into()),
            ("gone", moved.gone.into()),
            ("gone_mb", self.old_mb(moved.gone).into()),
        ]
    }

    /// A copy that is received will take the new layout's size.
    fn new_mb(&self, copies: u64) -> u64 {
        copies * u64::from(self.new.size)
    }

    /// A copy that goes gives back the old layout's size.
    fn old_mb(&self, copies: u64) -> u64 {
        copies * u64::from(self.old.size)
    }

    fn all(&self) -> Moved {
        sum(self.boxes.iter().map(|line| line.moved))
    }

    fn unit(&self) -> Unit {
        let nodes = self.described.cluster.nodes.iter();
        Unit::for_all(nodes.map(|node| node.capacity.into()))
    }
}

impl Moved {
    fn of(node: &NodeDiff, is_present: bool) -> Moved {
        let goes = node.dropped.len() as u64;
        Moved {
            kept: node.kept.len() as u64,
            received: node.received.len() as u64,
            dropped: if is_present { goes } else { 0 },
            gone: if is_present { 0 } else { goes },
        }
    }

    /// Copies that have no place any more, whether their box is there or not.
    fn goes(&self) -> u64 {
        self.dropped + self.gone
    }
}

fn sum(all: impl Iterator<Item = Moved>) -> Moved {
    all.fold(Moved::default(), |sum, more| Moved {
        kept: sum.kept + more.kept,
        received: sum.received + more.received,
        dropped: sum.dropped + more.dropped,
        gone: sum.gone + more.gone,
    })
}

/// A line for each zone of the file, in the order of their first boxes, and one for the boxes that
/// the file does not have.
fn zone_lines(boxes: &[BoxLine]) -> Vec<ZoneLine> {
    let zone = |line: &BoxLine| line.is_present.then(|| line.label.zone.clone());
    let mut zones: Vec<Option<String>> = Vec::new();
    for line in boxes {
        if !zones.contains(&zone(line)) {
            zones.push(zone(line));
        }
    }
    // The file's own zones come first.
    zones.sort_by_key(Option::is_none);
    let line = |name: Option<String>| {
        let mates = boxes.iter().filter(|line| zone(line) == name);
        ZoneLine {
            moved: sum(mates.map(|line| line.moved)),
            zone: name,
        }
    };
    zones.into_iter().map(line).collect()
}
