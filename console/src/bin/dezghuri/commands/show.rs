//! `show`: what a layout has on its boxes, whether it is valid for the cluster of a file or not.

use super::{describe, heading, lost_lines, unforeseen, wanted, Answer, Known};
use crate::args::{Shown, Source};
use crate::explain;
use crate::failure::Failure;
use crate::files;
use crate::history::tell_layouts;
use crate::json::Json;
use crate::labels;
use crate::overview::Overview;
use crate::table::{self, Column, Side};
use crate::terminal::shown;
use crate::units::count;
use dezghuri::{Description, Plan};
use std::collections::BTreeSet;
use std::path::Path;

/// Numbers on a line of a long list.
const ON_A_LINE: usize = 16;

/// A layout, and the cluster of the file.
struct Seen<'a> {
    file: &'a Path,
    layout: &'a Path,
    /// What the cluster is called.
    name: String,
    described: Description,
    plan: Plan,
}

pub fn run(
    source: &Source,
    layout: &Path,
    what: Shown,
    warnings: &mut Vec<String>,
) -> Result<Answer, Failure> {
    let Known {
        described, name, ..
    } = describe(source, None, warnings)?;
    let plan = files::read_plan(layout)?;
    let given = Some((layout, &plan));
    tell_layouts(&source.file, &described, None, given, warnings);
    let seen = Seen {
        file: &source.file,
        layout,
        name,
        described,
        plan,
    };
    match what {
        Shown::Overview => Ok(seen.overview()),
        Shown::Partition(partition) => seen.partition(partition),
        Shown::Box(id) => seen.one_box(id),
        Shown::All => Ok(seen.all()),
    }
}

impl Seen<'_> {
    fn overview(mut self) -> Answer {
        let plan = self.plan.clone();
        let (overview, refused) = match Overview::of_valid(&self.described, &plan) {
            Ok(overview) => (overview, None),
            Err(refused) => (Overview::of_other(&self.described, &plan), Some(refused)),
        };
        let why = refused.map(|refused| explain::not_valid(&self.described, &plan, refused));
        let mut members = self.members();
        members.extend([
            ("wanted", wanted(&self.described.cluster)),
            ("valid", refused.is_none().into()),
            ("refusal", refused.map(|no| no.refusal.number()).into()),
            ("why", why.clone().into()),
        ]);
        let heading = match &why {
            None => heading(&self.name, &self.described),
            Some(why) => self.other_heading(why),
        };
        // What the layout has on boxes that are gone is lost, as it is for a plan made from it.
        self.described.cluster.former = plan.layout.clone();
        self.described.cluster.bits = plan.bits;
        let losses = self.described.cluster.losses();
        members.push(("lost", Json::list(losses.none_left)));
        members.push(("at_risk", Json::list(losses.one_left)));
        members.extend(overview.json(None));
        let text = [lost_lines(&self.described), heading, overview.past()].concat();
        Answer::with_json(text, members)
    }

    /// The boxes that hold one partition.
    fn partition(&self, partition: u8) -> Result<Answer, Failure> {
        let row = self.plan.layout.show_row(partition.into());
        let row = row.map_err(unforeseen)?;
        let ids: Vec<u32> = row.into_iter().filter(|id| *id != 0).collect();
        if ids.is_empty() {
            let (layout, partitions) = (shown(self.layout), self.partitions());
            let what = format!("{layout} has {partitions}, numbered from 0");
            return Err(Failure::bad(what));
        }
        let name = |id: &u32| labels::of(&self.described, *id).name;
        let zone = |id: &u32| labels::of(&self.described, *id).zone;
        let mut columns = vec![
            Column::new(Side::Right, "box", ids.iter().map(u32::to_string)),
            Column::new(Side::Left, "name", ids.iter().map(name)),
            Column::new(Side::Left, "zone", ids.iter().map(zone)),
        ];
        columns.retain(|column| !column.is_blank());
        let text = format!("Partition {partition} lies on\n\n{}", table::text(&columns));
        let boxes = ids.iter().map(|id| labels::json(&self.described, *id));
        let mut members = self.members();
        members.push(("partition", partition.into()));
        members.push(("boxes", Json::list(boxes)));
        Ok(Answer::with_json(text, members))
    }

    /// The partitions that one box holds.
    fn one_box(&self, id: u32) -> Result<Answer, Failure> {
        let rows = self.plan.layout.rows();
        let held = rows.filter(|(_, ids)| ids.contains(&id));
        let held: Vec<u8> = held.map(|(partition, _)| partition).collect();
        if held.is_empty() && !self.described.has(id) {
            return Err(Failure::bad(format!(
                "there is no box {id} in {}, and {} has no copy on one",
                self.name,
                shown(self.layout)
            )));
        }
        let named = labels::in_words(&self.described, id);
        let most = self.ceiling_in_words(id, held.len());
        let text = match held.len() {
            0 => format!("Box {named} holds none of {}{most}.\n", self.partitions()),
            n => format!(
                "Box {named} holds {n} of {}{most}:\n\n{}",
                self.partitions(),
                number_lines(&held)
            ),
        };
        let mut members = self.members();
        members.push(("box", labels::json(&self.described, id)));
        members.push(("partitions", Json::list(held)));
        Ok(Answer::with_json(text, members))
    }

    /// The ceiling of a box that holds so many copies; nothing where it has none.
    fn ceiling_in_words(&self, id: u32, held: usize) -> String {
        let mut nodes = self.described.cluster.nodes.iter();
        let node = nodes.find(|node| node.id == id);
        match node.and_then(labels::ceiling).map(usize::from) {
            None => String::new(),
            Some(ceiling) if ceiling == held => ", and is at its ceiling".into(),
            Some(ceiling) => format!(", and its ceiling is {ceiling}"),
        }
    }

    /// The row of each partition.
    fn all(&self) -> Answer {
        let rows: Vec<(u8, &[u32])> = self.plan.layout.rows().collect();
        let ids = |(_, ids): &(u8, &[u32])| {
            let ids: Vec<String> = ids.iter().map(u32::to_string).collect();
            ids.join(" ")
        };
        let numbers = rows.iter().map(|(partition, _)| partition.to_string());
        let columns = [
            Column::new(Side::Right, "partition", numbers),
            Column::new(Side::Left, "boxes", rows.iter().map(ids)),
        ];
        let text = format!("{}\n\n{}", self.size(), table::text(&columns));
        let mut members = self.members();
        members.push(("rows", super::rows(&self.plan)));
        Answer::with_json(text + &self.gone_line(), members)
    }

    /// The boxes of the layout that the file does not have; nothing where it has all.
    fn gone_line(&self) -> String {
        let ids = self.plan.layout.rows().flat_map(|(_, ids)| ids);
        let gone: BTreeSet<&u32> = ids.filter(|id| !self.described.has(**id)).collect();
        let boxes = labels::listed(gone.iter());
        let file = &self.name;
        match gone.len() {
            0 => String::new(),
            1 => format!("\nBox {boxes} is not in {file}.\n"),
            _ => format!("\nBoxes {boxes} are not in {file}.\n"),
        }
    }

    /// What every object of this command begins with.
    fn members(&self) -> Vec<(&'static str, Json)> {
        vec![
            ("command", "show".into()),
            ("file", self.file.into()),
            ("layout", self.layout.into()),
        ]
    }

    fn partitions(&self) -> String {
        count(1 << self.plan.bits, "partition", "partitions")
    }

    fn size(&self) -> String {
        format!(
            "{}: {} of each of {}",
            shown(self.layout),
            count(self.plan.replication.into(), "copy", "copies"),
            self.partitions(),
        )
    }

    /// The heading of a layout that the cluster has outgrown.
    fn other_heading(&self, why: &str) -> String {
        let (size, file) = (self.size(), &self.name);
        format!("{size}\nNot valid for {file} as it is now: {why}.\n\n")
    }
}

/// The numbers in lines of equal length, one below the other.
fn number_lines(numbers: &[u8]) -> String {
    let line = |numbers: &[u8]| {
        let cells: Vec<String> = numbers.iter().map(|n| format!("{n:>5}")).collect();
        cells.concat() + "\n"
    };
    numbers.chunks(ON_A_LINE).map(line).collect()
}
