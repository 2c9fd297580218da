//! What the copies of each partition cost at least: lines by the boxes that held it, or by their prices.

use super::{Part, Sheet, ALL};
use crate::table::{Column, Side};
use crate::units::{count, thousands};
use dezghuri::{Group, Line};

/// What marks a box that did not hold the partition before.
pub const SENT: char = '*';

/// How the lines are worked out, and the lines.
pub fn costs(sheet: &Sheet) -> Vec<Part> {
    let lines = sheet.certificate.sheet();
    let by_boxes = lines.iter().any(|line| !is_by_prices(line));
    let mut words = match lines.iter().any(is_by_prices) {
        true => by_prices(sheet, by_boxes),
        false => vec![format!(
            "{} Which boxes are the cheapest depends on those that held the partition before; {SENT} marks \
             one that did not, so that it costs 1 more than its price.",
            rule(sheet)
        )],
    };
    if let Some(last) = words.last_mut() {
        *last += gone(sheet);
    }
    let mut parts: Vec<Part> = words.into_iter().map(Part::Words).collect();
    parts.push(Part::Table(table(sheet, lines)));
    parts
}

fn is_by_prices(line: &Line) -> bool {
    matches!(line.group, Group::Prices { .. })
}

/// That the former layout may name boxes which no line does.
fn gone(sheet: &Sheet) -> &'static str {
    let mut ids = sheet.cluster().former.rows().flat_map(|(_, ids)| ids);
    match ids.any(|id| !sheet.described.has(*id)) {
        true => " Boxes that are not there any more are left out.",
        false => "",
    }
}

/// On which boxes the copies of a partition cost least.
fn rule(sheet: &Sheet) -> String {
    let (copies, zones) = (sheet.cluster().replication, sheet.cluster().redundancy);
    let cheapest = |many: u8| match many {
        1 => "the cheapest".into(),
        many => format!("the {many} cheapest"),
    };
    let (all, others) = (cheapest(copies), cheapest(copies - zones));
    let what = count(copies.into(), "copy", "copies");
    match (zones, copies - zones) {
        (1, _) if copies == 1 => format!("The copy of a partition costs least on {all} box."),
        (1, _) => format!("The {what} of a partition cost least on {all} boxes."),
        (_, 0) => format!(
            "The {what} of a partition lie in {zones} zones. They cost least so: take of each zone the \
             cheapest box, and of those {all}."
        ),
        _ => format!(
            "The {what} of a partition lie in at least {zones} zones. They cost least so: take of each zone \
             the cheapest box, of those {}, and then {others} of all boxes that are left.",
            cheapest(zones)
        ),
    }
}

/// How lines by prices are worked out, and the lines by boxes among them.
fn by_prices(sheet: &Sheet, by_boxes: bool) -> Vec<String> {
    let cluster = sheet.cluster();
    let copies = count(cluster.replication.into(), "copy", "copies");
    let zones = match cluster.redundancy {
        1 => "",
        _ => " Zones are left out of that, since they can only make it more.",
    };
    let mut words = vec![format!(
        "A line stands for all partitions that boxes of these prices held before. What the {copies} of such \
         a partition cost at least: take these prices as they are, those of all other boxes with 1 more, and \
         of all these numbers the {} smallest.{zones}",
        cluster.replication
    )];
    if by_boxes {
        words.push(format!(
            "Where zones do make it more, a line names the boxes that held the partition. {} {SENT} marks a \
             box that did not hold it, so that it costs 1 more than its price.",
            rule(sheet)
        ));
    }
    words
}

fn table(sheet: &Sheet, lines: &[Line]) -> Vec<Column> {
    let tells = lines.iter().any(is_by_prices);
    let sum = |number: fn(&Line) -> u64| lines.iter().map(number).sum::<u64>();
    let column = |side, head: &str, cell: &dyn Fn(&Line) -> String, sum: String| {
        Column::new(side, head, lines.iter().map(cell).chain([sum]))
    };
    let partitions = thousands(sum(|line| line.partitions));
    let together = thousands(sheet.certificate.low());
    let mut columns = vec![
        column(Side::Left, "held by", &|line| held(line, tells), ALL.into()),
        column(
            Side::Right,
            "partitions",
            &|line| thousands(line.partitions),
            partitions,
        ),
        column(Side::Left, "cheapest boxes", &cheapest, String::new()),
        column(Side::Left, "their cost", &cost, String::new()),
        column(
            Side::Right,
            "together",
            &|line| thousands(line.together()),
            together,
        ),
    ];
    columns.retain(|column| !column.is_blank());
    columns
}

/// The boxes that held the partitions of a line, or their prices; which of the two is told where both occur.
fn held(line: &Line, tells: bool) -> String {
    let (ids, what) = match &line.group {
        Group::Nodes { held, .. } => (held, "boxes"),
        Group::Prices { held } => (held, "prices"),
    };
    match (ids.len(), tells) {
        (0, _) => "none".into(),
        (_, true) => format!("{what} {}", spaced(ids)),
        (_, false) => spaced(ids),
    }
}

/// The boxes of a cheapest row; a line by prices names none.
fn cheapest(line: &Line) -> String {
    let Group::Nodes { held, row } = &line.group else {
        return String::new();
    };
    let id = |id: &u32| match held.contains(id) {
        true => id.to_string(),
        false => format!("{id}{SENT}"),
    };
    let ids: Vec<String> = row.iter().map(id).collect();
    ids.join(" ")
}

/// The sum of what the copies of a cheapest row cost.
fn cost(line: &Line) -> String {
    match &line.costs[..] {
        [one] => one.to_string(),
        costs => {
            let costs: Vec<String> = costs.iter().map(u64::to_string).collect();
            format!("{} = {}", costs.join("+"), line.cost())
        }
    }
}

fn spaced(numbers: &[u32]) -> String {
    let numbers: Vec<String> = numbers.iter().map(u32::to_string).collect();
    numbers.join(" ")
}
