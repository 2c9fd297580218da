//! The tables: all numbers of the page, to be read and linked to.

use super::facts::{Cell, Facts, Laid, MOST_GONE};
use super::html::{isolated, label, red_where, section};
use crate::labels::{self, GONE};
use crate::units::{percent, thousands};
use dezghuri::Layout;

/// Partitions of one table; several tables stand side by side.
const LINES: usize = 32;

/// A line of a table of boxes or zones.
struct Held {
    /// Of boxes that are not there it is not known.
    capacity: Option<u64>,
    copies: u64,
    received: u64,
    dropped: u64,
    /// Whether there are too many copies for the ceiling, and too much for the disk.
    is_at_fault: [bool; 2],
}

impl Held {
    /// What these boxes have together.
    fn of(facts: &Facts, laid: &Laid, places: &[usize]) -> Held {
        let rows = || places.iter().map(|b| &laid.rows.here[*b]);
        let nodes = &facts.cluster().nodes;
        Held {
            capacity: Some(places.iter().map(|b| u64::from(nodes[*b].capacity)).sum()),
            copies: rows().map(|row| row.copies()).sum(),
            received: rows().map(|row| row.count(Cell::Received)).sum(),
            dropped: rows().map(|row| row.count(Cell::Dropped)).sum(),
            is_at_fault: match places {
                [b] => [
                    facts.is_above_ceiling(laid, *b),
                    facts.too_much(laid, *b) > 0,
                ],
                _ => [false; 2],
            },
        }
    }

    /// What the layout has on boxes that are not there, those of these ids.
    fn astray(laid: &Laid, ids: &[u32]) -> Held {
        let rows = || laid.after.rows();
        let there = |row: &[u32]| row.iter().filter(|id| ids.contains(id)).count() as u64;
        let stays = |(partition, row): (u8, &[u32])| {
            let before = laid.before.row(partition);
            let stays = row.iter().filter(|id| before.contains(id));
            there(&stays.copied().collect::<Vec<u32>>())
        };
        let copies = rows().map(|(_, row)| there(row)).sum();
        Held {
            capacity: None,
            copies,
            received: copies - rows().map(stays).sum::<u64>(),
            dropped: 0,
            is_at_fault: [false; 2],
        }
    }

    /// All that the layout has; what its boxes have together is not known where some are not there.
    fn all(facts: &Facts, laid: &Laid) -> Held {
        let places: Vec<usize> = (0..facts.cluster().nodes.len()).collect();
        let here = Held::of(facts, laid, &places);
        match &facts.astray(laid)[..] {
            [] => here,
            ids => {
                let astray = Held::astray(laid, ids);
                Held {
                    capacity: None,
                    copies: here.copies + astray.copies,
                    received: here.received + astray.received,
                    ..here
                }
            }
        }
    }

    /// The cells of a line; a ceiling stands in a table of boxes only, where one has any.
    fn cells(&self, facts: &Facts, laid: &Laid, ceiling: Option<String>) -> String {
        let (unit, used) = (facts.unit(), self.copies * laid.size);
        let unknown = || String::from("-");
        let share = |whole| percent(used, whole);
        let [are_many, is_much] = self.is_at_fault;
        let mut cells = vec![self.capacity.map_or_else(unknown, |whole| unit.of(whole))];
        cells.extend(ceiling);
        cells.extend([
            red_where(are_many, &thousands(self.copies)),
            red_where(is_much, &unit.of(used)),
            red_where(is_much, &self.capacity.map_or_else(unknown, share)),
        ]);
        if facts.has_former() {
            cells.extend([thousands(self.received), thousands(self.dropped)]);
        }
        let cells = cells
            .iter()
            .map(|cell| format!("<td class=\"n\">{cell}</td>"));
        cells.collect()
    }
}

/// The tables of a cluster with a layout.
pub fn boxes_and_zones(facts: &Facts, laid: &Laid) -> String {
    let all: Vec<usize> = (0..facts.cluster().nodes.len()).collect();
    let mut lines = String::new();
    for b in &all {
        let cells = Held::of(facts, laid, &[*b]).cells(facts, laid, ceiling(facts, Some(*b)));
        lines += &format!("{}{cells}</tr>\n", box_head(facts, *b));
    }
    lines += &astray_lines(facts, laid);
    let sum = Held::all(facts, laid).cells(facts, laid, ceiling(facts, None));
    lines += &format!("<tr class=\"sum\"><th>all</th><td></td><td></td>{sum}</tr>\n");
    let mut heads = numbers(facts);
    let mut caption = format!(
        "The boxes. Capacity and used are in {}; used is what the copies take once each partition \
         has grown to its size, share is of the whole disk, a sixteenth of which stays free.",
        facts.unit().name
    );
    if facts.has_ceilings() {
        heads.insert(1, "ceiling");
        caption += CEILING;
    }
    let boxes = table(
        class_of_boxes(facts),
        &caption,
        &[&["box", "name", "zone"][..], &heads].concat(),
        &lines,
    );
    [boxes, zone_table(facts, laid)].concat()
}

fn zone_table(facts: &Facts, laid: &Laid) -> String {
    let line = |(zone, places): (&str, Vec<usize>)| {
        let cells = Held::of(facts, laid, &places).cells(facts, laid, None);
        format!(
            "<tr><th>{}</th><td class=\"n\">{}</td>{cells}</tr>\n",
            isolated(zone),
            places.len()
        )
    };
    let mut lines: String = facts.zones().into_iter().map(line).collect();
    let astray = facts.astray(laid);
    if !astray.is_empty() {
        let cells = Held::astray(laid, &astray).cells(facts, laid, None);
        lines += &format!(
            "<tr><th><em>{GONE}</em></th><td class=\"n\">{}</td>{cells}</tr>\n",
            astray.len()
        );
    }
    let caption = format!("The zones. Capacity and used are in {}.", facts.unit().name);
    table(
        "cards of-zones",
        &caption,
        &[&["zone", "boxes"][..], &numbers(facts)].concat(),
        &lines,
    )
}

/// A line for each box that is not there, but in the layout.
fn astray_lines(facts: &Facts, laid: &Laid) -> String {
    let line = |head: &str, ids: &[u32]| {
        let cells = Held::astray(laid, ids).cells(facts, laid, ceiling(facts, None));
        format!("<tr><th><em>{head}</em></th><td></td><td><em>{GONE}</em></td>{cells}</tr>\n")
    };
    let ids = facts.astray(laid);
    let (drawn, more) = ids.split_at(ids.len().min(MOST_GONE));
    let mut lines: String = drawn
        .iter()
        .map(|id| line(&id.to_string(), &[*id]))
        .collect();
    if !more.is_empty() {
        lines += &line(&format!("{} more", more.len()), more);
    }
    lines
}

/// The table of a cluster without a layout.
pub fn disks(facts: &Facts) -> String {
    let unit = facts.unit();
    let line = |b: usize| {
        let capacity = unit.of(facts.cluster().nodes[b].capacity.into());
        let ceiling = ceiling(facts, Some(b));
        let ceiling = ceiling.map(|cell| format!("<td class=\"n\">{cell}</td>"));
        format!(
            "{}<td class=\"n\">{capacity}</td>{}</tr>\n",
            box_head(facts, b),
            ceiling.unwrap_or_default()
        )
    };
    let lines: String = (0..facts.cluster().nodes.len()).map(line).collect();
    let mut caption = format!("The boxes. Capacity is in {}.", unit.name);
    let mut heads = vec!["box", "name", "zone", "capacity"];
    if facts.has_ceilings() {
        heads.push("ceiling");
        caption += CEILING;
    }
    table(class_of_boxes(facts), &caption, &heads, &lines)
}

/// What the caption of a table with ceilings says more.
const CEILING: &str = " Ceiling is the most copies that a box may hold.";

/// The class of the table of boxes.
fn class_of_boxes(facts: &Facts) -> &'static str {
    match facts.has_ceilings() {
        true => "cards of-boxes ceilings",
        false => "cards of-boxes",
    }
}

/// The cell of a box's ceiling, or of the sum, where the table has such a column.
fn ceiling(facts: &Facts, b: Option<usize>) -> Option<String> {
    let ceiling = b.and_then(|b| labels::ceiling(&facts.cluster().nodes[b]));
    let cell = ceiling.map_or_else(String::new, |ceiling| ceiling.to_string());
    facts.has_ceilings().then_some(cell)
}

/// The beginning of a box's line, which can be linked to.
fn box_head(facts: &Facts, b: usize) -> String {
    let (id, label) = (facts.cluster().nodes[b].id, &facts.described.labels[b]);
    format!(
        "<tr id=\"box-{id}\"><th>{id}</th><td>{}</td><td>{}</td>",
        isolated(&label.name),
        isolated(&label.zone)
    )
}

/// A box by its id and its name where little room is; the table of the boxes has all of it.
pub fn called(facts: &Facts, id: u32) -> String {
    match facts.described.label(id).map(|label| &label.name[..]) {
        None | Some("") => id.to_string(),
        Some(name) => format!("{id} {}", label(name)),
    }
}

/// Heads of the columns with numbers.
fn numbers(facts: &Facts) -> Vec<&'static str> {
    let heads = [
        "capacity",
        "copies",
        "used",
        "share",
        "to receive",
        "to drop",
    ];
    let wanted = if facts.has_former() { 6 } else { 4 };
    heads[..wanted].to_vec()
}

/// A table of these lines; heads over words and ids stand at the left, those over numbers at the right.
pub fn table(class: &str, caption: &str, heads: &[&str], lines: &str) -> String {
    let left = [
        "name",
        "zone",
        "before",
        "after",
        "held by",
        "from",
        "send to",
        "drop at",
        "its boxes",
        "cheapest boxes",
        "their cost",
        "which boxes",
    ];
    let heads = heads.iter().map(|head| match left.contains(head) {
        true => format!("<th class=\"l\">{head}</th>"),
        false => format!("<th>{head}</th>"),
    });
    let heads: String = heads.collect();
    let caption = match caption {
        "" => String::new(),
        caption => format!("<caption>{caption}</caption>\n"),
    };
    format!(
        "<table class=\"{class}\">\n{caption}<thead><tr>{heads}</tr></thead>\n<tbody>\n{lines}</tbody>\n</table>\n"
    )
}

/// Each partition with its row before and after.
pub fn partitions(facts: &Facts, laid: &Laid) -> String {
    let partitions: Vec<u8> = (0..=u8::MAX).take(1 << facts.cluster().bits).collect();
    let heads: &[&str] = match facts.has_former() {
        true => &["partition", "before", "after"],
        false => &["partition", "held by"],
    };
    let tables = partitions.chunks(LINES).map(|some| {
        let lines: String = some.iter().map(|p| partition(facts, laid, *p)).collect();
        table("rows-of", "", heads, &lines)
    });
    let tables: String = tables.collect();
    let words = match facts.has_former() {
        true => {
            "The ids of the boxes that held each partition, and of those that are to hold it: \
                 \u{25b2} received, \u{25bd} dropped, \u{2715} gone with its box."
        }
        false => "The ids of the boxes that hold each partition.",
    };
    let body = format!(
        "<p>{words}</p>\n<div class=\"many\" style=\"--least:{}em\">\n{tables}</div>\n",
        width(facts, laid, heads.len())
    );
    section("partitions", "The partitions", &body)
}

/// Letters of the longest head over rows.
const HEAD: usize = 8;

/// How wide a table of partitions must be for its longest row, in letters' heights.
fn width(facts: &Facts, laid: &Laid, columns: usize) -> usize {
    let long = |layout: &Layout| {
        let letters = |ids: &[u32]| ids.iter().map(|id| id.to_string().len() + 2).sum::<usize>();
        layout
            .rows()
            .map(|(_, ids)| letters(ids))
            .max()
            .unwrap_or(0)
    };
    let letters = match columns {
        2 => long(&laid.after).max(HEAD),
        _ => long(&laid.before).max(HEAD) + long(&laid.after).max(HEAD),
    };
    let told = facts.losses.is_empty() && laid.judged.is_ok();
    let told = if told { 0 } else { 8 };
    8 + letters * 11 / 20 + told
}

fn partition(facts: &Facts, laid: &Laid, partition: u8) -> String {
    let (before, after) = (laid.before.row(partition), laid.after.row(partition));
    let mut cells = String::new();
    if facts.has_former() {
        let id = |id: &u32| match (after.contains(id), facts.described.has(*id)) {
            (true, _) => id.to_string(),
            (false, true) => format!("<s>{id}</s>"),
            (false, false) => format!("<del>{id}</del>"),
        };
        let ids: Vec<String> = before.iter().map(id).collect();
        cells += &format!(
            "<td>{}{}</td>",
            ids.join(" "),
            left(facts, partition, before)
        );
    }
    let id = |id: &u32| match (before.contains(id), facts.described.has(*id)) {
        (_, false) => format!("<em>{id}</em>"),
        (true, _) => id.to_string(),
        (false, _) => format!("<b>{id}</b>"),
    };
    let ids: Vec<String> = after.iter().map(id).collect();
    let fault = facts.fault_of_row(laid, partition);
    let fault = fault.map_or_else(String::new, |fault| format!(" <em>{fault}</em>"));
    format!(
        "<tr id=\"partition-{partition}\"><th>{partition}</th>{cells}<td>{}{fault}</td></tr>\n",
        ids.join(" ")
    )
}

/// A word where no former copy is left, or one only.
fn left(facts: &Facts, partition: u8, before: &[u32]) -> &'static str {
    match (before.len(), facts.cluster().survivors(partition).count()) {
        (1.., 0) => " <em>none left</em>",
        (2.., 1) => " <em>one left</em>",
        _ => "",
    }
}
