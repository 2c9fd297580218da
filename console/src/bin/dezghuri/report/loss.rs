//! If boxes are lost: what so many of them cost at worst, and each zone whole.

use super::bars;
use super::facts::Facts;
use super::html::{isolated, section};
use super::tables::{called, table};
use crate::labels;
use crate::loss::{Loss, ZoneLoss, NO_ZONE};
use crate::units::{count, percent, thousands};
use dezghuri::WorstLoss;

/// What can be lost of the layout that the page shows; nothing where it is not valid.
pub fn of_layout(facts: &Facts) -> String {
    let Some(loss) = facts.loss() else {
        return String::new();
    };
    let body = of_boxes(facts, loss) + &of_zones(facts, loss);
    section("loss", "If boxes are lost", &body)
}

/// A line for each number of boxes; none are named where they cost nothing.
fn of_boxes(facts: &Facts, loss: &Loss) -> String {
    let line = |worst: &WorstLoss| {
        let boxes = count(worst.nodes.len() as u64, "box", "boxes");
        let named = worst.nodes.iter().filter(|_| worst.lost > 0);
        let named: Vec<String> = named.map(|id| called(facts, *id)).collect();
        format!(
            "<tr><th>{boxes}</th>{}<td>{}</td></tr>\n",
            cost(facts, worst.lost),
            labels::joined(&named, "and")
        )
    };
    let lines: String = loss.worst.iter().map(line).collect();
    let mut caption = format!("{WORST} {} {SHARE}", loss.looked_at());
    if facts.has_steps() {
        caption += MOVED;
    }
    let heads = ["lost", "partitions lost", "share", "which boxes"];
    let table = table("cards of-loss", "", &heads, &lines);
    // As a caption of the table the words would be no wider than it, and it may be narrow.
    format!("<figure>\n<figcaption>{caption}</figcaption>\n{table}</figure>\n")
}

/// What is told of so many boxes.
const WORST: &str =
    "What is lost at worst if so many boxes are lost at once. A partition is lost when all its \
                     copies are.";
const SHARE: &str = "Share is of all data, with the partitions equally full.";
/// What the caption says more where the layout is not reached yet.
const MOVED: &str = " All this holds once the copies have moved.";

/// A line for each zone, or a sentence where none costs anything.
fn of_zones(facts: &Facts, loss: &Loss) -> String {
    if loss.worst_zone().is_none() {
        return format!("<p>{NO_ZONE}</p>\n");
    }
    let line = |zone: &ZoneLoss| {
        format!(
            "<tr><th>{}</th><td class=\"n\">{}</td>{}</tr>\n",
            isolated(labels::zone(facts.described, zone.zone)),
            zone.boxes,
            cost(facts, zone.lost)
        )
    };
    let lines: String = loss.zones.iter().map(line).collect();
    let heads = ["zone lost", "boxes", "partitions lost", "share"];
    let caption = "What is lost if all boxes of a zone are.";
    table("cards of-lost-zones", caption, &heads, &lines)
}

/// The cells for what is lost: how many partitions, and their share as a bar and a figure.
fn cost(facts: &Facts, lost: u32) -> String {
    let (lost, all) = (u64::from(lost), facts.cluster().partitions());
    format!(
        "<td class=\"n\">{} of {}</td><td class=\"n\">{}<span>{}</span></td>",
        thousands(lost),
        thousands(all),
        bars::of_share("lost", lost, all),
        percent(lost, all)
    )
}
