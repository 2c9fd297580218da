//! `loss`: what the loss of boxes costs a layout at worst.

use super::{describe, heading, not_valid, unforeseen, wanted, Answer, Known};
use crate::args::Source;
use crate::failure::Failure;
use crate::files;
use crate::history::tell_layouts;
use crate::loss::{Loss, NO_ZONE};
use crate::table::{self, Column, Side};
use std::path::Path;

pub fn run(source: &Source, layout: &Path, warnings: &mut Vec<String>) -> Result<Answer, Failure> {
    let known = describe(source, None, warnings)?;
    let described = &known.described;
    let plan = files::read_plan(layout)?;
    let given = Some((layout, &plan));
    tell_layouts(&source.file, described, None, given, warnings);
    // At its own size and not at 1, as for `moves`: a layout that fills a disk is none of these boxes.
    let checked = described.cluster.check(&plan.layout, plan.size);
    checked.map_err(|refused| not_valid(layout, &known, &plan, refused))?;
    let loss = Loss::of(&described.cluster, &plan.layout).map_err(unforeseen)?;
    let mut members = vec![
        ("command", "loss".into()),
        ("file", source.file.as_path().into()),
        ("staged", known.staged.into()),
        ("layout", layout.into()),
        ("wanted", wanted(&described.cluster)),
        ("size_mb", plan.size.into()),
    ];
    members.extend(loss.json(described));
    Ok(Answer::with_json(text(&known, &loss), members))
}

fn text(known: &Known, loss: &Loss) -> String {
    let described = &known.described;
    let [lost, costs] = columns(loss.box_lines(described));
    let boxes = [
        Column::new(Side::Left, "lost", lost),
        Column::new(Side::Left, "what that costs at worst", costs),
    ];
    let looked_at = format!("\n{}\n", loss.looked_at());
    let mut parts = vec![
        heading(&known.name, described),
        table::text(&boxes),
        looked_at,
    ];
    match loss.worst_zone() {
        None => parts.push(format!("{NO_ZONE}\n")),
        Some(_) => {
            let [zones, boxes, costs] = columns(loss.zone_lines(described));
            let zones = [
                Column::new(Side::Left, "zone lost", zones),
                Column::new(Side::Right, "boxes", boxes),
                Column::new(Side::Left, "what that costs", costs),
            ];
            parts.push("\n".into());
            parts.push(table::text(&zones));
        }
    }
    parts.concat()
}

/// Lines of cells as columns of them.
fn columns<const N: usize>(lines: Vec<[String; N]>) -> [Vec<String>; N] {
    let column = |place: usize| lines.iter().map(|line| line[place].clone()).collect();
    std::array::from_fn(column)
}
