//! The page on which an owner sees a layout: one HTML file that needs nothing else.

mod bars;
mod facts;
mod html;
mod loss;
mod map;
mod matrix;
mod moves;
mod sheet;
mod tables;
mod words;

use crate::args;
use crate::commands::{describe, output, Answer, Known};
use crate::explain;
use crate::failure::{Failure, REFUSED};
use crate::files;
use crate::history::tell_layouts;
use crate::losses;
use crate::output::Kind;
use crate::terminal::shown;
use dezghuri::{Plan, ENOUGH};
use facts::{Facts, Laid, Names};
use std::path::Path;

pub use html::is_page;

/// No page is longer: boxes, partitions and the length of the names that are shown have their limits.
pub const LONGEST_PAGE: u64 = 500_000;

/// The page of a layout, or of a cluster that has none. One that is not valid is shown as far as it can be;
/// the page says why, and the status is 1.
pub fn run(call: &args::Report, warnings: &mut Vec<String>) -> Result<Answer, Failure> {
    let known = describe(&call.source, call.former.as_deref(), warnings)?;
    let answer = paged(call, &known, warnings);
    known.with_losses(answer, warnings)
}

fn paged(
    call: &args::Report,
    known: &Known,
    warnings: &mut Vec<String>,
) -> Result<Answer, Failure> {
    let described = &known.described;
    let plan = call.layout.as_deref().map(files::read_plan).transpose()?;
    let layout = call.layout.as_deref().zip(plan.as_ref());
    let former = call.former.as_deref().zip(known.former.as_ref());
    tell_layouts(&call.source.file, described, former, layout, warnings);
    let laid = laid(known, layout);
    let is_valid = laid.as_ref().is_ok_and(|laid| laid.judged.is_ok());
    let status = if is_valid { 0 } else { REFUSED };
    let facts = Facts {
        names: names(call, known),
        losses: losses::in_words(&described.cluster),
        missing: known.missing(),
        described,
        laid,
    };
    let page = html::page(&facts).into_bytes();
    let output = output(Kind::Page, page, &call.source.file, &call.out)?;
    let answer = Answer::report(words::plain(&facts)).writing(output);
    Ok(Answer { status, ..answer })
}

/// What is to be drawn, or why there is nothing.
fn laid(known: &Known, layout: Option<(&Path, &Plan)>) -> Result<Laid, String> {
    let (described, former) = (&known.described, known.former.as_ref());
    let Some((layout, plan)) = layout else {
        let plan = described.cluster.plan(ENOUGH);
        let laid = plan.and_then(|plan| Laid::new(described, &plan, former));
        return laid.map_err(|refused| explain::no_plan(described, refused));
    };
    let refused = match Laid::new(described, plan, former) {
        Ok(laid) => return Ok(laid),
        Err(refused) => refused,
    };
    let why = format!(
        "{} is not valid for {} as it is now: {}",
        shown(layout),
        known.name,
        explain::not_valid(described, plan, refused)
    );
    // Partitions of another number have no place in the map of these.
    match plan.bits == described.cluster.bits {
        true => Ok(Laid::drawn(&described.cluster, plan, former, Err(why))),
        false => Err(why),
    }
}

/// The files as their owner calls them.
fn names(call: &args::Report, known: &Known) -> Names {
    let name = |path: &Path| shown(path);
    Names {
        file: known.name.clone(),
        layout: call.layout.as_deref().map(name),
        former: call.former.as_deref().map(name),
    }
}
