//! `check`: whether a layout is valid for the cluster of a file.

use super::{describe, wanted, Answer, Known};
use crate::args::Source;
use crate::explain;
use crate::failure::{Failure, REFUSED};
use crate::files;
use crate::history::tell_layouts;
use crate::terminal::shown;
use crate::units::thousands;
use std::path::Path;

pub fn run(source: &Source, layout: &Path, warnings: &mut Vec<String>) -> Result<Answer, Failure> {
    let Known {
        described, name, ..
    } = describe(source, None, warnings)?;
    let plan = files::read_plan(layout)?;
    let given = Some((layout, &plan));
    tell_layouts(&source.file, &described, None, given, warnings);
    let refused = described.cluster.check(&plan.layout, plan.size).err();
    let why = refused.map(|refused| explain::not_valid(&described, &plan, refused));
    let members = vec![
        ("command", "check".into()),
        ("file", source.file.as_path().into()),
        ("layout", layout.into()),
        ("wanted", wanted(&described.cluster)),
        ("size_mb", plan.size.into()),
        ("valid", refused.is_none().into()),
        ("refusal", refused.map(|no| no.refusal.number()).into()),
        ("why", why.clone().into()),
    ];
    let Some(why) = why else {
        let report = format!(
            "{} is valid for {name}, each partition up to {} MB.\n",
            shown(layout),
            thousands(plan.size.into())
        );
        return Ok(Answer::with_json(report, members));
    };
    Ok(Answer {
        told: vec![format!("not valid: {why}")],
        status: REFUSED,
        ..Answer::with_json(String::new(), members)
    })
}
