//! `undo`: the last staged change taken back.

use super::stage::members;
use super::Answer;
use crate::deeds::Deed;
use crate::failure::Failure;
use crate::json::Json;
use crate::staged::{Made, Staged};
use crate::terminal::shown;
use crate::units::count;
use dezghuri::{Cluster, Description};
use std::path::Path;

pub fn run(file: &Path, warnings: &mut Vec<String>) -> Result<Answer, Failure> {
    let mut staged = Staged::read(file, warnings)?;
    if staged.entries.is_empty() {
        return Err(nothing(&staged));
    }
    // A text that describes no cluster any more is no reason to keep a change.
    let known = staged.known().ok();
    let with = made(&staged, known.as_ref());
    if let Some(undo) = &with.last {
        if !undo.restores(&with.described) {
            let path = shown(&staged.path);
            let what =
                "the last change cannot be reversed to the boxes before it; nothing is written";
            return Err(Failure::bad(format!("{path}: {what}")));
        }
    }
    staged.pop();
    let without = made(&staged, known.as_ref());
    let last = with.steps.last().expect("one is staged");
    let report = format!("Taken back: {}.\n{}\n", last.words, left(&staged));
    let mut members = members("undo", &staged, &without);
    members.push(("undone", last.json.clone()));
    if known.is_none() {
        members.retain(|(name, _)| *name != "boxes");
        members.push(("boxes", Json::Null));
    }
    let deed = match staged.entries.is_empty() {
        true => staged.removal()?.map(Deed::Remove),
        false => Some(Deed::Write(staged.output()?)),
    };
    Ok(Answer {
        deeds: deed.into_iter().collect(),
        ..Answer::with_json(report, members)
    })
}

fn made(staged: &Staged, known: Option<&Description>) -> Made {
    let none = Description {
        cluster: Cluster::default(),
        labels: Vec::new(),
        warnings: Vec::new(),
    };
    Made::new(known.unwrap_or(&none), &staged.entries)
}

/// How many are left.
fn left(staged: &Staged) -> String {
    let file = shown(&staged.file);
    match staged.entries.len() as u64 {
        0 => format!("Nothing is staged for {file} any more."),
        left => format!(
            "{} still staged for {file}.",
            count(left, "change is", "changes are")
        ),
    }
}

/// Nothing can be taken back; a file that is left over goes.
fn nothing(staged: &Staged) -> Failure {
    let file = shown(&staged.file);
    let removal = staged.removal().ok().flatten();
    let removed = removal.and_then(|removal| removal.remove().ok());
    match staged.was_applied {
        false => Failure::bad(format!("nothing is staged for {file}")),
        true => Failure::bad(format!(
            "nothing is staged for {file}: all that was is written into it. {}",
            removed.unwrap_or_default().trim_end()
        )),
    }
}
