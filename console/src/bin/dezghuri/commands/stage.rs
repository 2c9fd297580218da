//! `stage`: changes of the boxes that the owner has in mind, kept until they are applied.

use super::Answer;
use crate::args::Staging;
use crate::failure::{Failure, REFUSED};
use crate::json::Json;
use crate::labels;
use crate::staged::{self, Entry, Made, Staged};
use crate::terminal::shown;
use crate::units::count;
use dezghuri::{Change, Description, Refused};
use std::path::Path;

pub fn run(file: &Path, staging: &Staging, warnings: &mut Vec<String>) -> Result<Answer, Failure> {
    let staged = Staged::read(file, warnings)?;
    let known = staged.known()?;
    let entry = match staging {
        Staging::Show => return Ok(show(&staged, &known)),
        Staging::Add(words, ceiling) => {
            let before = staged.made(&known)?;
            staged::read_line(&before.described, words, *ceiling, warnings)?
        }
        Staging::Remove(id) => staged::plain(Change::Remove(*id)),
        Staging::Resize(id, capacity) => {
            let (id, capacity) = (*id, *capacity);
            staged::plain(Change::Resize { id, capacity })
        }
    };
    stage(staged, &known, entry)
}

/// One change more, if it can be made after all others.
fn stage(mut staged: Staged, known: &Description, entry: Entry) -> Result<Answer, Failure> {
    staged.made(known)?;
    staged.push(known, entry)?;
    let made = Made::new(known, &staged.entries);
    let words = &made.steps.last().expect("one was staged").words;
    if let Some(not) = &made.refused {
        let (why, number) = (&not.why, not.refused.refusal.number());
        let line = format!("{words}: not staged: {why} (refused {number})");
        return Err(Failure::Refused(line, not.refused));
    }
    let (file, next) = (shown(&staged.file), next(&staged));
    let report = format!("Staged for {file}: {words}.\n{next}\n");
    let mut members = members("stage", &staged, &made);
    members.extend(refusal(None, None));
    Ok(Answer::with_json(report, members).writing(staged.output()?))
}

/// How many are staged, and what can be done with them.
fn next(staged: &Staged) -> String {
    let file = shown(&staged.file);
    let number = staged.entries.len() as u64;
    let count = count(number, "change is", "changes are");
    format!("{count} staged now: `dezghuri plan {file} --staged` plans the boxes so.")
}

/// All that is staged; a change that is refused is told besides.
fn show(staged: &Staged, known: &Description) -> Answer {
    let made = Made::new(known, &staged.entries);
    let failure = staged.told(&made);
    let mut members = members("stage", staged, &made);
    let why = failure.as_ref().map(|failure| failure.lines().concat());
    let refused = made.refused.as_ref().map(|not| not.refused);
    members.extend(refusal(refused, why.as_deref()));
    Answer {
        told: why.into_iter().collect(),
        status: if failure.is_some() { REFUSED } else { 0 },
        ..Answer::with_json(in_words(staged, &made), members)
    }
}

fn in_words(staged: &Staged, made: &Made) -> String {
    let file = shown(&staged.file);
    if staged.was_applied {
        return format!(
            "Nothing is staged for {file}: all that was is written into it. `dezghuri apply {file}` \
             removes {}, which is left over.\n",
            shown(&staged.path)
        );
    }
    if staged.entries.is_empty() {
        return format!("Nothing is staged for {file}.\n");
    }
    let undo = made.last.as_ref();
    let undo = undo.map(|undo| undo.in_words(&made.described));
    let undo = undo.map_or(".".into(), |words| format!(": {words}."));
    let last = match staged.entries.len() {
        1 => "takes it back",
        _ => "takes the last one back",
    };
    format!(
        "{file} with {}:\n\n{}\n`dezghuri undo {file}` {last}{undo}\n\
         `dezghuri plan {file} --staged` plans the boxes so, `dezghuri apply {file}` writes them \
         into {file}.\n",
        staged.count(),
        listed(made)
    )
}

/// The changes, each on a line with its number.
pub fn listed(made: &Made) -> String {
    let width = made.steps.len().to_string().len();
    let line =
        |(number, step): (usize, &staged::Step)| format!("  {number:>width$}  {}\n", step.words);
    (1..).zip(&made.steps).map(line).collect()
}

/// What every object about staged changes begins with.
pub fn members(command: &'static str, staged: &Staged, made: &Made) -> Vec<(&'static str, Json)> {
    let changes = made.steps.iter().map(|step| step.json.clone());
    vec![
        ("command", command.into()),
        ("file", staged.file.as_path().into()),
        ("staged", staged.path.as_path().into()),
        ("changes", Json::list(changes)),
        ("boxes", boxes(&made.described)),
    ]
}

/// That a change cannot be made any more, and why; nothing where all can.
fn refusal(refused: Option<Refused>, why: Option<&str>) -> [(&'static str, Json); 2] {
    let number = refused.map(|no| no.refusal.number());
    [("refusal", number.into()), ("why", why.into())]
}

fn boxes(described: &Description) -> Json {
    let nodes = described.cluster.nodes.iter().zip(&described.labels);
    Json::list(nodes.map(|(node, label)| {
        Json::Object(vec![
            ("id", node.id.into()),
            ("name", label.name.as_str().into()),
            ("zone", label.zone.as_str().into()),
            ("capacity_mb", node.capacity.into()),
            ("ceiling", labels::ceiling(node).into()),
        ])
    }))
}
