//! `apply`: the staged changes written into the text file.

use super::stage::{listed, members};
use super::Answer;
use crate::deeds::Deed;
use crate::failure::Failure;
use crate::files;
use crate::json::Json;
use crate::output::{Kind, Output};
use crate::staged::{Made, Staged};
use crate::terminal::shown;
use std::path::Path;

pub fn run(file: &Path, warnings: &mut Vec<String>) -> Result<Answer, Failure> {
    let staged = Staged::read(file, warnings)?;
    let known = staged.known()?;
    let made = staged.made(&known)?;
    if staged.was_applied {
        return finish(&staged, &made);
    }
    if staged.entries.is_empty() {
        return Err(Failure::bad(format!(
            "nothing is staged for {}",
            shown(file)
        )));
    }
    let text = rewritten(&staged, &made)?;
    let (report, mut members) = told(&staged, &made);
    if text == staged.text {
        members.push(("out", Json::Null));
        let report = report + &format!("{} says so already.\n", shown(file));
        return Ok(Answer {
            deeds: staged.removal()?.map(Deed::Remove).into_iter().collect(),
            ..Answer::with_json(report, members)
        });
    }
    let (sealed, removal) = staged.sealed(&text)?;
    let output = Output::new(file, Kind::Text, text)?;
    output.stands_on(Some(&staged.text))?;
    members.push(("out", output.json()));
    // The sums go first: whoever finds them beside this very text knows that all is applied.
    Ok(Answer {
        deeds: vec![
            Deed::Prepare(sealed),
            Deed::Write(output),
            Deed::Remove(removal),
        ],
        ..Answer::with_json(report, members)
    })
}

/// The text with the changes; it was read back, and describes the very cluster that they lead to.
fn rewritten(staged: &Staged, made: &Made) -> Result<Vec<u8>, Failure> {
    let not = |why: &str| Failure::bad(format!("{}: not written: {why}", shown(&staged.file)));
    match made.described.rewritten(&staged.text) {
        Some(text) if text.len() as u64 > files::LONGEST_TEXT => {
            Err(not("it would be too long to describe a cluster"))
        }
        Some(text) => Ok(text),
        None if made.described.cluster.nodes.is_empty() => Err(not("no box would be left in it")),
        None => Err(not(
            "no text would describe the staged boxes: is a zone written in two ways?",
        )),
    }
}

fn told(staged: &Staged, made: &Made) -> (String, Vec<(&'static str, Json)>) {
    let (file, count) = (shown(&staged.file), staged.count());
    let report = format!("{file} with {count}:\n\n{}\n", listed(made));
    let mut members = members("apply", staged, made);
    members.push(("applied", true.into()));
    (report, members)
}

/// All was written, and then the power went: only the file of what was staged is left to remove.
fn finish(staged: &Staged, made: &Made) -> Result<Answer, Failure> {
    let file = shown(&staged.file);
    let report = format!("All that was staged for {file} is written into it already.\n");
    let (_, mut members) = told(staged, made);
    members.push(("out", Json::Null));
    Ok(Answer {
        deeds: staged.removal()?.map(Deed::Remove).into_iter().collect(),
        ..Answer::with_json(report, members)
    })
}
