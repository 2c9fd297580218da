//! What each command does, up to the bytes that it prints and the file that it writes.

mod apply;
mod certify;
mod check;
mod diff;
mod history;
mod loss;
mod moves;
mod plan;
mod record;
mod show;
mod stage;
mod undo;
mod what_if;

use crate::args::{Command, Source};
use crate::deeds::Deed;
use crate::explain;
use crate::failure::Failure;
use crate::files;
use crate::grammar;
use crate::help;
use crate::json::Json;
use crate::labels;
use crate::losses;
use crate::output::{Kind, Output};
use crate::report;
use crate::staged::Staged;
use crate::sum;
use crate::terminal::shown;
use crate::units::count;
use dezghuri::{Cluster, Description, Plan, Refused};
use std::mem;
use std::path::Path;

/// What a call comes to.
pub struct Answer {
    /// Printed first.
    pub report: Vec<u8>,
    /// Printed in the place of the report where an object is asked for.
    pub json: Option<Json>,
    /// Said to the owner besides.
    pub told: Vec<String>,
    /// Done to files once the report is printed.
    pub deeds: Vec<Deed>,
    /// The exit status once all is done.
    pub status: u8,
}

impl Answer {
    pub fn report(report: impl Into<Vec<u8>>) -> Answer {
        Answer {
            report: report.into(),
            json: None,
            told: Vec::new(),
            deeds: Vec::new(),
            status: 0,
        }
    }

    /// The same, and a file written once the report is printed.
    pub fn writing(self, output: Output) -> Answer {
        let deeds = vec![Deed::Write(output)];
        Answer { deeds, ..self }
    }

    /// A report that can be had as an object too.
    fn with_json(report: String, members: Vec<(&'static str, Json)>) -> Answer {
        Answer {
            json: Some(Json::Object(members)),
            ..Answer::report(report)
        }
    }
}

/// Does what the command says; what looks like a slip goes to the warnings.
pub fn run(command: &Command, warnings: &mut Vec<String>) -> Result<Answer, Failure> {
    match command {
        Command::Help(name) => Ok(Answer::report(match name.and_then(grammar::command) {
            Some(command) => help::of_one(command),
            None => help::of_all(),
        })),
        Command::Version => Ok(Answer::report(help::VERSION)),
        Command::Plan(call) => plan::run(call, warnings),
        Command::PlanRecord { record } => record::plan(record),
        Command::Check { source, layout } => check::run(source, layout, warnings),
        Command::Show {
            source,
            layout,
            what,
        } => show::run(source, layout, *what, warnings),
        Command::Loss { source, layout } => loss::run(source, layout, warnings),
        Command::Diff { source, old, new } => diff::run(source, old, new, warnings),
        Command::Moves(call) => moves::run(call, warnings),
        Command::Certify(call) => certify::run(call, warnings),
        Command::WhatIf {
            file,
            former,
            changes,
        } => what_if::run(file, former.as_deref(), changes, warnings),
        Command::Report(call) => report::run(call, warnings),
        Command::Record { file, former, out } => {
            record::run(file, former.as_deref(), out.as_deref(), warnings)
        }
        Command::Stage { file, staging } => stage::run(file, staging, warnings),
        Command::Undo { file } => undo::run(file, warnings),
        Command::Apply { file } => apply::run(file, warnings),
        Command::History { file } => history::run(file, warnings),
    }
}

/// The place for a record; never that of the description.
pub fn output(kind: Kind, record: Vec<u8>, file: &Path, out: &Path) -> Result<Output, Failure> {
    if files::are_one(file, out) {
        return Err(Failure::Usage(format!(
            "--out {} would replace the description of the cluster",
            shown(out)
        )));
    }
    Output::new(out, kind, record)
}

/// A cluster that was read.
pub struct Known {
    pub described: Description,
    /// What reports call it: its file, and how many staged changes it is seen with.
    pub name: String,
    /// The number of staged changes, where they were asked for.
    pub staged: Option<usize>,
    /// The boxes before the staged changes: what a box was called that these take away.
    before: Option<Description>,
    /// The sum of the text.
    pub text_sum: u64,
    /// The plan of the former layout.
    pub former: Option<Plan>,
}

/// The cluster of the file, with what is staged where that is asked for, and with the layout of the
/// former plan.
pub fn describe(
    source: &Source,
    former: Option<&Path>,
    warnings: &mut Vec<String>,
) -> Result<Known, Failure> {
    let file = source.file.as_path();
    let staged = match source.staged {
        true => Some(Staged::read(file, warnings)?),
        false => None,
    };
    let text = match &staged {
        Some(staged) => staged.text.clone(),
        None => files::read_text(file)?,
    };
    let mut known = Known {
        described: files::described(file, &text)?,
        name: shown(file),
        staged: None,
        before: None,
        text_sum: sum::of(&text),
        former: None,
    };
    let slips = known.described.warnings.iter();
    warnings.extend(slips.map(|slip| slip.told_of(file)));
    if let Some(staged) = staged {
        known.change(&staged, warnings)?;
    }
    if let Some(former) = former {
        known.former = Some(start_from(&mut known.described, file, former)?);
    }
    Ok(known)
}

impl Known {
    /// Makes the staged changes.
    fn change(&mut self, staged: &Staged, warnings: &mut Vec<String>) -> Result<(), Failure> {
        self.staged = Some(staged.entries.len());
        if staged.entries.is_empty() {
            warnings.push(format!("nothing is staged for {}", self.name));
            return Ok(());
        }
        let made = staged.made(&self.described)?.described;
        self.before = Some(mem::replace(&mut self.described, made));
        self.name += &format!(" with {}", staged.count());
        Ok(())
    }

    /// What it means for the data that boxes of the former layout are missing; nothing where none is.
    pub fn missing(&self) -> String {
        let named = |id: u32| {
            let label = self.before.as_ref().and_then(|before| before.label(id));
            labels::numbered(id, label.map_or("", |label| &label.name))
        };
        losses::missing(&self.described.cluster, named)
    }

    /// The answer. A failure comes in the place of the report, but not of what is lost or at risk: that
    /// is told as warnings then.
    pub fn with_losses(
        &self,
        answer: Result<Answer, Failure>,
        warnings: &mut Vec<String>,
    ) -> Result<Answer, Failure> {
        if answer.is_err() {
            warnings.extend(losses::in_words(&self.described.cluster));
        }
        answer
    }
}

/// Gives the cluster the layout of the former plan, which is answered.
fn start_from(described: &mut Description, file: &Path, former: &Path) -> Result<Plan, Failure> {
    let last: Plan = files::read_plan(former)?;
    if last.bits != described.cluster.bits {
        return Err(Failure::bad(format!(
            "{} was planned with bits {}, {} has bits {}: they cannot change",
            shown(former),
            last.bits,
            shown(file),
            described.cluster.bits
        )));
    }
    described.cluster.former = last.layout.clone();
    Ok(last)
}

/// That a layout is none of these boxes.
fn not_valid(layout: &Path, known: &Known, plan: &Plan, refused: Refused) -> Failure {
    let told = format!(
        "{} is not valid for {} as it is now: {}",
        shown(layout),
        known.name,
        explain::not_valid(&known.described, plan, refused)
    );
    Failure::Refused(told, refused)
}

/// What the papers say cannot be refused is told as it comes.
fn unforeseen(refused: Refused) -> Failure {
    Failure::Refused(refused.to_string(), refused)
}

/// What is lost, above all else; nothing where nothing is.
fn lost_lines(described: &Description) -> String {
    let lines = losses::in_words(&described.cluster);
    match lines.is_empty() {
        true => String::new(),
        false => lines.join("\n") + "\n\n",
    }
}

/// What the owner wants of the cluster.
fn heading(name: &str, described: &Description) -> String {
    let cluster = &described.cluster;
    format!(
        "{name}: {} of each of {}, in at least {}\n\n",
        count(cluster.replication.into(), "copy", "copies"),
        count(cluster.partitions(), "partition", "partitions"),
        count(cluster.redundancy.into(), "zone", "zones"),
    )
}

/// What the owner wants of the cluster.
fn wanted(cluster: &Cluster) -> Json {
    Json::Object(vec![
        ("copies", cluster.replication.into()),
        ("zones", cluster.redundancy.into()),
        ("bits", cluster.bits.into()),
        ("partitions", cluster.partitions().into()),
    ])
}

/// The row of each partition, from 0 on.
fn rows(plan: &Plan) -> Json {
    let row = |(_, ids): (u8, &[u32])| Json::list(ids.to_vec());
    Json::list(plan.layout.rows().map(row))
}
