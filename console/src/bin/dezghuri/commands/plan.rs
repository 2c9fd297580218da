//! `plan`: a layout for the cluster of a file.

use super::{describe, heading, lost_lines, output, rows, unforeseen, wanted, Answer, Known};
use crate::args;
use crate::deeds::Deed;
use crate::explain;
use crate::failure::Failure;
use crate::files;
use crate::history::{Addition, Given, History, Planned};
use crate::json::Json;
use crate::loss::Loss;
use crate::output::{Kind, Output};
use crate::overview::{first_transfers_in_words, transfers_in_words, Overview};
use crate::terminal::shown;
use crate::units::count;
use crate::why;
use dezghuri::{Description, Plan, Transfers, Verdict};
use std::path::Path;

/// A plan that was made, and what is told of it.
struct Made<'a> {
    known: &'a Known,
    described: &'a Description,
    plan: &'a Plan,
    overview: Overview<'a>,
    transfers: Transfers,
    /// What the loss of boxes would cost the layout.
    loss: Loss,
}

pub fn run(call: &args::Plan, warnings: &mut Vec<String>) -> Result<Answer, Failure> {
    let known = describe(&call.source, call.former.as_deref(), warnings)?;
    let answer = planned(call, &known, warnings);
    known.with_losses(answer, warnings)
}

fn planned(
    call: &args::Plan,
    known: &Known,
    warnings: &mut Vec<String>,
) -> Result<Answer, Failure> {
    let history = told_history(call, known, warnings)?;
    let described = &known.described;
    let cluster = &described.cluster;
    let plan = cluster
        .plan(call.allowance)
        .map_err(|refused| Failure::Refused(explain::no_plan(described, refused), refused))?;
    let out = call.out.as_deref();
    let output = out.map(|out| layout_output(&plan, call, out)).transpose()?;
    let made = Made {
        known,
        overview: Overview::of_valid(described, &plan).map_err(unforeseen)?,
        transfers: cluster.transfers(&plan.layout),
        loss: Loss::of(cluster, &plan.layout).map_err(unforeseen)?,
        described,
        plan: &plan,
    };
    let text = made.text(call, output.as_ref());
    let written = history.zip(output.as_ref());
    let line = written.and_then(|(history, output)| {
        let planned = made.to_keep(output);
        history.addition(&planned, warnings)
    });
    let mut members = made.json(call);
    members.push(("out", output.as_ref().map(Output::json).into()));
    members.push(("history", line.as_ref().map(Addition::json).into()));
    // The line goes first: a layout under its name is never unknown.
    let deeds = [line.map(Deed::Append), output.map(Deed::Write)];
    Ok(Answer {
        deeds: deeds.into_iter().flatten().collect(),
        ..Answer::with_json(text, members)
    })
}

/// The history, where a layout is read or written. What it says of the former one is told, or that it
/// begins.
fn told_history(
    call: &args::Plan,
    known: &Known,
    warnings: &mut Vec<String>,
) -> Result<Option<History>, Failure> {
    if call.former.is_none() && call.out.is_none() {
        return Ok(None);
    }
    let history = History::read(&call.source.file, warnings);
    if let Some(out) = call.out.as_deref().filter(|out| history.is_at(out)) {
        return Err(Failure::Usage(format!(
            "--out {} would take the place of the history",
            shown(out)
        )));
    }
    match call.former.as_deref().zip(known.former.as_ref()) {
        Some((last, former)) => {
            let former = Given::former(last, former);
            history.plan_from(&former, &known.described, call.damaged_anyway, warnings)?;
        }
        None => warnings.extend(history.begins()),
    }
    Ok(Some(history))
}

impl Made<'_> {
    fn text(&self, call: &args::Plan, output: Option<&Output>) -> String {
        let (described, plan) = (self.described, self.plan);
        let upper_bound = self.overview.upper_bound.unwrap_or_default();
        [
            lost_lines(described),
            heading(&self.known.name, described),
            self.overview.boxes(Some(&self.transfers)),
            "\n".into(),
            self.overview.zones(),
            "\n".into(),
            self.overview.size(),
            why::not_more(described, plan, upper_bound),
            why::unused(described, plan),
            format!("If lost: {}\n", self.loss.sentence(described)),
            match call.former {
                Some(_) => transfers_in_words(&self.transfers),
                None => first_transfers_in_words(&self.transfers),
            },
            self.known.missing(),
            self.overview.verdict(),
            self.certified(call, output),
            self.staged(&call.source.file),
            match output {
                Some(_) => String::new(),
                None => "Not written: with --out NEXT it is kept, for the next plan.\n".into(),
            },
        ]
        .concat()
    }

    /// The call that shows why no layout needs fewer transfers, with the names that the files will have;
    /// nothing where one may need fewer, or where there will be no file.
    fn certified(&self, call: &args::Plan, output: Option<&Output>) -> String {
        let is_optimal = self.plan.verdict == Verdict::Finished;
        let Some(output) = output.filter(|_| is_optimal) else {
            return String::new();
        };
        let mut line = format!("`dezghuri certify {}", shown(&call.source.file));
        if self.known.staged.is_some() {
            line += " --staged";
        }
        if let Some(former) = &call.former {
            let former = match files::are_one(former, output.path()) {
                true => output.old(),
                false => former.clone(),
            };
            line += &format!(" --former {}", shown(former));
        }
        line + &format!(" {}` shows why.\n", shown(output.path()))
    }

    /// What the history is to keep of it.
    fn to_keep<'m>(&'m self, output: &'m Output) -> Planned<'m> {
        Planned {
            out: output.path(),
            plan: self.plan,
            former: self.known.former.as_ref(),
            replaced: output.replaced(),
            described: self.described,
            text: self.known.text_sum,
            staged: self.known.staged,
        }
    }

    /// That the plan is one of boxes that the file has not yet.
    fn staged(&self, file: &Path) -> String {
        let count = match self.known.staged {
            None | Some(0) => return String::new(),
            Some(staged) => count(staged as u64, "staged change", "staged changes"),
        };
        let file = shown(file);
        format!(
            "Planned with {count}: `dezghuri apply {file}` writes what is staged into {file}.\n"
        )
    }

    fn json(&self, call: &args::Plan) -> Vec<(&'static str, Json)> {
        let (described, plan, transfers) = (self.described, self.plan, &self.transfers);
        let losses = described.cluster.losses();
        let gone = transfers.gone.iter().map(|(id, copies)| {
            Json::Object(vec![("id", (*id).into()), ("copies", (*copies).into())])
        });
        let sent = u64::from(plan.sent);
        let mut members = vec![
            ("command", "plan".into()),
            ("file", call.source.file.as_path().into()),
            ("staged", self.known.staged.into()),
            ("former", call.former.as_deref().into()),
            ("wanted", wanted(&described.cluster)),
            ("lost", Json::list(losses.none_left)),
            ("at_risk", Json::list(losses.one_left)),
            ("sent", sent.into()),
            ("sent_mb", (sent * u64::from(plan.size)).into()),
            ("dropped", transfers.all_dropped().into()),
            ("gone", transfers.all_gone().into()),
            ("gone_boxes", Json::list(gone)),
        ];
        members.extend(self.overview.json(Some(transfers)));
        members.extend(why::json(described, plan));
        let loss = self.loss.json(described);
        members.push(("loss", Json::Object(loss.into())));
        members.push(("rows", rows(plan)));
        members
    }
}

/// The place for the plan's layout; refused where that would replace another one unasked.
fn layout_output(plan: &Plan, call: &args::Plan, out: &Path) -> Result<Output, Failure> {
    let record = plan.to_record().map_err(unforeseen)?;
    let output = output(Kind::Layout, record, &call.source.file, out)?;
    let former = call.former.as_deref();
    let is_former = former.is_some_and(|former| files::are_one(former, out));
    if output.replaces() && !call.replace && !is_former {
        return Err(Failure::bad(format!(
            "{}: not written: there is a layout already. With --former {0} the plan starts from \
             it; with --replace it is replaced, and kept as {}",
            shown(out),
            shown(output.old())
        )));
    }
    Ok(output)
}
