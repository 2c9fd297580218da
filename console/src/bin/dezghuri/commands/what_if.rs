//! `what-if`: what changes of the boxes would bring, each alone and all together.

use super::{heading, start_from, wanted, Answer};
use crate::args::Change;
use crate::changes::{Step, Tried};
use crate::explain;
use crate::failure::{Failure, REFUSED};
use crate::files;
use crate::history::tell_layouts;
use crate::json::Json;
use crate::table::{self, Column, Side};
use crate::terminal::shown;
use crate::units::{thousands, Unit};
use dezghuri::{Description, Refused, ENOUGH};
use std::path::Path;

/// What a plan would come to.
#[derive(Clone, Copy)]
struct Outcome {
    /// Megabytes of a partition.
    size: u64,
    /// Megabytes of all data.
    data: u64,
    /// Copies that are not where the former layout has them.
    sent: u64,
    /// Partitions of which no copy would be left.
    lost: u64,
}

/// A line of the table.
struct Line {
    what: String,
    change: Json,
    outcome: Result<Outcome, (String, Refused)>,
}

struct Table {
    lines: Vec<Line>,
    has_former: bool,
    unit: Unit,
}

pub fn run(
    file: &Path,
    former: Option<&Path>,
    changes: &[Change],
    warnings: &mut Vec<String>,
) -> Result<Answer, Failure> {
    let text = files::read_text(file)?;
    let mut known = files::described(file, &text)?;
    warnings.extend(known.warnings.iter().map(|slip| slip.told_of(file)));
    if let Some(former) = former {
        let last = start_from(&mut known, file, former)?;
        tell_layouts(file, &known, Some((former, &last)), None, warnings);
    }
    let asked = Tried::new(&text, &known, changes, warnings)?;
    let table = Table {
        lines: lines(&asked)?,
        has_former: former.is_some(),
        unit: unit(&asked),
    };
    let has_layout = table.lines.last().is_some_and(|line| line.outcome.is_ok());
    let report = heading(&shown(file), &known) + &table.text();
    let members = vec![
        ("command", "what-if".into()),
        ("file", file.into()),
        ("former", former.into()),
        ("wanted", wanted(&known.cluster)),
        ("lines", table.json()),
    ];
    Ok(Answer {
        status: if has_layout { 0 } else { REFUSED },
        ..Answer::with_json(report, members)
    })
}

/// The cluster as it is, each change alone, and all together where there are several.
fn lines(asked: &Tried) -> Result<Vec<Line>, Failure> {
    let as_it_is = &asked.as_it_is;
    let kind = |kind: &str| Json::Object(vec![("kind", kind.into())]);
    let mut lines = vec![Line {
        what: "as it is".into(),
        change: kind("none"),
        outcome: tried(as_it_is),
    }];
    for step in &asked.steps {
        lines.push(Line {
            what: step.in_words(as_it_is),
            change: step.json(),
            outcome: tried(&changed(as_it_is, std::slice::from_ref(step))?),
        });
    }
    if asked.steps.len() > 1 {
        lines.push(Line {
            what: "all together".into(),
            change: kind("all"),
            outcome: tried(&changed(as_it_is, &asked.steps)?),
        });
    }
    Ok(lines)
}

fn changed(as_it_is: &Description, steps: &[Step]) -> Result<Description, Failure> {
    let mut described = as_it_is.clone();
    for step in steps {
        step.make(&mut described).map_err(Failure::bad)?;
    }
    Ok(described)
}

fn tried(described: &Description) -> Result<Outcome, (String, Refused)> {
    let cluster = &described.cluster;
    let plan = cluster
        .plan(ENOUGH)
        .map_err(|refused| (explain::no_plan(described, refused), refused))?;
    Ok(Outcome {
        size: plan.size.into(),
        data: u64::from(plan.size) << plan.bits,
        sent: plan.sent.into(),
        lost: cluster.losses().none_left.len() as u64,
    })
}

/// One unit for all lines, that of the boxes that are there and of those that are added.
fn unit(asked: &Tried) -> Unit {
    let nodes = asked.as_it_is.cluster.nodes.iter();
    let added = asked.steps.iter().filter_map(|step| match step {
        Step::Add(node, _, _) => Some(node),
        _ => None,
    });
    Unit::for_all(nodes.chain(added).map(|node| node.capacity.into()))
}

impl Table {
    fn text(&self) -> String {
        let unit = self.unit;
        let mut columns = vec![
            Column::new(Side::Left, "", self.lines.iter().map(|l| l.what.clone())),
            self.column("size MB", &|o| thousands(o.size)),
            Column::new(
                Side::Right,
                "gain MB",
                self.lines.iter().map(|l| self.gain_in_words(l)),
            ),
            self.column(&format!("data {}", unit.name), &|o| unit.of(o.data)),
        ];
        if self.has_former {
            let head = format!("to send {}", unit.name);
            columns.push(self.column("to send", &|o| thousands(o.sent)));
            columns.push(self.column(&head, &|o| unit.of(o.sent * o.size)));
        }
        let is_lost = |line: &Line| line.outcome.as_ref().is_ok_and(|o| o.lost > 0);
        let has_lost = self.lines.iter().any(is_lost);
        if has_lost {
            columns.push(self.column("lost", &|o| thousands(o.lost)));
        }
        table::text(&columns) + "\n" + &self.no_layouts() + &self.remarks(has_lost)
    }

    fn column(&self, head: &str, cell: &dyn Fn(&Outcome) -> String) -> Column {
        let cells = self.lines.iter().map(|line| match &line.outcome {
            Ok(outcome) => cell(outcome),
            Err(_) => "-".into(),
        });
        Column::new(Side::Right, head, cells)
    }

    /// Megabytes that a partition may grow larger than it may now.
    fn gain(&self, line: &Line) -> Option<i64> {
        let size = |line: &Line| line.outcome.as_ref().ok().map(|o| o.size as i64);
        Some(size(line)? - size(self.lines.first()?)?)
    }

    fn gain_in_words(&self, line: &Line) -> String {
        match self.gain(line) {
            None => "-".into(),
            Some(0) => "0".into(),
            Some(gain) => {
                let sign = if gain > 0 { '+' } else { '-' };
                format!("{sign}{}", thousands(gain.unsigned_abs()))
            }
        }
    }

    /// Why lines have no numbers.
    fn no_layouts(&self) -> String {
        let line = |line: &Line| match &line.outcome {
            Ok(_) => String::new(),
            Err((why, _)) => format!("{}: {why}.\n", line.what),
        };
        self.lines.iter().map(line).collect()
    }

    fn remarks(&self, has_lost: bool) -> String {
        let mut text = String::new();
        if self.has_former {
            text += "To send: copies that the former layout has not there, each of the size of its line.\n";
        }
        if has_lost {
            text += "Lost: partitions that would have no surviving copy.\n";
        }
        text + "Nothing is written: change the file, and plan it.\n"
    }

    fn json(&self) -> Json {
        let line = |line: &Line| {
            let outcome = line.outcome.as_ref();
            let number = |of: &dyn Fn(&Outcome) -> u64| outcome.ok().map(of);
            let sent = |of: &dyn Fn(&Outcome) -> u64| number(of).filter(|_| self.has_former);
            let refusal = outcome.err().map(|(_, refused)| refused.refusal.number());
            let why = outcome.err().map(|(why, _)| why.as_str());
            Json::Object(vec![
                ("change", line.change.clone()),
                ("size_mb", number(&|o| o.size).into()),
                ("gain_mb", self.gain(line).into()),
                ("data_mb", number(&|o| o.data).into()),
                ("sent", sent(&|o| o.sent).into()),
                ("sent_mb", sent(&|o| o.sent * o.size).into()),
                ("lost", sent(&|o| o.lost).into()),
                ("refusal", refusal.into()),
                ("why", why.into()),
            ])
        };
        Json::list(self.lines.iter().map(line))
    }
}
