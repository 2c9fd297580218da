//! `history`: the layouts that were written for a text file.

use super::Answer;
use crate::failure::Failure;
use crate::history::{History, KeptBox, Line, State};
use crate::json::Json;
use crate::labels;
use crate::table::{self, Column, Side};
use crate::terminal::shown;
use crate::units::{count, thousands};
use std::fs;
use std::path::{Path, PathBuf};

/// A layout of the history, as it is found now.
struct Listed<'a> {
    line: &'a Line,
    /// Where it was put.
    place: PathBuf,
    state: State,
    /// Names of replaced layouts that are this one.
    kept_as: Vec<PathBuf>,
    /// The version that it was planned from.
    from: Option<u32>,
    /// What changed since the layout before; nothing of the first.
    changes: Option<Vec<String>>,
}

pub fn run(file: &Path, warnings: &mut Vec<String>) -> Result<Answer, Failure> {
    let history = History::open(file)?;
    if !history.is_there() {
        return none(file, &history);
    }
    warnings.extend(history.faults_in_words());
    let listed = listed(&history);
    let path = history.path.as_path();
    let layouts = count(listed.len() as u64, "layout", "layouts");
    let heading = format!("{}: {layouts} of {}\n", shown(path), shown(file));
    let members = vec![
        ("command", "history".into()),
        ("file", file.into()),
        ("history", path.into()),
        ("layouts", Json::list(listed.iter().map(Listed::json))),
        ("damaged_lines", Json::list(history.faults().to_vec())),
    ];
    let text = match listed.is_empty() {
        true => heading,
        false => [heading, table_of(&listed), changes_of(&listed)].join("\n"),
    };
    Ok(Answer::with_json(text, members))
}

/// That there is no history yet; a text file that is not there either was named wrongly.
fn none(file: &Path, history: &History) -> Result<Answer, Failure> {
    let name = shown(file);
    fs::metadata(file).map_err(|error| Failure::bad(format!("{name}: {error}")))?;
    let text = format!(
        "{} is not there: it begins with the first layout that `dezghuri plan {name} --out NEXT` \
         writes.\n",
        shown(&history.path)
    );
    let members = vec![
        ("command", "history".into()),
        ("file", file.into()),
        ("history", Json::Null),
        ("layouts", Json::List(Vec::new())),
        ("damaged_lines", Json::List(Vec::new())),
    ];
    Ok(Answer::with_json(text, members))
}

fn listed(history: &History) -> Vec<Listed<'_>> {
    let kept = history.kept();
    let mut before: Option<&Line> = None;
    let mut all = Vec::new();
    for line in history.lines() {
        all.push(Listed {
            line,
            place: history.place(line),
            state: history.state(line),
            kept_as: kept.get(&line.sum).cloned().unwrap_or_default(),
            from: history.planned_from(line).map(|line| line.version),
            changes: before.map(|before| line.changes_since(before)),
        });
        before = Some(line);
    }
    all
}

fn table_of(all: &[Listed]) -> String {
    let date = |of: &Listed| format!("{} {}", of.line.date.day(), of.line.date.time());
    let from = |of: &Listed| of.from.map_or("-".into(), |version| version.to_string());
    let column = |side, head, cell: &dyn Fn(&Listed) -> String| {
        Column::new(side, head, all.iter().map(cell))
    };
    table::text(&[
        column(Side::Right, "version", &|of| of.line.version.to_string()),
        column(Side::Left, "planned (UTC)", &date),
        column(Side::Right, "from", &from),
        column(Side::Left, "layout", &|of| shown(&of.place)),
        column(Side::Right, "size MB", &|of| thousands(of.line.size.into())),
        column(Side::Right, "sent", &|of| thousands(of.line.sent.into())),
        column(Side::Left, "now", &|of| of.now()),
    ])
}

/// What changed, by version.
fn changes_of(all: &[Listed]) -> String {
    let columns = [
        Column::new(
            Side::Right,
            "version",
            all.iter().map(|of| of.line.version.to_string()),
        ),
        Column::new(
            Side::Left,
            "what changed",
            all.iter().map(Listed::changes_in_words),
        ),
    ];
    table::text(&columns)
}

impl Listed<'_> {
    /// Where it is now.
    fn now(&self) -> String {
        let kept: Vec<String> = self.kept_as.iter().map(shown).collect();
        match kept[..] {
            [] => self.state.name().into(),
            _ => format!(
                "{}, kept as {}",
                self.state.name(),
                labels::listed(kept.iter())
            ),
        }
    }

    fn changes_in_words(&self) -> String {
        let mut words = match &self.changes {
            None => format!("the first: {}", self.line.in_words()),
            Some(changes) if changes.is_empty() => "nothing: planned again".into(),
            Some(changes) => changes.join(", "),
        };
        if let Some(staged) = self.line.staged.filter(|staged| *staged > 0) {
            let staged = count(staged.into(), "staged change", "staged changes");
            words += &format!("; planned with {staged}");
        }
        if !self.line.is_finished {
            words += "; stopped: another layout needed fewer transfers";
        }
        words
    }

    fn json(&self) -> Json {
        let line = self.line;
        let sum = |sum: u64| format!("{sum:016x}");
        Json::Object(vec![
            ("version", line.version.into()),
            ("date", line.date.to_string().into()),
            ("layout", self.place.as_path().into()),
            ("state", self.state.name().into()),
            (
                "kept_as",
                Json::list(self.kept_as.iter().map(PathBuf::as_path)),
            ),
            ("sum", sum(line.sum).into()),
            ("former_version", self.from.into()),
            ("former_sum", line.former.map(sum).into()),
            ("replaced_sum", line.replaced.map(sum).into()),
            ("text_sum", sum(line.text).into()),
            ("staged", line.staged.into()),
            ("size_mb", line.size.into()),
            ("sent", line.sent.into()),
            ("optimal", line.is_finished.into()),
            ("wanted", wanted_json(line)),
            ("changes", self.changes.clone().map(Json::list).into()),
            ("boxes", Json::list(line.boxes.iter().map(box_json))),
        ])
    }
}

fn wanted_json(line: &Line) -> Json {
    Json::Object(vec![
        ("copies", line.copies.into()),
        ("zones", line.zones.into()),
        ("bits", line.bits.into()),
        ("partitions", line.partitions().into()),
    ])
}

fn box_json(kept: &KeptBox) -> Json {
    Json::Object(vec![
        ("id", kept.id.into()),
        ("zone", kept.zone.as_str().into()),
        ("capacity_mb", kept.capacity.into()),
        ("ceiling", labels::own_ceiling(kept.ceiling).into()),
    ])
}
