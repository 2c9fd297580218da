//! What the histories say of a layout that a call was given.

use super::line::Line;
use super::{sum_of, History};
use crate::failure::Failure;
use crate::terminal::shown;
use crate::NOTE;
use dezghuri::{Description, Plan};
use std::path::{Path, PathBuf};

/// A layout that a call was given.
pub struct Given<'a> {
    path: &'a Path,
    plan: &'a Plan,
    sum: u64,
    /// Whether it is told that there is a newer one.
    tells_age: bool,
    /// Whether a plan starts from it, or a list of moves: it should have boxes of the text then.
    is_former: bool,
}

/// A layout that was read, and its name.
type Named<'a> = (&'a Path, &'a Plan);

/// Tells what the history of a text file says of the layouts that a call was given: one that the boxes
/// hold, or from which a plan starts, and one that is shown, or that they are to hold.
pub fn tell_layouts(
    file: &Path,
    described: &Description,
    former: Option<Named>,
    layout: Option<Named>,
    warnings: &mut Vec<String>,
) {
    if former.is_none() && layout.is_none() {
        return;
    }
    let history = History::read(file, warnings);
    if let Some((path, plan)) = former {
        match layout {
            Some(layout) => history.tell_old(&Given::old(path, plan), layout, described, warnings),
            None => history.tell(&Given::former(path, plan), described, warnings),
        }
    }
    if let Some((path, plan)) = layout {
        history.tell(&Given::shown(path, plan), described, warnings);
    }
}

impl<'a> Given<'a> {
    /// One from which a plan starts.
    pub fn former(path: &'a Path, plan: &'a Plan) -> Given<'a> {
        Given::new(path, plan, true, true)
    }

    /// One that boxes hold, beside one that they are to hold.
    fn old(path: &'a Path, plan: &'a Plan) -> Given<'a> {
        Given::new(path, plan, false, true)
    }

    /// One that is shown or checked.
    fn shown(path: &'a Path, plan: &'a Plan) -> Given<'a> {
        Given::new(path, plan, true, false)
    }

    /// One of two that are compared, whatever their age.
    pub fn compared(path: &'a Path, plan: &'a Plan) -> Given<'a> {
        Given::new(path, plan, false, false)
    }

    fn new(path: &'a Path, plan: &'a Plan, tells_age: bool, is_former: bool) -> Given<'a> {
        Given {
            path,
            plan,
            sum: sum_of(plan),
            tells_age,
            is_former,
        }
    }
}

/// What is known of a layout.
enum Standing<'h> {
    /// It was written.
    Version(&'h Line),
    /// It was not, but this one was planned from it, or took its place.
    Before(&'h Line),
    /// It was written for another text file.
    Elsewhere(PathBuf),
    /// Its name is that of another one; with a line after that one that is not whole it may be its.
    Other {
        line: &'h Line,
        is_sure: bool,
    },
    Unknown,
}

impl History {
    /// Tells what there is to tell of the former layout of a plan. One that is not what was written under
    /// its name is refused, unless it is to be taken anyway.
    pub fn plan_from(
        &self,
        former: &Given,
        described: &Description,
        anyway: bool,
        warnings: &mut Vec<String>,
    ) -> Result<(), Failure> {
        let standing = self.standing(former);
        match standing {
            Standing::Other {
                line,
                is_sure: true,
            } if !anyway => return Err(self.not_planned_from(former, line)),
            _ => (),
        }
        let told = self.in_words(former, described, &standing);
        if let Some(nothing) = self.nothing_yet().filter(|_| told.is_empty()) {
            warnings.push(format!(
                "{NOTE}{nothing}: whether {} is whole and the newest is not known",
                shown(former.path)
            ));
        }
        warnings.extend(told);
        Ok(())
    }

    /// Tells what there is to tell of a layout; without a history, nothing of its own.
    pub fn tell(&self, given: &Given, described: &Description, warnings: &mut Vec<String>) {
        let standing = match self.has_begun() {
            true => self.standing(given),
            false => Standing::Unknown,
        };
        warnings.extend(self.in_words(given, described, &standing));
    }

    /// Tells what there is to tell of a layout that boxes hold: one that they are to hold should have been
    /// planned from that very one.
    fn tell_old(
        &self,
        old: &Given,
        new: Named,
        described: &Description,
        warnings: &mut Vec<String>,
    ) {
        let planned = self.with_sum(sum_of(new.1));
        let from = planned.and_then(|line| line.former);
        if from == Some(old.sum) {
            return;
        }
        let before = warnings.len();
        self.tell(old, described, warnings);
        if let (Some(planned), Some(from)) = (planned, from) {
            if warnings.len() == before {
                warnings.push(self.planned_from_another(planned, from, old, new.0));
            }
        }
    }

    fn standing(&self, given: &Given) -> Standing<'_> {
        if let Some(line) = self.with_sum(given.sum) {
            return Standing::Version(line);
        }
        let sum = Some(given.sum);
        let mut lines = self.lines();
        if let Some(line) = lines.find(|line| line.former == sum || line.replaced == sum) {
            return Standing::Before(line);
        }
        let others = self.others();
        if let Some(other) = others
            .iter()
            .find(|other| other.with_sum(given.sum).is_some())
        {
            return Standing::Elsewhere(other.file.clone());
        }
        let name = self.name_of(given.path);
        let mut lines = self.contents.lines.iter().rev();
        match lines.find(|(_, line)| line.name == name) {
            Some((number, line)) => Standing::Other {
                line,
                is_sure: self.faults().iter().all(|fault| fault < number),
            },
            None => Standing::Unknown,
        }
    }

    /// Lines for the owner, a line each.
    fn in_words(&self, given: &Given, described: &Description, standing: &Standing) -> Vec<String> {
        let (layout, history) = (shown(given.path), shown(&self.path));
        let strange = match given.is_former {
            true => of_other_boxes(described, &self.file, given.path, given.plan),
            false => None,
        };
        let told = match standing {
            Standing::Elsewhere(text) => return vec![self.of_other_text(given, described, text)],
            Standing::Version(_) | Standing::Before(_) if !given.tells_age => None,
            Standing::Version(line) => self.newer(given).map(|newer| {
                let (version, day) = (line.version, line.date.day());
                format!("{layout} is version {version} of {day}; {newer}")
            }),
            Standing::Before(line) => self.newer(given).map(|newer| {
                let version = line.version;
                format!(
                    "{layout} was there before version {version}, and has no line in {history}; {newer}"
                )
            }),
            Standing::Other { line, is_sure } => Some(match is_sure {
                true => format!("{layout} {}", not_as_written(line)),
                false => format!(
                    "{layout} {}; or a line of {history} that is damaged is its",
                    not_as_written(line)
                ),
            }),
            Standing::Unknown if strange.is_some() || !self.has_begun() => None,
            Standing::Unknown => Some(format!(
                "{history} does not know {layout}: whether it is whole and the newest is not known"
            )),
        };
        told.into_iter().chain(strange).collect()
    }

    /// The newest layout, where it is another one.
    fn newer(&self, given: &Given) -> Option<String> {
        let newest = self
            .lines()
            .last()
            .filter(|newest| newest.sum != given.sum)?;
        let (version, day) = (newest.version, newest.date.day());
        let place = shown(self.place(newest));
        Some(match self.is_here(newest) {
            true => format!("the newest is version {version}, {place}"),
            false => format!("version {version} was planned on {day} as {place}, and is not there"),
        })
    }

    fn of_other_text(&self, given: &Given, described: &Description, text: &Path) -> String {
        let (layout, text) = (shown(given.path), shown(text));
        match of_other_boxes(described, &self.file, given.path, given.plan) {
            None => format!("{NOTE}{layout} was planned for {text}"),
            Some(_) => format!(
                "{layout}: none of its boxes is in {}: it was planned for {text}",
                shown(&self.file)
            ),
        }
    }

    fn planned_from_another(&self, line: &Line, from: u64, old: &Given, new: &Path) -> String {
        let (new, old, version) = (shown(new), shown(old.path), line.version);
        let from = match self.with_sum(from) {
            Some(line) => format!("version {}, {}", line.version, shown(self.place(line))),
            None => "another layout".into(),
        };
        format!("{new}, version {version}, was planned from {from}, and not from {old}")
    }

    fn not_planned_from(&self, former: &Given, line: &Line) -> Failure {
        Failure::Bad(vec![
            format!(
                "{}: not planned from: it {}",
                shown(former.path),
                not_as_written(line)
            ),
            format!(
                "Bring back the layout that the boxes hold: `dezghuri history {}` says where each is. \
                 Where this is it, --damaged-anyway plans from it.",
                shown(&self.file)
            ),
        ])
    }
}

fn not_as_written(line: &Line) -> String {
    format!(
        "is not what was written there as version {} of {}: it is damaged, or another layout has \
         taken its place",
        line.version,
        line.date.day()
    )
}

/// A warning where a former layout has no box of this cluster: it may be that of another one.
pub fn of_other_boxes(
    described: &Description,
    file: &Path,
    former: &Path,
    plan: &Plan,
) -> Option<String> {
    let mut ids = plan.layout.rows().flat_map(|(_, ids)| ids);
    let shares_one = ids.any(|id| described.has(*id));
    (!shares_one).then(|| {
        format!(
            "{}: none of its boxes is in {}: is it the layout of another cluster?",
            shown(former),
            shown(file)
        )
    })
}
