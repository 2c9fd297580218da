//! Who sends to whom, as a matrix: a line for each box that sends, a column for each that receives.

use super::facts::{Facts, Laid};
use super::moves::{BACKUP, NO_SOURCE};
use super::tables::called;
use crate::units::{count, thousands};
use dezghuri::{Step, StepKind};
use std::collections::BTreeSet;

/// Columns of more boxes do not fit beside one another.
const MOST: usize = 8;

/// The copies that are sent, and to which boxes.
struct Matrix<'a> {
    facts: &'a Facts<'a>,
    laid: &'a Laid,
    sends: Vec<&'a Step>,
    /// The boxes that receive, by id.
    columns: BTreeSet<u32>,
}

/// The matrix and what is dropped, or nothing where too many boxes receive.
pub fn of_moves(facts: &Facts, laid: &Laid) -> Option<String> {
    let sends = laid.steps.iter();
    let sends: Vec<&Step> = sends.filter(|step| step.kind == StepKind::Send).collect();
    let columns: BTreeSet<u32> = sends.iter().map(|step| step.node).collect();
    if columns.len() > MOST {
        return None;
    }
    let sent = match sends.is_empty() {
        true => "<p>No copy has to be sent.</p>\n".into(),
        false => Matrix {
            facts,
            laid,
            sends,
            columns,
        }
        .table(),
    };
    Some(format!(
        "{sent}<p class=\"drops\">To drop: {}.</p>\n",
        drops(laid)
    ))
}

impl Matrix<'_> {
    fn table(&self) -> String {
        let sources: BTreeSet<u32> = self.sends.iter().filter_map(|step| step.source).collect();
        let mut lines: String = sources.into_iter().map(|id| self.box_line(id)).collect();
        let mut caption = format!(
            "How many copies go from which box to which, and what these take in {} once each partition has grown \
             to its size.",
            self.facts.unit().name
        );
        let lost = |step: &Step| step.source.is_none();
        if self.sends.iter().any(|step| lost(step)) {
            let head = format!("<th scope=\"row\"><em>{NO_SOURCE}</em></th>");
            let number = |copies: u64| format!("<em>{}</em>", thousands(copies));
            lines += &format!("<tr>{head}{}</tr>\n", self.cells(lost, number));
            caption += BACKUP;
        }
        let sums = self.cells(|_| true, thousands);
        // As a caption of the table the words would be no wider than it, and it is narrow.
        format!(
            "<figure>\n<figcaption>{caption}</figcaption>\n<table class=\"cards matrix\">\n\
             <thead><tr><th scope=\"col\">from</th>{}<th scope=\"col\">all</th></tr></thead>\n\
             <tbody>\n{lines}<tr class=\"sum\"><th scope=\"row\">all</th>{sums}</tr>\n</tbody>\n\
             </table>\n</figure>\n",
            self.heads()
        )
    }

    /// The heads over the boxes that receive.
    fn heads(&self) -> String {
        let head = |id: &u32| format!("<th scope=\"col\">to {}</th>", called(self.facts, *id));
        self.columns.iter().map(head).collect()
    }

    fn box_line(&self, id: u32) -> String {
        let cells = self.cells(|step| step.source == Some(id), thousands);
        format!(
            "<tr><th scope=\"row\">{}</th>{cells}</tr>\n",
            called(self.facts, id)
        )
    }

    /// The cells of a line of such sends, a sum at its end; each has its head with it for narrow screens.
    fn cells(&self, is_of: impl Fn(&Step) -> bool, number: impl Fn(u64) -> String) -> String {
        let line = self.sends.iter().filter(|step| is_of(step));
        let line: Vec<u32> = line.map(|step| step.node).collect();
        let cell = |head: &str, copies: usize| match copies as u64 {
            0 => "<td></td>".into(),
            copies => format!(
                "<td class=\"n\" data-head=\"{head}\">{} <span>{}</span></td>",
                number(copies),
                self.facts.unit().of(copies * self.laid.size)
            ),
        };
        let column = |id: &u32| {
            let copies = line.iter().filter(|to| *to == id);
            cell(&format!("to {id}"), copies.count())
        };
        let columns: String = self.columns.iter().map(column).collect();
        columns + &cell("all", line.len())
    }
}

/// What each box drops, in words: most of those that drop receive nothing, and have no column.
fn drops(laid: &Laid) -> String {
    let drops = laid.steps.iter();
    let drops = drops.filter(|step| step.kind == StepKind::Drop);
    let mut places: Vec<u32> = drops.map(|step| step.node).collect();
    places.sort_unstable();
    let parts = places.chunk_by(|a, b| a == b);
    let parts = parts.map(|part| (part[0], part.len() as u64));
    let mut words = Vec::new();
    for (id, copies) in parts {
        words.push(match words.is_empty() {
            true => format!("{} at box {id}", count(copies, "copy", "copies")),
            false => format!("{} at box {id}", thousands(copies)),
        });
    }
    match words.len() {
        0 => "none".into(),
        1 => words.remove(0),
        _ => format!(
            "{}; {} in all",
            words.join(", "),
            thousands(places.len() as u64)
        ),
    }
}
