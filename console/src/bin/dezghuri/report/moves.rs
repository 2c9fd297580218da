//! The moves: who sends to whom, and the steps one after another.

use super::facts::{Facts, Laid};
use super::html::{isolated, section};
use super::matrix;
use super::tables::table;
use crate::units::{count, thousands};
use dezghuri::{Step, StepKind};
use std::collections::BTreeMap;

/// Lines of one table of steps; several tables stand side by side.
const LINES: usize = 32;
/// More lines than these can be folded away.
const FEW: usize = 12;
/// What stands in the place of a source that there is not.
pub const NO_SOURCE: &str = "no source";
/// What the caption of a table with such sends says more.
pub const BACKUP: &str =
    " No source: no box has a copy, so that it has to be brought from a backup.";

/// What each box receives, from whom, and what it drops; nothing where nothing moves.
pub fn by_box(facts: &Facts, laid: &Laid) -> String {
    if laid.steps.is_empty() {
        return String::new();
    }
    let told = matrix::of_moves(facts, laid).unwrap_or_else(|| lines(facts, laid));
    section("moves", "Who sends to whom", &told)
}

/// A line for each box, where more receive than a matrix has room for.
fn lines(facts: &Facts, laid: &Laid) -> String {
    let nodes = facts.cluster().nodes.iter().enumerate();
    let lines: String = nodes
        .filter_map(|(b, node)| box_line(facts, laid, b, node.id))
        .collect();
    let sum = numbers(facts, laid, &laid.steps, "");
    let lines = format!("{lines}<tr class=\"sum\"><th>all</th><td></td>{sum}</tr>\n");
    let mut caption = format!(
        "What each box receives and from whom, and what it drops. Takes is in {}, once each partition has \
         grown to its size; the boxes that send are told by id, each with its copies.",
        facts.unit().name
    );
    if laid.steps.iter().any(has_no_source) {
        caption += BACKUP;
    }
    let heads = ["box", "name", "to receive", "takes", "from", "to drop"];
    table("cards of-moves", &caption, &heads, &lines)
}

fn box_line(facts: &Facts, laid: &Laid, b: usize, id: u32) -> Option<String> {
    let steps = laid.steps.iter().filter(|step| step.node == id);
    let steps: Vec<Step> = steps.copied().collect();
    if steps.is_empty() {
        return None;
    }
    let name = isolated(&facts.described.labels[b].name);
    let numbers = numbers(facts, laid, &steps, &senders(&steps));
    Some(format!("<tr><th>{id}</th><td>{name}</td>{numbers}</tr>\n"))
}

/// The cells of a line with its numbers, and who sends between them.
fn numbers(facts: &Facts, laid: &Laid, steps: &[Step], from: &str) -> String {
    let received = steps.iter().filter(|step| step.kind == StepKind::Send);
    let received = received.count() as u64;
    let cell = |text: String| format!("<td class=\"n\">{text}</td>");
    [
        cell(thousands(received)),
        cell(facts.unit().of(received * laid.size)),
        format!("<td>{from}</td>"),
        cell(thousands(steps.len() as u64 - received)),
    ]
    .concat()
}

/// The boxes that send, each with its copies; last, those that no box can send.
fn senders(steps: &[Step]) -> String {
    let mut copies: BTreeMap<u32, u64> = BTreeMap::new();
    for source in steps.iter().filter_map(|step| step.source) {
        *copies.entry(source).or_default() += 1;
    }
    let sender = |(id, copies): (&u32, &u64)| format!("{id} ({copies})");
    let mut senders: Vec<String> = copies.iter().map(sender).collect();
    let none = steps.iter().filter(|step| has_no_source(step)).count();
    if none > 0 {
        senders.push(format!("<em>{NO_SOURCE} ({none})</em>"));
    }
    senders.join(", ")
}

fn has_no_source(step: &Step) -> bool {
    step.kind == StepKind::Send && step.source.is_none()
}

/// The steps, a line for each partition that moves; nothing where none does.
pub fn by_partition(laid: &Laid) -> String {
    let mut lines = Vec::new();
    let mut before = 0;
    for steps in laid.steps.chunk_by(|a, b| a.partition == b.partition) {
        lines.push(partition_line(before, steps));
        before += steps.len();
    }
    if lines.is_empty() {
        return String::new();
    }
    let heads = ["steps", "partition", "send to", "from", "drop at"];
    let tables = lines.chunks(LINES);
    let tables = tables.map(|lines| table("steps-of", "", &heads, &lines.concat()));
    let tables: String = tables.collect();
    let many = format!(
        "<div class=\"many\" style=\"--least:{}em\">\n{tables}</div>\n",
        width(laid)
    );
    let list = match lines.len() > FEW {
        true => format!(
            "<details open=\"open\">\n<summary>{}, {}</summary>\n{many}</details>\n",
            count(lines.len() as u64, "partition", "partitions"),
            count(before as u64, "step", "steps")
        ),
        false => many,
    };
    section("steps", "The steps", &format!("<p>{WORDS}</p>\n{list}"))
}

/// What the list is, and what an owner may rely on.
const WORDS: &str = "One after another: of each partition first the sends, one to each box that is named, then \
                     the drops. Stop after any step: each partition then has all its old copies that are left, \
                     or all its new ones. <code>dezghuri moves</code> lists each step on a line, and with \
                     <code>--done</code> what is left after some of them.";

/// The steps of one partition, numbered from those before it on.
fn partition_line(before: usize, steps: &[Step]) -> String {
    let ids = |kind: StepKind| {
        let steps = steps.iter().filter(|step| step.kind == kind);
        let ids: Vec<String> = steps.map(|step| step.node.to_string()).collect();
        ids.join(" ")
    };
    let first = steps[0];
    let from = match (first.kind, first.source) {
        (StepKind::Drop, _) => String::new(),
        (StepKind::Send, Some(source)) => source.to_string(),
        (StepKind::Send, None) => format!("<em>{NO_SOURCE}</em>"),
    };
    let numbers = match steps.len() {
        1 => format!("{}", before + 1),
        many => format!("{}\u{2013}{}", before + 1, before + many),
    };
    format!(
        "<tr><th>{numbers}</th><td>{}</td><td>{}</td><td>{from}</td><td>{}</td></tr>\n",
        first.partition,
        ids(StepKind::Send),
        ids(StepKind::Drop)
    )
}

/// How wide a table of steps must be for its longest lines, in letters' heights.
fn width(laid: &Laid) -> usize {
    let letters = |kind: StepKind| {
        let lines = laid.steps.chunk_by(|a, b| a.partition == b.partition);
        let letters = |steps: &[Step]| {
            let steps = steps.iter().filter(|step| step.kind == kind);
            steps.map(|step| step.node.to_string().len() + 1).sum()
        };
        lines.map(letters).max().unwrap_or(0).max("send to".len())
    };
    let sources = laid.steps.iter().filter_map(|step| step.source);
    let source = sources.map(|id| id.to_string().len()).max().unwrap_or(0);
    let source = source.max(NO_SOURCE.len());
    14 + (letters(StepKind::Send) + letters(StepKind::Drop) + source) * 11 / 20
}
