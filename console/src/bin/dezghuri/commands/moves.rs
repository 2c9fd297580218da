//! `moves`: the transfers from one layout to another, one after another.

use super::{describe, not_valid, unforeseen, Answer};
use crate::args;
use crate::failure::Failure;
use crate::files;
use crate::history::tell_layouts;
use crate::json::Json;
use crate::labels;
use crate::losses;
use crate::table::{self, Column, Side};
use crate::terminal::shown;
use crate::units::{count, thousands, Unit};
use dezghuri::{Description, Held, Plan, Step, StepKind};
use std::collections::BTreeSet;

/// The steps that are left, and what the owner calls things.
struct Listed<'a> {
    call: &'a args::Moves,
    described: &'a Description,
    /// Megabytes of a copy: the size of the new layout.
    size: u64,
    /// How many steps there are, those that are done included.
    all: usize,
    left: Vec<Line>,
}

/// A step of the list.
struct Line {
    /// Counted from 1 on, steps that are done included.
    number: usize,
    step: Step,
    /// Copies that are sent once it is done.
    sent: u64,
}

pub fn run(call: &args::Moves, warnings: &mut Vec<String>) -> Result<Answer, Failure> {
    let known = describe(&call.source, Some(&call.old), warnings)?;
    let new = files::read_plan(&call.new)?;
    let (file, described) = (&call.source.file, &known.described);
    let old = known.former.as_ref().map(|old| (call.old.as_path(), old));
    tell_layouts(file, described, old, Some((&call.new, &new)), warnings);
    let cluster = &known.described.cluster;
    // At its own size and not at 1, as the proved list asks: a layout that fills a disk is none to go to.
    let checked = cluster.check(&new.layout, new.size);
    checked.map_err(|refused| not_valid(&call.new, &known, &new, refused))?;
    let listed = Listed::new(call, &known.described, &new)?;
    let text = match (listed.left.is_empty(), call.by_box) {
        (true, _) => listed.nothing_left(),
        (false, true) => listed.by_box(),
        (false, false) => listed.in_order(),
    };
    Ok(Answer::with_json(text, listed.json()))
}

impl<'a> Listed<'a> {
    /// The list of the proved function; after some steps, made afresh from what is held then.
    fn new(
        call: &'a args::Moves,
        described: &'a Description,
        new: &Plan,
    ) -> Result<Listed<'a>, Failure> {
        let cluster = &described.cluster;
        let mut held = Held::from(&cluster.former);
        let mut steps = cluster.moves(&held, &new.layout).map_err(unforeseen)?;
        let (all, done) = (steps.len(), call.done.unwrap_or(0));
        if done > all {
            return Err(too_many(call, all));
        }
        let mut sent = sends(&steps[..done]);
        if done > 0 {
            let after = cluster.held_after(&held, &steps[..done]);
            held = after.expect("eight ids of each of two layouts are sixteen at most");
            steps = cluster.moves(&held, &new.layout).map_err(unforeseen)?;
        }
        let line = |(number, step): (usize, Step)| {
            sent += sends(&[step]);
            Line { number, step, sent }
        };
        let left = (done + 1..).zip(steps).map(line).collect();
        Ok(Listed {
            call,
            described,
            size: new.size.into(),
            all,
            left,
        })
    }

    /// That the new layout is held.
    fn nothing_left(&self) -> String {
        let new = shown(&self.call.new);
        match self.all {
            0 => format!("Nothing has to be moved: the boxes hold {new} already.\n"),
            1 => format!("The one step is done: the boxes hold {new}.\n"),
            all => format!(
                "All {} steps are done: the boxes hold {new}.\n",
                thousands(all as u64)
            ),
        }
    }

    fn in_order(&self) -> String {
        let unit = self.unit();
        let sent = |line: &Line| match line.step.kind {
            StepKind::Send => unit.of(line.sent * self.size),
            StepKind::Drop => String::new(),
        };
        let what = |line: &Line| self.step_in_words(&line.step);
        let columns = [
            numbers(&self.left),
            Column::new(Side::Left, "what is done", self.left.iter().map(what)),
            Column::new(
                Side::Right,
                &format!("sent {}", unit.name),
                self.left.iter().map(sent),
            ),
        ];
        [self.heading(), table::text(&columns), self.closing()].concat()
    }

    /// A list for each box that gets or drops copies.
    fn by_box(&self) -> String {
        let mut text = self.heading();
        let nodes = &self.described.cluster.nodes;
        let mut idle = Vec::new();
        for id in nodes.iter().map(|node| node.id) {
            match self.of_box(id)[..] {
                [] => idle.push(id),
                ref lines => text += &self.box_list(id, lines),
            }
        }
        if !idle.is_empty() {
            text += &format!(
                "Nothing to do at {}.\n",
                labels::boxes(self.described, &idle)
            );
        }
        text + "A box goes through its list by the numbers; before it drops a partition, the steps with lower \
                numbers\nhave to be done at all boxes.\n"
            + &self.closing()
    }

    fn box_list(&self, id: u32, lines: &[&Line]) -> String {
        let what = |line: &&Line| match line.step.kind {
            StepKind::Send => format!(
                "receive partition {} from {}",
                line.step.partition,
                self.source(&line.step)
            ),
            StepKind::Drop => format!("drop partition {}", line.step.partition),
        };
        let columns = [
            numbers(lines.iter().copied()),
            Column::new(Side::Left, "what is done", lines.iter().map(what)),
        ];
        let (received, dropped) = received_and_dropped(lines);
        format!(
            "Box {}: {} to receive, {} {}; {} to drop\n\n{}\n",
            labels::in_words(self.described, id),
            count(received, "copy", "copies"),
            self.unit().of(received * self.size),
            self.unit().name,
            count(dropped, "copy", "copies"),
            table::text(&columns)
        )
    }

    fn step_in_words(&self, step: &Step) -> String {
        let (partition, node) = (step.partition, labels::named(self.described, step.node));
        match step.kind {
            StepKind::Send => {
                let source = self.source(step);
                format!("send partition {partition} to {node} from {source}")
            }
            StepKind::Drop => format!("drop partition {partition} at {node}"),
        }
    }

    /// Where a copy comes from.
    fn source(&self, step: &Step) -> String {
        match step.source {
            Some(id) => labels::named(self.described, id),
            None => "a backup: no box has a copy".into(),
        }
    }

    fn heading(&self) -> String {
        let (old, new) = (shown(&self.call.old), shown(&self.call.new));
        let all = count(self.all as u64, "step", "steps");
        let left = thousands(self.left.len() as u64);
        let mut text = self.lost_lines();
        match self.call.done {
            None => text += &format!("From {old} to {new}: {all}"),
            Some(_) => text += &format!("From {old} to {new}: {left} of {all} left"),
        }
        text += &format!(", {} MB a copy\n", thousands(self.size));
        if let Some(done) = self.call.done {
            text += &format!(
                "Made afresh from what the boxes hold after {}: the steps are those that were left, \
                 but a copy\nmay come from another box than before.\n",
                count(done as u64, "step", "steps")
            );
        }
        text + "\n"
    }

    /// The partitions that no box can send, above all else.
    fn lost_lines(&self) -> String {
        let lost = self.lost();
        if lost.is_empty() {
            return String::new();
        }
        let all = self.described.cluster.partitions();
        format!(
            "Lost: {} of {} {} no copy on any box: {}.\n\
             No box can send them: bring them from a backup, or bring back a box that held them. Once \
             one box\nhas a partition, the others can take it from there.\n\n",
            lost.len(),
            count(all, "partition", "partitions"),
            losses::has(&lost),
            losses::first_few(&lost)
        )
    }

    /// What is left in all, and what the owner may rely on.
    fn closing(&self) -> String {
        let lines: Vec<&Line> = self.left.iter().collect();
        let (received, dropped) = received_and_dropped(&lines);
        let args::Moves { old, new, .. } = self.call;
        format!(
            "\n{}: {} to send, {} {} once each partition has grown to its size; {} to drop.\n\
             Stop after any step: each partition then has all its old copies that are left, or all its \
             new ones.\n`dezghuri moves {} {} {} --done N` tells what is left after N steps.\n\
             Room: whether the disks have room for old and new copies meanwhile is not looked at.\n",
            if self.call.done.is_some() {
                "Left"
            } else {
                "In all"
            },
            count(received, "copy", "copies"),
            self.unit().of(received * self.size),
            self.unit().name,
            count(dropped, "copy", "copies"),
            shown(&self.call.source.file),
            shown(old),
            shown(new),
        )
    }

    fn json(&self) -> Vec<(&'static str, Json)> {
        let lines: Vec<&Line> = self.left.iter().collect();
        let (received, dropped) = received_and_dropped(&lines);
        let call = self.call;
        vec![
            ("command", "moves".into()),
            ("file", call.source.file.as_path().into()),
            ("old", call.old.as_path().into()),
            ("new", call.new.as_path().into()),
            ("new_size_mb", self.size.into()),
            ("steps", self.all.into()),
            ("done", call.done.into()),
            ("received", received.into()),
            ("received_mb", (received * self.size).into()),
            ("dropped", dropped.into()),
            ("lost", Json::list(self.lost())),
            (
                "moves",
                Json::list(lines.iter().map(|line| self.line_json(line))),
            ),
            ("boxes", Json::list(self.boxes_json())),
        ]
    }

    fn line_json(&self, line: &Line) -> Json {
        let Step {
            kind,
            partition,
            node,
            source,
        } = line.step;
        Json::Object(vec![
            ("step", line.number.into()),
            ("kind", kind_name(kind).into()),
            ("partition", partition.into()),
            ("id", node.into()),
            ("source", source.into()),
            ("sent_mb", (line.sent * self.size).into()),
        ])
    }

    fn boxes_json(&self) -> Vec<Json> {
        let nodes = self.described.cluster.nodes.iter();
        let of_box = |id: u32| {
            let lines = self.of_box(id);
            let (received, dropped) = received_and_dropped(&lines);
            labels::json(self.described, id)
                .with("received", received)
                .with("received_mb", received * self.size)
                .with("dropped", dropped)
                .with("steps", Json::list(lines.iter().map(|line| line.number)))
        };
        nodes.map(|node| of_box(node.id)).collect()
    }

    /// The steps at a box.
    fn of_box(&self, id: u32) -> Vec<&Line> {
        let lines = self.left.iter();
        lines.filter(|line| line.step.node == id).collect()
    }

    /// Partitions that have to come from elsewhere.
    fn lost(&self) -> Vec<u8> {
        let steps = self.left.iter().map(|line| line.step);
        let lost = steps.filter(|step| step.kind == StepKind::Send && step.source.is_none());
        let lost: BTreeSet<u8> = lost.map(|step| step.partition).collect();
        lost.into_iter().collect()
    }

    /// A unit in which each copy that is sent adds to the sum.
    fn unit(&self) -> Unit {
        Unit::for_all([self.size].into_iter())
    }
}

fn too_many(call: &args::Moves, all: usize) -> Failure {
    let args::Moves { old, new, .. } = call;
    let (old, new) = (shown(old), shown(new));
    let there_are = match all {
        1 => "there is 1 step".into(),
        _ => format!("there are {} steps", thousands(all as u64)),
    };
    let done = call.done.unwrap_or(0) as u64;
    Failure::bad(format!(
        "--done {}: {there_are} from {old} to {new}, and no more",
        thousands(done)
    ))
}

fn kind_name(kind: StepKind) -> &'static str {
    match kind {
        StepKind::Send => "send",
        StepKind::Drop => "drop",
    }
}

/// The copies that these steps send.
fn sends(steps: &[Step]) -> u64 {
    let sends = steps.iter().filter(|step| step.kind == StepKind::Send);
    sends.count() as u64
}

fn received_and_dropped(lines: &[&Line]) -> (u64, u64) {
    let steps: Vec<Step> = lines.iter().map(|line| line.step).collect();
    let received = sends(&steps);
    (received, steps.len() as u64 - received)
}

fn numbers<'l>(lines: impl IntoIterator<Item = &'l Line>) -> Column {
    let numbers = lines.into_iter().map(|line| thousands(line.number as u64));
    Column::new(Side::Right, "step", numbers)
}
