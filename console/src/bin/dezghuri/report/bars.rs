//! The boxes: a bar for each disk, all on one scale.

use super::facts::{Cell, Facts, Laid, Row};
use super::html::{self, name, red_where, section};
use crate::labels;
use crate::units::{count, percent, thousands, Unit};

/// So many grid lines at most, beside that at 0.
const MOST_TICKS: u64 = 5;

/// The length of the longest bar, in megabytes.
struct Scale {
    whole: u64,
    unit: Unit,
}

/// What the part of a disk that stays free is called.
const FREE: (&str, &str) = ("free", "stays free");

/// What copies are called that the layout has on boxes which the file does not have.
pub const ASTRAY: (&str, &str) = ("astray", "on a box that is not there");

/// What the line across a bar is.
const LINE: &str =
    "The line across a bar is the ceiling of its box, the most copies that it may hold.";

/// A bar: parts from the left, each with its class and its megabytes.
struct Bar {
    parts: Vec<(&'static str, u64)>,
    /// Where the ceiling of its box lies, if that is on the disk.
    ceiling: Option<u64>,
    /// Where the disk ends, if more is to lie on it than may.
    end: Option<u64>,
    title: String,
}

/// The bars of a cluster with a layout, those of boxes that are gone below.
pub fn of_layout(facts: &Facts, laid: &Laid) -> String {
    let away = laid.rows.gone.iter().map(|row| parts_away(laid, row));
    let away = away.map(|parts| parts.iter().map(|(_, megabytes)| megabytes).sum());
    let here = laid.rows.here.iter().map(|row| row.copies() * laid.size);
    let scale = Scale::new(facts, away.chain(here).max().unwrap_or(0));
    let mut body = zones(facts, |b| {
        line(
            facts,
            b,
            &disk(facts, laid, b),
            &figures(facts, laid, b),
            &scale,
        )
    });
    body += &gone(laid, &scale);
    body += &axis(&scale);
    let caption = match facts.has_former() {
        true => {
            "Each bar is a disk: what it keeps, what it receives, what is unused, and the \
                 sixteenth that stays free. At its right: copies, share of the disk, +\u{a0}received, \
                 \u{2212}\u{a0}dropped."
        }
        false => {
            "Each bar is a disk: what it holds, what is unused, and the sixteenth that stays \
                  free. At its right: copies, share of the disk."
        }
    };
    let caption = match facts.has_ceilings() {
        true => &format!("{caption} {LINE}"),
        false => caption,
    };
    let legend = legend(&parts(facts, laid), facts.has_ceilings());
    figure(&legend, caption, &body)
}

/// The bars of a cluster that has no layout.
pub fn of_disks(facts: &Facts) -> String {
    let scale = Scale::new(facts, 0);
    let body = zones(facts, |b| {
        let (capacity, usable) = disk_space(facts, b);
        let free = capacity - usable;
        let bar = Bar {
            parts: vec![("unused", usable), ("free", free)],
            ceiling: None,
            end: None,
            title: title(facts, b, &[("disk", capacity), ("free", free)]),
        };
        let figures = format!(
            "<span>{} {}</span>",
            scale.unit.of(capacity),
            scale.unit.name
        );
        line(facts, b, &bar, &figures, &scale)
    });
    figure(
        &legend(&[("unused", "may be filled"), FREE], false),
        "Each bar is a disk, of which a sixteenth stays free.",
        &(body + &axis(&scale)),
    )
}

fn figure(legend: &str, caption: &str, body: &str) -> String {
    let body = format!(
        "<figure>\n<figcaption>{caption}</figcaption>\n{legend}<div class=\"bars\">\n{body}</div>\n</figure>\n"
    );
    section("boxes", "The boxes", &body)
}

/// A band for each zone, with a line for each of its boxes.
pub fn zones(facts: &Facts, line: impl Fn(usize) -> String) -> String {
    let zones = facts.zones().into_iter();
    let bands = zones.map(|(zone, boxes)| {
        let lines: String = boxes.into_iter().map(&line).collect();
        band(&html::isolated(zone), "", &lines)
    });
    bands.collect()
}

/// A band with its name at the left.
pub fn band(name: &str, class: &str, lines: &str) -> String {
    format!(
        "<div class=\"zone{class}\"><div class=\"band\">{name}</div><div class=\"rows\">\n{lines}</div></div>\n"
    )
}

/// Where a box is told by id and name; it leads to its line in the table.
pub fn label(facts: &Facts, b: usize) -> String {
    label_with(facts, b, "")
}

/// The same, with something after the name.
fn label_with(facts: &Facts, b: usize, more: &str) -> String {
    let (id, label) = (facts.cluster().nodes[b].id, &facts.described.labels[b]);
    format!(
        "<a class=\"label\" href=\"#box-{id}\"><span class=\"id\">{id}</span> {}{more}</a>",
        html::label(&label.name)
    )
}

fn line(facts: &Facts, b: usize, bar: &Bar, figures: &str, scale: &Scale) -> String {
    format!(
        "<div class=\"row\">{}{}<span class=\"figures\">{figures}</span></div>\n",
        limited_label(facts, b),
        bar.svg(scale)
    )
}

/// The label of a box, with its ceiling where it has one.
fn limited_label(facts: &Facts, b: usize) -> String {
    let limit = facts.ceiling_in_words(b);
    let limit = limit.map(|limit| format!(" <span class=\"limit\">{limit}</span>"));
    label_with(facts, b, &limit.unwrap_or_default())
}

/// The bar of a disk with its copies, each as large as a partition may grow.
fn disk(facts: &Facts, laid: &Laid, b: usize) -> Bar {
    let (row, (capacity, usable)) = (&laid.rows.here[b], disk_space(facts, b));
    let kept = row.count(Cell::Kept) * laid.size;
    let received = row.count(Cell::Received) * laid.size;
    let too_much = facts.too_much(laid, b);
    let rest = [
        ("unused", usable.saturating_sub(kept + received)),
        ("free", (capacity - usable).saturating_sub(too_much)),
    ];
    let mut told = match facts.has_former() {
        true => vec![("disk", capacity), ("kept", kept), ("received", received)],
        false => vec![("disk", capacity), ("held", kept)],
    };
    if too_much > 0 {
        told.push(("too much", too_much));
    }
    // What is too much is the end of what is held.
    let fits = (kept + received).min(usable);
    let kept = kept.min(fits);
    let held = [
        ("kept", kept),
        ("received", fits - kept),
        ("over", too_much),
    ];
    let ceiling = labels::ceiling(&facts.cluster().nodes[b]);
    let ceiling = ceiling.map(|copies| u64::from(copies) * laid.size);
    Bar {
        parts: [&held[..], &rest].concat(),
        ceiling: ceiling.filter(|place| *place <= usable),
        end: (too_much > 0).then_some(capacity),
        title: title(facts, b, &[&told[..], &rest].concat()),
    }
}

/// The capacity of a disk, and what of it may be filled.
fn disk_space(facts: &Facts, b: usize) -> (u64, u64) {
    let node = &facts.cluster().nodes[b];
    (node.capacity.into(), node.usable().into())
}

fn title(facts: &Facts, b: usize, told: &[(&str, u64)]) -> String {
    let unit = facts.unit();
    let told = told.iter();
    let told =
        told.map(|(what, megabytes)| format!("{what} {} {}", unit.of(*megabytes), unit.name));
    let told: Vec<String> = told.collect();
    let label = &facts.described.labels[b];
    let called = match label.name.as_str() {
        "" => String::new(),
        called => format!(" ({})", name(called)),
    };
    let ceiling = facts.ceiling_in_words(b);
    let ceiling = ceiling.map_or_else(String::new, |ceiling| format!(", {ceiling}"));
    format!(
        "Box {}{called}{ceiling}: {}",
        facts.cluster().nodes[b].id,
        told.join(", ")
    )
}

/// The small figures beside a bar; what is 0 is left out.
fn figures(facts: &Facts, laid: &Laid, b: usize) -> String {
    let row = &laid.rows.here[b];
    let copies = row.copies();
    let copies_told = count(copies, "copy", "copies");
    let share = percent(copies * laid.size, disk_space(facts, b).0);
    let moved = |sign: char, number: u64| match number {
        0 => "<span></span>".into(),
        number => format!("<span>{sign}{}</span>", thousands(number)),
    };
    format!(
        "<span>{}</span><span>{}</span>{}{}",
        red_where(facts.is_above_ceiling(laid, b), &copies_told),
        red_where(facts.too_much(laid, b) > 0, &share),
        moved('+', row.count(Cell::Received)),
        moved('\u{2212}', row.count(Cell::Dropped)),
    )
}

/// Boxes that are gone, as outlines as long as what they held took; where the layout has copies there
/// still, as long as these take.
fn gone(laid: &Laid, scale: &Scale) -> String {
    let line = |row: &Row| {
        let (held, astray) = (count(row.named(), "copy", "copies"), row.copies());
        let told = match astray {
            0 => format!("it held {held}"),
            n => format!("the layout has {} there", count(n, "copy", "copies")),
        };
        let bar = Bar {
            parts: parts_away(laid, row).to_vec(),
            ceiling: None,
            end: None,
            title: format!("Box {}, not there any more: {told}", row.id),
        };
        format!(
            "<div class=\"row\"><span class=\"label\"><span class=\"id\">{}</span></span>{}\
             <span class=\"figures\"><span>{}</span></span></div>\n",
            row.id,
            bar.svg(scale),
            red_where(astray > 0, &held)
        )
    };
    let mut lines: String = laid.rows.gone.iter().map(line).collect();
    if let (more @ 1.., copies) = laid.rows.more_gone {
        lines += &format!(
            "<div class=\"row\"><span class=\"label\">and {more} more</span><span></span>\
             <span class=\"figures\"><span>{copies} copies</span></span></div>\n"
        );
    }
    match lines.is_empty() {
        true => lines,
        false => band("gone", " away", &lines),
    }
}

/// What a box that is gone had, and what the layout still has there.
fn parts_away(laid: &Laid, row: &Row) -> [(&'static str, u64); 2] {
    let had = row.count(Cell::Dropped) * laid.former_size.unwrap_or(0);
    [("gone", had), ("astray", row.copies() * laid.size)]
}

/// The parts of the bars of a layout, each with its class and what it is called.
fn parts(facts: &Facts, laid: &Laid) -> Vec<(&'static str, &'static str)> {
    let first = if facts.has_former() { "kept" } else { "held" };
    let mut parts = vec![("kept", first)];
    if facts.has_former() {
        parts.push(("received", "received"));
    }
    if (0..laid.rows.here.len()).any(|b| facts.too_much(laid, b) > 0) {
        parts.push(("over", "too much; the thick line is the end of the disk"));
    }
    parts.extend([("unused", "unused"), FREE]);
    if laid.rows.has_gone() {
        parts.push(("gone", "was on a box that is gone"));
    }
    if laid.rows.has_astray() {
        parts.push(ASTRAY);
    }
    parts
}

/// What the colours mean, and the line of a ceiling where there are any.
fn legend(parts: &[(&str, &str)], has_ceilings: bool) -> String {
    let item = |(class, word): &(&str, &str)| {
        format!(
            "<span><svg width=\"26\" height=\"14\" aria-hidden=\"true\"><rect class=\"{class}\" \
             x=\"1\" y=\"1\" width=\"24\" height=\"12\"/></svg> {word}</span>"
        )
    };
    let mut items: String = parts.iter().map(item).collect();
    if has_ceilings {
        items +=
            "<span><svg width=\"26\" height=\"14\" aria-hidden=\"true\"><line class=\"ceiling\" \
                  x1=\"13\" x2=\"13\" y1=\"0\" y2=\"14\"/></svg> ceiling</span>";
    }
    format!("<p class=\"legend\">{items}</p>\n")
}

/// The lines below the bars, and the grid that each of them shows.
fn axis(scale: &Scale) -> String {
    let mut lines = String::new();
    let mut labels = String::new();
    for (place, tick) in scale.ticks().into_iter().enumerate() {
        let at = scale.percent(tick);
        lines += &format!("<line x1=\"{at}%\" x2=\"{at}%\" y2=\"100%\"/>");
        let side = match tick * 100 / scale.whole {
            0..=5 => "start",
            6..=94 => "middle",
            _ => "end",
        };
        let class = if place % 2 == 1 { " class=\"odd\"" } else { "" };
        labels += &format!(
            "<text x=\"{at}%\" y=\"13\" text-anchor=\"{side}\"{class}>{}</text>",
            scale.unit.of(tick)
        );
    }
    format!(
        "<div class=\"zone axis\"><div></div><div class=\"row\"><span class=\"label\">{}</span>\
         <svg class=\"ticks\" width=\"100%\" height=\"18\"><title>The scale of the bars, in {0}</title>\
         <defs><g id=\"grid\">{lines}</g></defs>{labels}</svg><span></span></div></div>\n",
        scale.unit.name
    )
}

impl Scale {
    fn new(facts: &Facts, longest_gone: u64) -> Scale {
        let nodes = facts.cluster().nodes.iter();
        let longest = nodes.map(|node| u64::from(node.capacity)).max();
        Scale {
            whole: longest.unwrap_or(0).max(longest_gone).max(1),
            unit: facts.unit(),
        }
    }

    /// Grid lines at round numbers: 1, 2 or 5 and zeros.
    fn ticks(&self) -> Vec<u64> {
        let tens = (0..).map(|zeros| 10u64.pow(zeros));
        let mut steps = tens.flat_map(|ten| [ten, 2 * ten, 5 * ten]);
        let step = steps.find(|step| self.whole / step <= MOST_TICKS);
        let step = step.expect("the last power of ten is larger than any disk");
        (0..=self.whole / step).map(|tick| tick * step).collect()
    }

    /// So many megabytes in percent of the scale, to a thousandth.
    fn percent(&self, megabytes: u64) -> String {
        thousandths(self.edge(megabytes))
    }

    /// The same as a whole number of thousandths.
    fn edge(&self, megabytes: u64) -> u64 {
        edge(megabytes, self.whole)
    }
}

/// A part in thousandths of a percent of the whole.
fn edge(part: u64, whole: u64) -> u64 {
    part * 100_000 / whole
}

fn thousandths(number: u64) -> String {
    let text = format!("{}.{:03}", number / 1000, number % 1000);
    text.trim_end_matches('0').trim_end_matches('.').into()
}

/// The parts of a bar from the left, each with its class.
fn rectangles(parts: &[(&str, u64)], whole: u64) -> String {
    let mut text = String::new();
    let mut end = 0;
    for (class, part) in parts {
        let (from, to) = (edge(end, whole), edge(end + part, whole));
        end += part;
        if *part > 0 {
            text += &format!(
                "<rect class=\"{class}\" x=\"{}%\" y=\"3\" width=\"{}%\" height=\"14\"/>",
                thousandths(from),
                thousandths(to - from)
            );
        }
    }
    text
}

/// A short bar with a part of this class, to stand beside the figure that tells how large it is.
pub fn of_share(class: &str, part: u64, whole: u64) -> String {
    format!(
        "<svg class=\"share\" width=\"120\" height=\"20\" aria-hidden=\"true\">{}</svg>",
        rectangles(&[(class, part), ("unused", whole - part)], whole)
    )
}

impl Bar {
    fn svg(&self, scale: &Scale) -> String {
        let mut parts = rectangles(&self.parts, scale.whole);
        if let Some(ceiling) = self.ceiling {
            let at = thousandths(scale.edge(ceiling));
            parts +=
                &format!("<line class=\"ceiling\" x1=\"{at}%\" x2=\"{at}%\" y1=\"0\" y2=\"20\"/>");
        }
        if let Some(end) = self.end {
            let at = thousandths(scale.edge(end));
            parts += &format!("<line class=\"end\" x1=\"{at}%\" x2=\"{at}%\" y1=\"0\" y2=\"20\"/>");
        }
        format!(
            "<svg class=\"bar\" role=\"img\" width=\"100%\" height=\"20\"><title>{}</title>\
             <use href=\"#grid\" class=\"grid\"/>{parts}</svg>",
            self.title
        )
    }
}
