//! The map: partitions along, boxes down.

use super::bars::{self, band, label, zones};
use super::facts::{Cell, Facts, Laid, Row};
use super::html::section;
use crate::units::count;

/// The widest that a cell gets, in pixels.
const WIDEST_CELL: usize = 24;
/// So many marks at most along the map: more could not be told apart.
const MOST_MARKS: usize = 64;

/// The map of a layout, boxes that are gone below.
pub fn of_layout(facts: &Facts, laid: &Laid) -> String {
    let groups = laid.groups();
    let order: Vec<u8> = groups.concat();
    let line = |label: &str, row: &Row, kinds: &[Kind], title: &str| {
        let cells = cells(row, &order, kinds, title);
        format!("<div class=\"row\">{label}{cells}</div>\n")
    };
    let mut body = strip(&groups);
    body += &zones(facts, |b| {
        let row = &laid.rows.here[b];
        let kinds = [KEPT, RECEIVED, DROPPED];
        line(&label(facts, b), row, &kinds, &title(facts, row))
    });
    let gone = laid.rows.gone.iter().map(|row| {
        let label = format!(
            "<span class=\"label\"><span class=\"id\">{}</span></span>",
            row.id
        );
        let held = count(row.named(), "copy", "copies");
        let title = format!("Box {}, not there any more: {held}", row.id);
        line(&label, row, &[GONE, ASTRAY, STRAYING], &title)
    });
    let gone: String = gone.collect();
    if !gone.is_empty() {
        body += &band("gone", " away", &gone);
    }
    let body = format!(
        "<figure>\n<figcaption>{}</figcaption>\n{}<div class=\"map\" style=\"--most:{}px\">\n{body}\
         </div>\n</figure>\n",
        caption(facts, order.len()),
        legend(facts, laid),
        order.len() * WIDEST_CELL,
    );
    section("map", "The map", &body)
}

fn caption(facts: &Facts, partitions: usize) -> String {
    let alike = match facts.has_former() {
        true => "partitions that move alike stand together",
        false => "partitions that lie alike stand together",
    };
    match partitions {
        1 => "The one partition is the column, a box is a line.".into(),
        _ => format!(
            "A column is a partition, a line is a box; {alike}, in the groups of the strip \
             on top, and the table at the end has their numbers."
        ),
    }
}

fn title(facts: &Facts, row: &Row) -> String {
    let number = |cell| row.count(cell);
    match facts.has_former() {
        true => format!(
            "Box {}: {} kept, {} received, {} dropped",
            row.id,
            number(Cell::Kept),
            number(Cell::Received),
            number(Cell::Dropped)
        ),
        false => format!("Box {}: {}", row.id, count(row.copies(), "copy", "copies")),
    }
}

/// How the cells of a kind are drawn.
struct Kind {
    cell: Cell,
    /// The class of the rectangles.
    class: &'static str,
    /// The mark in them, with the class of its path.
    mark: Option<(&'static str, Mark)>,
}

#[derive(Clone, Copy)]
enum Mark {
    Upward,
    Downward,
    Cross,
}

const KEPT: Kind = Kind {
    cell: Cell::Kept,
    class: "kept",
    mark: None,
};
const RECEIVED: Kind = Kind {
    cell: Cell::Received,
    class: "orange",
    mark: Some(("rise", Mark::Upward)),
};
const DROPPED: Kind = Kind {
    cell: Cell::Dropped,
    class: "hollow",
    mark: Some(("fall", Mark::Downward)),
};
const GONE: Kind = Kind {
    cell: Cell::Dropped,
    class: "hollow",
    mark: Some(("cross", Mark::Cross)),
};

/// On a box that is not there, in the former layout too.
const ASTRAY: Kind = Kind {
    cell: Cell::Kept,
    class: bars::ASTRAY.0,
    mark: Some(("ban", Mark::Cross)),
};
/// The same, and not there in the former layout.
const STRAYING: Kind = Kind {
    cell: Cell::Received,
    ..ASTRAY
};

impl Mark {
    /// The mark around a place, so much to either side.
    fn path(self, middle: f64, half: f64) -> String {
        let (place, left, side) = (short(middle), short(middle - half), short(half));
        let whole = short(2.0 * half);
        match self {
            Mark::Upward => format!("M{place} .22l{side} .56h-{whole}"),
            Mark::Downward => format!("M{place} .78l{side} -.56h-{whole}"),
            Mark::Cross => format!("M{left} .25l{whole} .5m0 -.5l-{whole} .5"),
        }
    }
}

/// The cells of a box: one path for each kind, with one rectangle for a run of equal cells.
fn cells(row: &Row, order: &[u8], kinds: &[Kind], title: &str) -> String {
    let width = order.len();
    let mut paths = String::new();
    for kind in kinds {
        let runs = runs(row, order, kind.cell);
        if !runs.is_empty() {
            paths += &drawn(kind, &runs, width);
        }
    }
    format!(
        "<svg class=\"cells\" role=\"img\" viewBox=\"0 0 {width} 1\" preserveAspectRatio=\"none\">\
         <title>{title}</title><rect class=\"empty\" width=\"{width}\" height=\"1\"/>{paths}</svg>"
    )
}

/// The runs as rectangles, and marks in them: one in a short run, several in a long one.
fn drawn(kind: &Kind, runs: &[(usize, usize)], width: usize) -> String {
    // An outline would be cut at the edge of the picture.
    let (top, height) = if kind.class == "hollow" {
        (".05", ".9")
    } else {
        ("0", "1")
    };
    let rectangle =
        |(from, long): &(usize, usize)| format!("M{from} {top}h{long}v{height}h-{long}z");
    let rectangles: String = runs.iter().map(rectangle).collect();
    let mut text = format!("<path class=\"{}\" d=\"{rectangles}\"/>", kind.class);
    if let Some((class, mark)) = kind.mark {
        let marks: String = runs.iter().map(|run| marks(mark, *run, width)).collect();
        text += &format!("<path class=\"{class}\" d=\"{marks}\"/>");
    }
    text
}

/// The marks of a run, at equal distances.
fn marks(mark: Mark, (from, long): (usize, usize), width: usize) -> String {
    let each = (width / MOST_MARKS).max(1);
    let number = long.div_ceil(each);
    let step = long as f64 / number as f64;
    let half = step.min(each as f64) * 0.36;
    let middle = |place: usize| from as f64 + (place as f64 + 0.5) * step;
    let marks = (0..number).map(|place| mark.path(middle(place), half));
    marks.collect()
}

/// A number to a hundredth, without zeros that say nothing.
fn short(number: f64) -> String {
    let text = format!("{number:.2}");
    let text = text.trim_end_matches('0').trim_end_matches('.');
    text.strip_prefix('0')
        .filter(|rest| !rest.is_empty())
        .unwrap_or(text)
        .into()
}

/// Where runs of such cells begin, and how long they are.
fn runs(row: &Row, order: &[u8], cell: Cell) -> Vec<(usize, usize)> {
    let mut runs: Vec<(usize, usize)> = Vec::new();
    for (at, partition) in order.iter().enumerate() {
        if row.cells[usize::from(*partition)] != cell {
            continue;
        }
        match runs.last_mut() {
            Some((from, long)) if *from + *long == at => *long += 1,
            _ => runs.push((at, 1)),
        }
    }
    runs
}

/// The groups of partitions that are alike, each told by its title.
fn strip(groups: &[Vec<u8>]) -> String {
    let width: usize = groups.iter().map(Vec::len).sum();
    let mut from = 0;
    let mut parts = String::new();
    for group in groups {
        let numbers: Vec<String> = group.iter().map(u8::to_string).collect();
        let word = if group.len() == 1 {
            "Partition"
        } else {
            "Partitions"
        };
        parts += &format!(
            "<rect x=\"{from}\" width=\"{}\" height=\"1\"><title>{word} {}</title></rect>",
            group.len(),
            numbers.join(", ")
        );
        from += group.len();
    }
    format!(
        "<div class=\"zone strip\"><div></div><div class=\"row\"><span class=\"label\">{}</span>\
         <svg class=\"cells\" role=\"img\" viewBox=\"0 0 {width} 1\" preserveAspectRatio=\"none\">\
         <title>Groups of partitions that are alike</title>{parts}</svg></div></div>\n",
        count(groups.len() as u64, "group", "groups")
    )
}

/// What the cells mean.
fn legend(facts: &Facts, laid: &Laid) -> String {
    let item = |kind: &Kind, word: &str| {
        format!(
            "<span><svg width=\"26\" height=\"14\" viewBox=\"-.08 0 2.16 1\" \
             preserveAspectRatio=\"none\" aria-hidden=\"true\">{}</svg> {word}</span>",
            drawn(kind, &[(0, 2)], 2)
        )
    };
    let mut items = vec![item(
        &KEPT,
        if facts.has_former() { "kept" } else { "held" },
    )];
    if facts.has_former() {
        items.push(item(&RECEIVED, "received"));
        items.push(item(&DROPPED, "dropped"));
    }
    if laid.rows.has_gone() {
        items.push(format!(
            "<span class=\"away\">{}</span>",
            item(&GONE, "gone with its box")
        ));
    }
    if laid.rows.has_astray() {
        items.push(item(&ASTRAY, bars::ASTRAY.1));
    }
    format!("<p class=\"legend\">{}</p>\n", items.concat())
}
