//! The text file of an owner, rewritten for other boxes.

mod box_lines;
mod ceiling_lines;

use crate::cluster::Node;
use crate::description::{Description, Label};
use crate::units::capacity_in_words;
use box_lines::{BoxLine, BoxLines, Texts, CAPACITY, ID, NAME, REMARK, WORD, ZONE};
use ceiling_lines::CeilingLine;

/// What some editors write at the head of a file.
const BYTE_ORDER_MARK: &str = "\u{feff}";

impl Description {
    /// The text file rewritten so that it describes this cluster, whose boxes may be others than
    /// those of the text.
    ///
    /// What need not change stays byte for byte, order, remarks and blanks included. On the line of
    /// a box that differs only the words that differ are replaced, and spaces after them give way
    /// where columns are kept by it. The line of a box that is gone goes; its remark stays, as a
    /// line of its own. A new box stands after the last line of a box with a smaller id, before all
    /// boxes where there is none, and at the end where no old box stays. The line of a ceiling goes
    /// with its box, or where that has none any more; a new one stands right after its box.
    ///
    /// What is answered reads back as this cluster: [`Description::agrees_with`] holds. Zones that
    /// have names may have other numbers then, since the order of the lines gives them.
    ///
    /// None where the text describes no cluster, and where no text with its lines reads back as this
    /// one: where copies, zones or bits differ, no box is left, or a word is none that a line can
    /// hold.
    ///
    /// ```
    /// use dezghuri::Description;
    ///
    /// let text = "copies 1\nzones 1\nbox 1 home 2T # old\nbox 2 home 4T\n";
    /// let mut after: Description = text.parse()?;
    /// after.cluster.nodes[0].capacity = 500_000;
    /// let rewritten = after.rewritten(text.as_bytes()).unwrap();
    /// assert_eq!(rewritten, b"copies 1\nzones 1\nbox 1 home 500G # old\nbox 2 home 4T\n");
    /// # Ok::<(), dezghuri::Faults>(())
    /// ```
    pub fn rewritten(&self, text: &[u8]) -> Option<Vec<u8>> {
        let before = Description::parse(text).ok()?;
        let text = std::str::from_utf8(text).ok()?;
        let lines = text.strip_prefix(BYTE_ORDER_MARK).unwrap_or(text);
        let (mark, _) = text.split_at(text.len() - lines.len());
        let rewriting = Rewriting::new(lines, &before, self);
        let rewritten = (mark.to_string() + &rewriting.text()).into_bytes();
        let read = Description::parse(&rewritten).ok()?;
        self.agrees_with(&read).then_some(rewritten)
    }

    /// Whether both want the same and have the same boxes, by ids, capacities, ceilings and the
    /// owner's words, in the same zones. Warnings, former layouts, the order of boxes and the numbers of
    /// zones do not count.
    pub fn agrees_with(&self, other: &Description) -> bool {
        let wanted = |described: &Description| {
            let cluster = &described.cluster;
            (cluster.bits, cluster.replication, cluster.redundancy)
        };
        let counts = [self, other].map(|d| (d.cluster.nodes.len(), d.labels.len()));
        let is_whole = counts.iter().all(|(nodes, labels)| nodes == labels);
        is_whole && wanted(self) == wanted(other) && same_boxes(&by_id(self), &by_id(other))
    }
}

/// A box with the owner's words.
type Labelled<'a> = (&'a Node, &'a Label);

fn by_id(described: &Description) -> Vec<Labelled<'_>> {
    let boxes = described.cluster.nodes.iter().zip(&described.labels);
    let mut boxes: Vec<Labelled> = boxes.collect();
    boxes.sort_by_key(|(node, _)| node.id);
    boxes
}

fn find<'a>(described: &'a Description, id: u32) -> Option<Labelled<'a>> {
    let mut boxes = described.cluster.nodes.iter().zip(&described.labels);
    boxes.find(|(node, _)| node.id == id)
}

/// Zones are the same where the same boxes share one.
fn same_boxes(ours: &[Labelled], theirs: &[Labelled]) -> bool {
    let pairs = || ours.iter().zip(theirs);
    let same_words = pairs().all(|((our, label), (their, other))| {
        let numbers = |node: &Node| (node.id, node.capacity, node.ceiling);
        (numbers(our), label) == (numbers(their), other)
    });
    let same_zones = pairs().all(|((our, _), (their, _))| {
        pairs().all(|((a, _), (b, _))| (our.zone == a.zone) == (their.zone == b.zone))
    });
    ours.len() == theirs.len() && same_words && same_zones
}

/// The word as it is written, though it could be written otherwise, where it says the same.
fn choose<'a>(is_same: bool, written: &'a str, new: &'a str) -> &'a str {
    match is_same {
        true => written,
        false => new,
    }
}

/// A line, and what ends it: nothing where it is the last of a text without a newline.
struct Line<'a> {
    text: &'a str,
    end: &'a str,
}

impl Line<'_> {
    fn new(whole: &str) -> Line<'_> {
        let text = whole.strip_suffix('\n').unwrap_or(whole);
        let text = text.strip_suffix('\r').unwrap_or(text);
        let (text, end) = whole.split_at(text.len());
        Line { text, end }
    }
}

/// A text on its way from one cluster to another.
struct Rewriting<'a> {
    lines: Vec<Line<'a>>,
    boxes: BoxLines<'a>,
    ceilings: Vec<CeilingLine<'a>>,
    before: &'a Description,
    after: &'a Description,
}

/// The lines of the new text, each with what ends it.
#[derive(Default)]
struct Written<'a> {
    lines: Vec<(String, &'a str)>,
}

impl<'a> Written<'a> {
    /// One line more that the old text has not. A last line without an end gives that away.
    fn insert(&mut self, text: String, end: &'a str) {
        let end = match self.lines.last_mut() {
            Some((_, last)) if !last.ends_with('\n') => std::mem::replace(last, end),
            _ => end,
        };
        self.lines.push((text, end));
    }

    fn text(&self) -> String {
        let lines = self.lines.iter();
        lines.flat_map(|(text, end)| [text.as_str(), end]).collect()
    }
}

/// Where the line of a new box goes.
struct Spot {
    /// The line that it comes before.
    line: usize,
    /// The place of the box line that it takes its looks from.
    model: usize,
}

impl<'a> Rewriting<'a> {
    fn new(text: &'a str, before: &'a Description, after: &'a Description) -> Rewriting<'a> {
        let lines: Vec<Line> = text.split_inclusive('\n').map(Line::new).collect();
        let boxes = BoxLines::of(lines.iter().map(|line| line.text));
        let ceilings = lines.iter().enumerate();
        let ceilings = ceilings.filter_map(|(number, line)| CeilingLine::read(number, line.text));
        Rewriting {
            ceilings: ceilings.collect(),
            lines,
            boxes,
            before,
            after,
        }
    }

    fn text(&self) -> String {
        let mut added = by_id(self.after);
        added.retain(|(node, _)| !self.before.has(node.id));
        let added: Vec<(Spot, Labelled)> = added
            .into_iter()
            .map(|found| (self.spot(found.0.id), found))
            .collect();
        let mut written = Written::default();
        for number in 0..=self.lines.len() {
            for (spot, found) in added.iter().filter(|(spot, _)| spot.line == number) {
                let end = self.end_near(spot.model);
                written.insert(self.added(spot, *found), end);
                if let Some(text) = self.new_ceiling(spot.model, found.0) {
                    written.insert(text, end);
                }
            }
            let Some(line) = self.lines.get(number) else {
                continue;
            };
            let text = self.kept(number, line.text);
            written.lines.extend(text.map(|text| (text, line.end)));
            if let Some((place, text)) = self.ceiling_of_old(number) {
                written.insert(text, self.end_near(place));
            }
        }
        written.text()
    }

    fn spot(&self, id: u32) -> Spot {
        let boxes = self.boxes.lines.iter().enumerate();
        let mut staying = boxes.filter(|(_, line)| self.after.has(line.id));
        let first = staying.clone().next();
        let smaller = staying.rfind(|(_, line)| line.id < id);
        let (line, model) = match (smaller, first) {
            (Some((place, smaller)), _) => (self.end_of(smaller), place),
            (None, Some((place, first))) => (first.number, place),
            (None, None) => (self.lines.len(), self.boxes.lines.len() - 1),
        };
        Spot { line, model }
    }

    /// The line after that of an old box, and after that of its ceiling where this follows and stays.
    fn end_of(&self, line: &BoxLine) -> usize {
        let next = line.number + 1;
        let ceiling = self.ceiling_line(line.id);
        let follows = ceiling.is_some_and(|line| line.number == next && self.stays(line));
        next + usize::from(follows)
    }

    /// Whether the line of a ceiling stays one, though perhaps with another number.
    fn stays(&self, line: &CeilingLine) -> bool {
        let ceiling = |described| find(described, line.id).map(|(node, _)| node.ceiling);
        let after = ceiling(self.after);
        after.is_some_and(|after| after < Node::NO_CEILING) || after == ceiling(self.before)
    }

    fn ceiling_line(&self, id: u32) -> Option<&CeilingLine<'a>> {
        self.ceilings.iter().find(|line| line.id == id)
    }

    /// What ends the line of this box, or, where nothing does, the nearest line above it.
    fn end_near(&self, place: usize) -> &'a str {
        let above = &self.lines[..=self.boxes.lines[place].number];
        let mut ends = above.iter().rev().map(|line| line.end);
        ends.find(|end| end.ends_with('\n')).unwrap_or("\n")
    }

    fn added(&self, spot: &Spot, (node, label): Labelled) -> String {
        let id = node.id.to_string();
        let capacity = capacity_in_words(node.capacity);
        let texts = [WORD, &id, &label.zone, &capacity, &label.name, ""];
        self.boxes.written(spot.model, texts)
    }

    /// The line of a ceiling that the text does not have; none where the box needs none. It is set
    /// apart as the box line at a place.
    fn new_ceiling(&self, place: usize, node: &Node) -> Option<String> {
        let [indent, blank] = self.boxes.lines[place].blanks();
        let (word, id, ceiling) = (ceiling_lines::WORD, node.id, node.ceiling);
        let is_needed = ceiling < Node::NO_CEILING && self.ceiling_line(id).is_none();
        is_needed.then(|| format!("{indent}{word}{blank}{id}{blank}{ceiling}"))
    }

    /// The same of a box that has a line, this one, with its place among the boxes.
    fn ceiling_of_old(&self, number: usize) -> Option<(usize, String)> {
        let mut boxes = self.boxes.lines.iter();
        let place = boxes.position(|line| line.number == number)?;
        let (node, _) = find(self.after, self.boxes.lines[place].id)?;
        Some((place, self.new_ceiling(place, node)?))
    }

    /// What becomes of the line of a ceiling.
    fn kept_ceiling(&self, line: &CeilingLine, text: &str) -> Option<String> {
        let after = find(self.after, line.id).filter(|_| self.stays(line));
        let Some((after, _)) = after else {
            return line.remark().map(String::from);
        };
        match find(self.before, line.id) {
            Some((before, _)) if before.ceiling == after.ceiling => Some(text.into()),
            _ => Some(line.with(after.ceiling)),
        }
    }

    /// What becomes of a line of the text; none where nothing is left of it.
    fn kept(&self, number: usize, text: &str) -> Option<String> {
        let mut ceilings = self.ceilings.iter();
        if let Some(line) = ceilings.find(|line| line.number == number) {
            return self.kept_ceiling(line, text);
        }
        let mut boxes = self.boxes.lines.iter();
        let Some(place) = boxes.position(|line| line.number == number) else {
            return Some(text.into());
        };
        let line = &self.boxes.lines[place];
        let (old, old_label) = find(self.before, line.id)?;
        let Some((new, label)) = find(self.after, line.id) else {
            return line.text(REMARK).map(String::from);
        };
        let same_capacity = old.capacity == new.capacity;
        if same_capacity && old_label == label {
            return Some(text.into());
        }
        let capacity = capacity_in_words(new.capacity);
        let own = |part| line.text(part).unwrap_or("");
        let texts: Texts = [
            WORD,
            own(ID),
            choose(old_label.zone == label.zone, own(ZONE), &label.zone),
            choose(same_capacity, own(CAPACITY), &capacity),
            choose(old_label.name == label.name, own(NAME), &label.name),
            own(REMARK),
        ];
        Some(self.boxes.written(place, texts) + line.rest)
    }
}

#[cfg(test)]
mod tests;
