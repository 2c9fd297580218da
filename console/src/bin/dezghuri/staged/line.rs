//! The words of a box that is staged, read by the rules of a line of the text file.

use super::file::Entry;
use crate::failure::Failure;
use crate::terminal::escaped;
use dezghuri::units::capacity_in_words;
use dezghuri::{Change, Description, Node, Note};

/// A text has 32 boxes at most; one of them is the new one.
const MOST_OTHERS: usize = 31;

/// A small text with the boxes as they are and the new one on its last line.
struct Text {
    text: String,
    /// The box of each line that has one.
    lines: Vec<(usize, u32)>,
    /// The line of the new box.
    last: usize,
}

/// The box that the words describe, with this ceiling, beside those that there are; what looks like a
/// slip goes to the warnings. Whether the id is free is not asked here.
pub fn entry(
    described: &Description,
    words: &str,
    ceiling: u16,
    warnings: &mut Vec<String>,
) -> Result<Entry, Failure> {
    let text = Text::new(described, words);
    let words = &escaped(words);
    let read = Description::parse(text.text.as_bytes());
    let read = read.map_err(|faults| Failure::Bad(text.faults(faults.notes(), words)))?;
    let slips = read.warnings.iter().filter_map(|slip| text.told(slip));
    warnings.extend(slips.map(|what| format!("add {words}: {what}")));
    let known: Vec<u32> = text.lines.iter().map(|(_, id)| *id).collect();
    let mut boxes = read.cluster.nodes.iter().zip(&read.labels);
    let (node, label) = boxes
        .find(|(node, _)| !known.contains(&node.id))
        .expect("the last line has a box");
    let is_number = label.zone.bytes().all(|byte| byte.is_ascii_digit());
    Ok(Entry {
        byte: 0,
        change: Change::Add(Node { ceiling, ..*node }),
        zone: (!is_number).then(|| label.zone.clone()),
        name: (!label.name.is_empty()).then(|| label.name.clone()),
    })
}

impl Text {
    fn new(described: &Description, words: &str) -> Text {
        let cluster = &described.cluster;
        let new = words
            .split_whitespace()
            .next()
            .and_then(|id| id.parse().ok());
        let (copies, zones, bits) = (cluster.replication, cluster.redundancy, cluster.bits);
        let mut text = format!("copies {copies}\nzones {zones}\nbits {bits}\n");
        let mut lines = Vec::new();
        let boxes = cluster.nodes.iter().zip(&described.labels);
        let others = boxes.filter(|(node, _)| Some(node.id) != new);
        for (line, (node, label)) in (4..).zip(others.take(MOST_OTHERS)) {
            let capacity = capacity_in_words(node.capacity);
            let (id, zone, name) = (node.id, &label.zone, &label.name);
            text += &format!("box {id} {zone} {capacity} {name}\n");
            lines.push((line, id));
        }
        Text {
            text: text + "box " + words,
            last: 4 + lines.len(),
            lines,
        }
    }

    /// The faults of the new line; those of others where it has none, as an edited text brings them.
    fn faults(&self, notes: &[Note], words: &str) -> Vec<String> {
        let own = notes.iter().filter_map(|note| self.told(note));
        let own: Vec<String> = own.map(|what| format!("add {words}: {what}")).collect();
        if !own.is_empty() {
            return own;
        }
        let others = notes.iter().map(|note| self.with_boxes(&note.what));
        let told = others.map(|what| format!("what is staged is at fault with the text: {what}"));
        told.collect()
    }

    /// What is to be said of the new line.
    fn told(&self, note: &Note) -> Option<String> {
        let is_new = note.line == Some(self.last);
        is_new.then(|| self.with_boxes(&note.what))
    }

    /// The same, with the boxes of the lines that it points at in the place of these.
    fn with_boxes(&self, what: &str) -> String {
        let mut what = what.to_string();
        // The last lines first: line 4 is the beginning of line 40 no more then.
        for (line, id) in self.lines.iter().rev() {
            what = what.replace(&format!(" on line {line}"), &format!(" at box {id}"));
            what = what.replace(&format!(" of line {line}"), &format!(" of box {id}"));
        }
        what
    }
}
