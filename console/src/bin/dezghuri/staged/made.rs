//! Staged changes made on the cluster of their text, one after the other, by the proved function.

use super::file::Entry;
use super::zones;
use crate::changes::make;
use crate::json::Json;
use crate::labels;
use dezghuri::units::capacity_in_words;
use dezghuri::{Change, Description, Label, Node, Place, Refusal, Refused};

/// What the changes come to.
pub struct Made {
    /// The cluster with all changes that were made.
    pub described: Description,
    /// All changes, those that were not made included.
    pub steps: Vec<Step>,
    /// How the last one is taken back, where all were made.
    pub last: Option<Undo>,
    pub refused: Option<NotMade>,
}

/// A change in words and as an object.
pub struct Step {
    pub words: String,
    pub json: Json,
}

/// The first change that is refused.
pub struct NotMade {
    /// From 1 on.
    pub number: usize,
    /// With its byte in the file of staged changes.
    pub refused: Refused,
    pub why: String,
}

/// What the last change was made on, and the change that reverses it.
pub struct Undo {
    before: Description,
    reverse: Change,
}

impl Made {
    pub fn new(known: &Description, entries: &[Entry]) -> Made {
        let (described, changes) = zones::numbered(known, entries);
        let mut made = Made {
            described,
            steps: Vec::new(),
            last: None,
            refused: None,
        };
        for (entry, change) in entries.iter().zip(&changes) {
            made.steps
                .push(Step::new(change, &entry.label(), &made.described));
            if made.refused.is_some() {
                continue;
            }
            let before = made.described.clone();
            match make(&mut made.described, *change, entry.label()) {
                Ok(reverse) => made.last = Some(Undo { before, reverse }),
                Err(refused) => made.refuse(refused.refusal, entry),
            }
        }
        made
    }

    /// The change of the last step is refused.
    fn refuse(&mut self, refusal: Refusal, entry: &Entry) {
        self.last = None;
        self.refused = Some(NotMade {
            number: self.steps.len(),
            refused: Refused {
                refusal,
                place: Some(Place::Byte(entry.byte as u64)),
            },
            why: why(&entry.change, refusal),
        });
    }
}

impl Undo {
    /// Whether the reverse, made on the boxes as they are after all changes, leads to those of
    /// before the last one, box for box.
    pub fn restores(&self, after: &Description) -> bool {
        let mut cluster = after.cluster.clone();
        cluster.change(self.reverse).is_ok() && cluster == self.before.cluster
    }

    /// The reverse in words.
    pub fn in_words(&self, after: &Description) -> String {
        let label = labels::of(&self.before, self.reverse.id());
        Step::new(&self.reverse, &label, after).words
    }
}

impl Step {
    /// A change of the boxes as they are before it; the label is that of a box that is added.
    fn new(change: &Change, label: &Label, before: &Description) -> Step {
        Step {
            words: in_words(change, label, before),
            json: json(change, label, before),
        }
    }
}

fn node(described: &Description, id: u32) -> Option<(&Node, &Label)> {
    let mut boxes = described.cluster.nodes.iter().zip(&described.labels);
    boxes.find(|(node, _)| node.id == id)
}

fn in_words(change: &Change, label: &Label, before: &Description) -> String {
    let id = change.id();
    match (change, node(before, id)) {
        (Change::Add(node), _) => {
            let capacity = capacity_in_words(node.capacity);
            let words = [&label.zone, &capacity, &label.name, &most(node)];
            format!("add box {id} in {}", with_commas(words))
        }
        (Change::Remove(_), Some((node, label))) => {
            let capacity = capacity_in_words(node.capacity);
            let words = [&label.name, &label.zone, &capacity, &most(node)];
            format!("remove box {id} ({})", with_commas(words))
        }
        (Change::Remove(_), None) => format!("remove box {id}"),
        (Change::Resize { capacity, .. }, Some((node, label))) => format!(
            "resize box {id} ({}) from {} to {}",
            with_commas([&label.name, &label.zone, &most(node), &String::new()]),
            capacity_in_words(node.capacity),
            capacity_in_words(*capacity)
        ),
        (Change::Resize { capacity, .. }, None) => {
            format!("resize box {id} to {}", capacity_in_words(*capacity))
        }
    }
}

/// The ceiling of a box in words; nothing where it has none.
fn most(node: &Node) -> String {
    labels::ceiling_in_words(node).unwrap_or_default()
}

/// Those that are not empty.
fn with_commas(words: [&String; 4]) -> String {
    let words = words.map(String::as_str).into_iter();
    let words: Vec<&str> = words.filter(|word| !word.is_empty()).collect();
    words.join(", ")
}

/// As the changes of what-if, with what the box was before.
fn json(change: &Change, label: &Label, before: &Description) -> Json {
    let (kind, capacity) = match change {
        Change::Add(node) => ("add", Some(node.capacity)),
        Change::Remove(_) => ("remove", None),
        Change::Resize { capacity, .. } => ("resize", Some(*capacity)),
    };
    let was = node(before, change.id()).filter(|_| kind != "add");
    let of_ceiling = match change {
        Change::Add(node) => Some(node),
        _ => was.map(|(node, _)| node),
    };
    let label = match change {
        Change::Add(_) => Some(label),
        _ => was.map(|(_, label)| label),
    };
    let mut members = vec![
        ("kind", kind.into()),
        ("id", change.id().into()),
        ("name", label.map(|label| label.name.as_str()).into()),
        ("zone", label.map(|label| label.zone.as_str()).into()),
        ("capacity_mb", capacity.into()),
    ];
    members.extend(of_ceiling.map(|node| ("ceiling", labels::ceiling(node).into())));
    members.push(("was_mb", was.map(|(node, _)| node.capacity).into()));
    Json::Object(members)
}

/// Why a change is not made, in the words of the owner.
fn why(change: &Change, refusal: Refusal) -> String {
    let id = change.id();
    match refusal {
        Refusal::Present => format!("box {id} is there already"),
        Refusal::Absent => format!("there is no box {id}"),
        Refusal::Nodes => "there are 32 boxes already, and no more are possible".into(),
        other => other.to_string(),
    }
}
