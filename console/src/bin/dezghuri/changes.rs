//! Changes of the boxes, and those that are only tried.

use crate::args::Change;
use crate::failure::Failure;
use crate::json::Json;
use crate::labels;
use crate::terminal::escaped;
use dezghuri::units::capacity_in_words;
use dezghuri::{Description, Label, Node, Note, Refusal, Refused};

/// A change that is written well; whether its box is there is seen when it is made.
pub enum Step {
    /// The box, with the words that it was given by.
    Add(Node, Label, String),
    Remove(u32),
    /// The capacity in megabytes.
    Resize(u32, u32),
    /// The most copies that the box may hold; no change record has such a change.
    Ceiling(u32, u16),
}

/// The cluster as it is, and the changes in the order of the call.
pub struct Tried {
    pub as_it_is: Description,
    pub steps: Vec<Step>,
}

/// The boxes to be added, as lines below the text of the file: so they are read and told by the
/// same rules, and zones of one name are one.
struct Added<'a> {
    /// The number of the first such line.
    first_line: usize,
    lines: Vec<(u32, &'a str)>,
}

impl Tried {
    /// The changes of the cluster that the text describes; what looks like a slip in them goes to
    /// the warnings.
    pub fn new(
        text: &[u8],
        known: &Description,
        changes: &[Change],
        warnings: &mut Vec<String>,
    ) -> Result<Tried, Failure> {
        let added = Added::new(text, known, changes)?;
        let mut described = Description::parse(&added.below(text)).map_err(|faults| {
            let lines = faults.notes().iter().filter_map(|note| added.told(note));
            Failure::Bad(lines.collect())
        })?;
        let slips = described.warnings.iter();
        warnings.extend(slips.filter_map(|slip| added.told(slip)));
        let mut ids = added.lines.iter().map(|(id, _)| *id);
        let mut steps = Vec::new();
        for change in changes {
            steps.push(match change {
                Change::Remove(id) => Step::Remove(*id),
                Change::Resize(id, capacity) => Step::Resize(*id, *capacity),
                Change::Ceiling(id, ceiling) => Step::Ceiling(*id, *ceiling),
                Change::Add(words) => {
                    let id = ids.next().expect("each has one");
                    let (node, label) = take(&mut described, id).expect("it was read");
                    Step::Add(node, label, escaped(words.trim()))
                }
            });
        }
        described.cluster.former = known.cluster.former.clone();
        Ok(Tried {
            as_it_is: described,
            steps,
        })
    }
}

impl Added<'_> {
    /// Gives each box an id above all that are known, those of boxes that are gone included: an id
    /// is never used again.
    fn new<'a>(
        text: &[u8],
        known: &Description,
        changes: &'a [Change],
    ) -> Result<Added<'a>, Failure> {
        let former = known.cluster.former.rows().flat_map(|(_, ids)| ids);
        let nodes = known.cluster.nodes.iter().map(|node| &node.id);
        let highest = former.chain(nodes).max().copied().unwrap_or(0);
        let words = changes.iter().filter_map(|change| match change {
            Change::Add(words) => Some(words.as_str()),
            _ => None,
        });
        let mut lines = Vec::new();
        for (place, words) in (1..).zip(words) {
            let Some(id) = highest.checked_add(place) else {
                let words = escaped(words);
                let what = format!("--add \"{words}\": no id is left above {highest}");
                return Err(Failure::bad(what));
            };
            if words.contains('\n') || words.split_whitespace().count() < 2 {
                let what = "--add takes a zone and a capacity, as \"attic 4T\", and perhaps a name";
                return Err(Failure::Usage(what.into()));
            }
            lines.push((id, words));
        }
        Ok(Added {
            first_line: text.split(|byte| *byte == b'\n').count() + 1,
            lines,
        })
    }

    /// The text with the lines below it.
    fn below(&self, text: &[u8]) -> Vec<u8> {
        let lines = self.lines.iter();
        let lines: String = lines
            .map(|(id, words)| format!("\nbox {id} {words}"))
            .collect();
        [text, lines.as_bytes()].concat()
    }

    /// What is to be said of one of these lines; the file's own have been told of already.
    fn told(&self, note: &Note) -> Option<String> {
        let place = note.line?.checked_sub(self.first_line)?;
        let (_, words) = self.lines.get(place)?;
        Some(format!("--add \"{}\": {}", escaped(words), note.what))
    }
}

impl Step {
    /// Makes the change; told where the box is not there.
    pub fn make(&self, described: &mut Description) -> Result<(), String> {
        let (change, label) = match self {
            Step::Add(node, label, _) => (dezghuri::Change::Add(*node), label.clone()),
            Step::Remove(id) => (dezghuri::Change::Remove(*id), Label::default()),
            Step::Resize(id, capacity) => {
                let (id, capacity) = (*id, *capacity);
                (dezghuri::Change::Resize { id, capacity }, Label::default())
            }
            Step::Ceiling(id, ceiling) => return limit(described, *id, *ceiling),
        };
        let made = make(described, change, label);
        made.map(drop)
            .map_err(|refused| match (refused.refusal, self) {
                (Refusal::Absent, Step::Remove(id)) => {
                    format!("--remove {id}: there is no box {id}")
                }
                (Refusal::Absent, Step::Resize(id, _)) => {
                    format!("--resize {id}=..: there is no box {id}")
                }
                _ => refused.to_string(),
            })
    }

    /// The change as a line of a table has it.
    pub fn in_words(&self, described: &Description) -> String {
        match self {
            Step::Add(node, _, words) => format!("add \"{words}\" as box {}", node.id),
            Step::Remove(id) => format!("remove box {}", labels::in_words(described, *id)),
            Step::Resize(id, capacity) => format!(
                "resize box {} to {}",
                labels::in_words(described, *id),
                capacity_in_words(*capacity)
            ),
            Step::Ceiling(id, ceiling) => {
                let named = labels::in_words(described, *id);
                match labels::own_ceiling(*ceiling) {
                    Some(ceiling) => format!("ceiling {ceiling} for box {named}"),
                    None => format!("no ceiling for box {named}"),
                }
            }
        }
    }

    pub fn json(&self) -> Json {
        let (kind, id) = match self {
            Step::Add(node, _, _) => ("add", node.id),
            Step::Remove(id) => ("remove", *id),
            Step::Resize(id, _) => ("resize", *id),
            Step::Ceiling(id, _) => ("ceiling", *id),
        };
        let members = Json::Object(vec![("kind", kind.into()), ("id", id.into())]);
        match self {
            Step::Add(node, label, _) => members
                .with("name", label.name.as_str())
                .with("zone", label.zone.as_str())
                .with("capacity_mb", node.capacity),
            Step::Remove(_) => members,
            Step::Resize(_, capacity) => members.with("capacity_mb", *capacity),
            Step::Ceiling(_, ceiling) => members.with("ceiling", labels::own_ceiling(*ceiling)),
        }
    }
}

/// Makes a change by the proved function; the one that reverses it. The labels go with their boxes, and the
/// one that is handed in with a new box.
pub fn make(
    described: &mut Description,
    change: dezghuri::Change,
    label: Label,
) -> Result<dezghuri::Change, Refused> {
    let before = described.clone();
    let reverse = described.cluster.change(change)?;
    let known = |node: &Node| before.label(node.id).unwrap_or(&label).clone();
    described.labels = described.cluster.nodes.iter().map(known).collect();
    Ok(reverse)
}

/// Gives a box another ceiling.
fn limit(described: &mut Description, id: u32, ceiling: u16) -> Result<(), String> {
    let mut nodes = described.cluster.nodes.iter_mut();
    let node = nodes.find(|node| node.id == id);
    let node = node.ok_or_else(|| format!("--ceiling {id}=..: there is no box {id}"))?;
    node.ceiling = ceiling;
    Ok(())
}

/// Takes a box out of the cluster.
fn take(described: &mut Description, id: u32) -> Option<(Node, Label)> {
    let mut nodes = described.cluster.nodes.iter();
    let place = nodes.position(|node| node.id == id)?;
    let node = described.cluster.nodes.remove(place);
    Some((node, described.labels.remove(place)))
}

#[cfg(test)]
mod tests {
    use super::*;
    use dezghuri::Layout;

    const TEXT: &str = "copies 1\nzones 1\nbox 3 home 2T\nbox 7 shop 4T tower";

    fn tried(changes: &[Change]) -> Result<(Tried, Vec<String>), Failure> {
        let mut known: Description = TEXT.parse().unwrap();
        known.cluster.former = Layout::from_iter([(0, [7]), (5, [9])]);
        let mut warnings = Vec::new();
        let tried = Tried::new(TEXT.as_bytes(), &known, changes, &mut warnings)?;
        Ok((tried, warnings))
    }

    fn add(words: &str) -> Change {
        Change::Add(words.into())
    }

    /// Box 9 is gone, and its id is not used again; a zone of a number has another one than a name.
    #[test]
    fn added_boxes_have_new_ids_and_the_files_zones() {
        let changes = [add("shop 1T"), add("attic 5G new box"), add("0 7")];
        let (Tried { as_it_is, steps }, warnings) = tried(&changes).unwrap();
        assert_eq!(as_it_is.cluster.nodes.len(), 2);
        assert_eq!(as_it_is.cluster.former.row(5), [9]);
        let mut described = as_it_is.clone();
        for step in &steps {
            step.make(&mut described).unwrap();
        }
        let nodes = described.cluster.nodes.iter();
        let nodes: Vec<_> = nodes.map(|n| (n.id, n.zone, n.capacity)).collect();
        let expected = [
            (3, 1, 2_000_000),
            (7, 2, 4_000_000),
            (10, 2, 1_000_000),
            (11, 3, 5_000),
            (12, 0, 7),
        ];
        assert_eq!(nodes, expected);
        assert_eq!(described.labels[3].name, "new box");
        let small =
            "--add \"0 7\": box 12 has 7 MB, a thousandth of what others have, or less: is \
                     a G or T missing?";
        assert_eq!(warnings, [small]);
    }

    #[test]
    fn faults_are_told_with_the_words_of_the_call() {
        let told = |words: &str| match tried(&[add("home 5T"), add(words)]) {
            Err(failure) => failure.lines(),
            Ok(_) => panic!("{words} is at fault"),
        };
        let usage =
            "dezghuri: --add takes a zone and a capacity, as \"attic 4T\", and perhaps a name";
        assert_eq!(told("attic")[0], usage);
        assert_eq!(told("a 4T\nbox 8 a 4T")[0], usage);
        assert_eq!(
            told("10 attic 4T"),
            ["--add \"10 attic 4T\": a zone is one word: write 10-attic, and not '10 attic'"]
        );
        assert_eq!(
            told("Home 4T"),
            ["--add \"Home 4T\": zone 'Home' is written 'home' on line 3: write it one way"]
        );
    }

    #[test]
    fn boxes_that_are_not_there_are_told() {
        let mut described: Description = TEXT.parse().unwrap();
        let told = Step::Remove(9).make(&mut described).unwrap_err();
        assert_eq!(told, "--remove 9: there is no box 9");
        assert_eq!(Step::Resize(7, 5).make(&mut described), Ok(()));
        assert_eq!(described.cluster.nodes[1].capacity, 5);
        assert_eq!(Step::Remove(7).make(&mut described), Ok(()));
        let told = Step::Resize(7, 5).make(&mut described).unwrap_err();
        assert_eq!(told, "--resize 7=..: there is no box 7");
        assert_eq!(Step::Ceiling(3, 0).make(&mut described), Ok(()));
        assert_eq!(described.cluster.nodes[0].ceiling, 0);
        let told = Step::Ceiling(7, 5).make(&mut described).unwrap_err();
        assert_eq!(told, "--ceiling 7=..: there is no box 7");
    }

    #[test]
    fn the_last_id_has_none_above_it() {
        let text = "copies 1\nzones 1\nbox 4294967294 home 2T\n";
        let known: Description = text.parse().unwrap();
        let added = |changes: &[Change]| {
            let tried = Tried::new(text.as_bytes(), &known, changes, &mut Vec::new());
            tried.map(|_| ()).map_err(|failure| failure.lines())
        };
        assert_eq!(added(&[add("a 1T")]), Ok(()));
        let told = "--add \"b 1T\": no id is left above 4294967294";
        assert_eq!(added(&[add("a 1T"), add("b 1T")]), Err(vec![told.into()]));
    }
}
