//! What boxes are called, those that are gone included.

use crate::json::Json;
use crate::units::count;
use dezghuri::{Cluster, Description, Label, Node};

/// In the place of the zone of a box that the file does not have.
pub const GONE: &str = "not there any more";

/// What the owner calls a box; of one that is gone the file has no words.
pub fn of(described: &Description, id: u32) -> Label {
    let gone = || Label {
        name: String::new(),
        zone: GONE.into(),
    };
    described.label(id).cloned().unwrap_or_else(gone)
}

/// A box in a sentence: its id, with name and zone in brackets.
pub fn in_words(described: &Description, id: u32) -> String {
    let Label { name, zone } = of(described, id);
    match name.is_empty() {
        true => format!("{id} ({zone})"),
        false => format!("{id} ({name}, {zone})"),
    }
}

/// A box among many: its id, with its name in brackets where it has one.
pub fn named(described: &Description, id: u32) -> String {
    format!("box {}", numbered(id, &of(described, id).name))
}

/// The same without the word for it.
pub fn numbered(id: u32, name: &str) -> String {
    match name {
        "" => id.to_string(),
        _ => format!("{id} ({name})"),
    }
}

/// What the owner calls a zone that some box stands in.
pub fn zone(described: &Description, zone: u16) -> &str {
    let mut nodes = described.cluster.nodes.iter().zip(&described.labels);
    let found = nodes.find(|(node, _)| node.zone == zone);
    found.map_or(GONE, |(_, label)| &label.zone)
}

/// The box as an object: its id, what it is called, and whether the file has it.
pub fn json(described: &Description, id: u32) -> Json {
    let label = described.label(id);
    Json::Object(vec![
        ("id", id.into()),
        ("name", label.map_or("", |label| &label.name).into()),
        ("zone", label.map(|label| label.zone.clone()).into()),
        ("present", label.is_some().into()),
    ])
}

/// A ceiling that is one: below 256.
pub fn own_ceiling(ceiling: u16) -> Option<u16> {
    (ceiling < Node::NO_CEILING).then_some(ceiling)
}

/// The ceiling of a box, where it has one.
pub fn ceiling(node: &Node) -> Option<u16> {
    own_ceiling(node.ceiling)
}

/// The same in words.
pub fn ceiling_in_words(node: &Node) -> Option<String> {
    let copies = |ceiling: u16| count(ceiling.into(), "copy", "copies");
    ceiling(node).map(|ceiling| format!("at most {}", copies(ceiling)))
}

/// Whether some box has a ceiling: nothing is said of them where none has.
pub fn has_ceilings(cluster: &Cluster) -> bool {
    cluster.nodes.iter().any(|node| ceiling(node).is_some())
}

/// A box in a sentence, or several: the word for it, and the ids with their names.
pub fn boxes(described: &Description, ids: &[u32]) -> String {
    let word = if ids.len() == 1 { "box" } else { "boxes" };
    let numbered = ids.iter().map(|id| numbered(*id, &of(described, *id).name));
    format!("{word} {}", listed(numbered))
}

/// So many are named in a sentence; of more, only the number is told.
pub const NAMED: usize = 8;

/// The first few in a list with commas, and how many there are besides.
pub fn listed<T: ToString>(items: impl ExactSizeIterator<Item = T>) -> String {
    let more = items.len().saturating_sub(NAMED);
    let named: Vec<String> = items.take(NAMED).map(|item| item.to_string()).collect();
    match more {
        0 => joined(&named, "and"),
        _ => format!("{} and {more} more", named.join(", ")),
    }
}

/// All in a list with commas, but with this word before the last.
pub fn joined<T: AsRef<str>>(items: &[T], word: &str) -> String {
    let items: Vec<&str> = items.iter().map(AsRef::as_ref).collect();
    match &items[..] {
        [rest @ .., last] if !rest.is_empty() => format!("{} {word} {last}", rest.join(", ")),
        _ => items.concat(),
    }
}

#[cfg(test)]
mod tests {
    use super::*;

    #[test]
    fn a_few_are_named_and_the_others_counted() {
        let few = |n: u32| listed((1..n + 1).collect::<Vec<u32>>().iter());
        assert_eq!(few(0), "");
        assert_eq!(few(1), "1");
        assert_eq!(few(2), "1 and 2");
        assert_eq!(few(3), "1, 2 and 3");
        assert_eq!(few(8), "1, 2, 3, 4, 5, 6, 7 and 8");
        assert_eq!(few(10), "1, 2, 3, 4, 5, 6, 7, 8 and 2 more");
    }

    #[test]
    fn ceilings_are_told_below_256() {
        let told = |ceiling| {
            let (id, zone, capacity) = (1, 0, 5);
            ceiling_in_words(&Node {
                id,
                zone,
                capacity,
                ceiling,
            })
        };
        assert_eq!(told(0).as_deref(), Some("at most 0 copies"));
        assert_eq!(told(1).as_deref(), Some("at most 1 copy"));
        assert_eq!(told(255).as_deref(), Some("at most 255 copies"));
        assert_eq!(told(256), None);
    }

    #[test]
    fn boxes_are_called_by_id_name_and_zone() {
        let text = "copies 1\nzones 1\nbox 1 home 5 study\nbox 2 home 5\n";
        let described: Description = text.parse().unwrap();
        assert_eq!(in_words(&described, 1), "1 (study, home)");
        assert_eq!(in_words(&described, 2), "2 (home)");
        assert_eq!(in_words(&described, 3), "3 (not there any more)");
        let named = [1, 2, 3].map(|id| named(&described, id));
        assert_eq!(named, ["box 1 (study)", "box 2", "box 3"]);
        assert_eq!(boxes(&described, &[1]), "box 1 (study)");
        assert_eq!(boxes(&described, &[1, 2, 3]), "boxes 1 (study), 2 and 3");
    }
}
