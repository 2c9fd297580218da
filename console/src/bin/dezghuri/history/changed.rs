//! What changed from one layout of the history to the next, in the owner's words.

use super::line::{KeptBox, Line};
use crate::labels;
use crate::terminal::escaped;
use crate::units::{capacity_in_words, count};
use dezghuri::Node;

impl Line {
    /// What is wanted, and of which boxes.
    pub fn in_words(&self) -> String {
        let ids = self.boxes.iter().map(|kept| kept.id);
        format!(
            "{}, {}, {}, {} {}",
            self.copies_in_words(),
            self.zones_in_words(),
            self.partitions_in_words(),
            if ids.len() == 1 { "box" } else { "boxes" },
            labels::listed(ids)
        )
    }

    fn copies_in_words(&self) -> String {
        count(self.copies.into(), "copy", "copies")
    }

    fn zones_in_words(&self) -> String {
        count(self.zones.into(), "zone", "zones")
    }

    fn partitions_in_words(&self) -> String {
        count(self.partitions(), "partition", "partitions")
    }

    pub fn partitions(&self) -> u64 {
        1 << self.bits.min(31)
    }

    /// What changed since the layout before; nothing where it was only planned again.
    pub fn changes_since(&self, before: &Line) -> Vec<String> {
        let mut changes = Vec::new();
        for words in [
            Line::copies_in_words,
            Line::zones_in_words,
            Line::partitions_in_words,
        ] {
            if words(self) != words(before) {
                changes.push(format!("{} instead of {}", words(self), words(before)));
            }
        }
        for gone in before.boxes.iter().filter(|kept| !self.has(kept.id)) {
            changes.push(format!("box {} gone", gone.id));
        }
        for kept in &self.boxes {
            match before.boxes.iter().find(|other| other.id == kept.id) {
                Some(before) => changes.extend(kept.changes_since(before)),
                None => changes.push(kept.as_new()),
            }
        }
        changes
    }

    fn has(&self, id: u32) -> bool {
        self.boxes.iter().any(|kept| kept.id == id)
    }
}

impl KeptBox {
    fn as_new(&self) -> String {
        let (id, capacity) = (self.id, capacity_in_words(self.capacity));
        let ceiling = match labels::own_ceiling(self.ceiling) {
            Some(ceiling) => format!(", ceiling {ceiling}"),
            None => String::new(),
        };
        format!(
            "box {id} new ({capacity}, {}{ceiling})",
            escaped(&self.zone)
        )
    }

    fn changes_since(&self, before: &KeptBox) -> Vec<String> {
        let id = self.id;
        let mut changes = Vec::new();
        if self.capacity != before.capacity {
            let [from, to] = [before.capacity, self.capacity].map(capacity_in_words);
            changes.push(format!("box {id} from {from} to {to}"));
        }
        if self.zone != before.zone {
            let [from, to] = [before, self].map(|kept| escaped(&kept.zone));
            changes.push(format!("box {id} from {from} to {to}"));
        }
        match (before.ceiling, self.ceiling) {
            (from, to) if from == to => (),
            (_, Node::NO_CEILING) => changes.push(format!("box {id} without its ceiling")),
            (Node::NO_CEILING, to) => changes.push(format!("box {id} with the ceiling {to}")),
            (from, to) => changes.push(format!("box {id} with the ceiling {to} instead of {from}")),
        }
        changes
    }
}

#[cfg(test)]
mod tests {
    use super::*;
    use crate::history::moment::Moment;

    fn line(boxes: &[(u32, &str, u32, u16)]) -> Line {
        let kept = |(id, zone, capacity, ceiling): &(u32, &str, u32, u16)| KeptBox {
            id: *id,
            zone: (*zone).into(),
            capacity: *capacity,
            ceiling: *ceiling,
        };
        Line {
            date: Moment::parse("2026-11-17T21:23:02Z").unwrap(),
            version: 1,
            name: "last".into(),
            sum: 1,
            former: None,
            replaced: None,
            text: 2,
            staged: None,
            size: 3,
            sent: 4,
            is_finished: true,
            copies: 3,
            zones: 1,
            bits: 8,
            boxes: boxes.iter().map(kept).collect(),
        }
    }

    #[test]
    fn changes_of_boxes_are_told() {
        let before = line(&[
            (1, "shop", 4_000_000, 256),
            (3, "home", 4_000_000, 40),
            (4, "home", 1_500_000, 40),
            (5, "home", 3_000_000, 256),
        ]);
        let after = line(&[
            (1, "shop", 4_000_000, 10),
            (3, "shop", 8_000_000, 256),
            (4, "home", 1_500_000, 41),
            (6, "archive", 4_000_000, 256),
            (7, "2", 5, 0),
        ]);
        let told = [
            "box 5 gone",
            "box 1 with the ceiling 10",
            "box 3 from 4T to 8T",
            "box 3 from home to shop",
            "box 3 without its ceiling",
            "box 4 with the ceiling 41 instead of 40",
            "box 6 new (4T, archive)",
            "box 7 new (5M, 2, ceiling 0)",
        ];
        assert_eq!(after.changes_since(&before), told);
        assert!(after.changes_since(&after).is_empty());
    }

    #[test]
    fn changes_of_what_is_wanted_are_told() {
        let before = line(&[(1, "shop", 5, 256)]);
        let after = Line {
            copies: 1,
            zones: 2,
            bits: 0,
            ..before.clone()
        };
        let told = [
            "1 copy instead of 3 copies",
            "2 zones instead of 1 zone",
            "1 partition instead of 256 partitions",
        ];
        assert_eq!(after.changes_since(&before), told);
        assert_eq!(after.in_words(), "1 copy, 2 zones, 1 partition, box 1");
    }
}
