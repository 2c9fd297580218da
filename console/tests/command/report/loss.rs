//! The part of the page that tells what lost boxes cost.

use super::{numbers, page_of, small, texts, thousandths, SMALL};
use crate::folder::{layout_record, Folder};
use crate::page::{Element, Part};
use crate::{one_box, planned_home};
use std::collections::BTreeMap;

/// The lines of the table of this class; none where the page has no such table.
fn table_lines<'a>(page: &'a Element, class: &str) -> Vec<&'a Element> {
    let tables = page.with_id("loss").of_class(class).into_iter();
    let lines = tables.flat_map(|table| table.named("tbody")[0].named("tr"));
    lines.collect()
}

/// The same, each as the words of its cells.
fn lines(page: &Element, class: &str) -> Vec<String> {
    let cells = |line: &Element| {
        let cells = line.all().into_iter();
        let cells = cells.filter(|cell| ["th", "td"].contains(&cell.name.as_str()));
        texts(cells.collect()).join("|")
    };
    table_lines(page, class).into_iter().map(cells).collect()
}

fn has_loss(page: &Element) -> bool {
    page.all().iter().any(|element| element.get("id") == "loss")
}

const NO_ZONE: &str =
    "If a zone is lost whole, no partition is: each has copies in two zones or more.";

/// 102 rows are 1 2 3, then 52 are 1 3 5, 51 are 1 4 5 and 51 are 3 4 5. So three boxes cost at most 102. Four cost
/// 102 + 52 without box 4, and 52 + 51 + 51, as many, without box 2; the others cost less.
#[test]
fn the_page_of_the_sample_tells_what_lost_boxes_cost() {
    let page = page_of(&planned_home("report-loss"), "home.txt last");
    let known = [
        "1 box|0 of 256|0.0 %|",
        "2 boxes|0 of 256|0.0 %|",
        "3 boxes|102 of 256|39.8 %|1 big tower, 2 old tower and 3 study",
        "4 boxes|154 of 256|60.1 %|1 big tower, 2 old tower, 3 study and 5",
    ];
    assert_eq!(lines(&page, "of-loss"), known);
    assert_eq!(texts(page.with_id("loss").named("p")), [NO_ZONE]);
    assert!(page.of_class("of-lost-zones").is_empty());
    let told = "What is lost at worst if so many boxes are lost at once. A partition is lost when all its copies are. \
                Every set of so many boxes was looked at, and none costs more; of those that cost as many the first is \
                named. Share is of all data, with the partitions equally full.";
    assert_eq!(page.with_id("loss").named("figcaption")[0].text(), told);
}

/// The partitions lie on boxes 1 and 2, 3 and 4, 5 and 6, 1 and 7. Three boxes cost two of them only where both
/// have box 1. With the six boxes of the first house all are lost but the last.
#[test]
fn a_house_of_many_boxes_is_lost_whole() {
    let folder = Folder::new("report-house");
    let boxes = (1..=6).map(|id| format!("box {id} R&D<1> 100 {}\n", ["", "a<b>&amp;"][id / 6]));
    let text = format!(
        "copies 2\nzones 1\nbits 2\n{}box 7 attic 100\n",
        boxes.collect::<String>()
    );
    folder.write("home.txt", text);
    let rows: [&[u32]; 4] = [&[1, 2], &[3, 4], &[5, 6], &[1, 7]];
    folder.write("next", layout_record(2, 10, &rows));
    let page = page_of(&folder, "home.txt next");
    let known = [
        "1 box|0 of 4|0.0 %|",
        "2 boxes|1 of 4|25.0 %|1 and 2",
        "3 boxes|2 of 4|50.0 %|1, 2 and 7",
        "4 boxes|2 of 4|50.0 %|1, 2, 3 and 4",
    ];
    assert_eq!(lines(&page, "of-loss"), known);
    let zones = ["R&D<1>|6|3 of 4|75.0 %", "attic|1|0 of 4|0.0 %"];
    assert_eq!(lines(&page, "of-lost-zones"), zones);
    assert!(page.with_id("loss").named("p").is_empty());
    agrees_with_tables(&page);

    // Only boxes 5 and 6 cost anything now.
    folder.write("next", layout_record(2, 10, &[&[5, 6][..]; 4]));
    let page = page_of(&folder, "home.txt next");
    let two = "2 boxes|4 of 4|100.0 %|5 and 6 a<b>&amp;";
    assert_eq!(lines(&page, "of-loss")[1], two);
    agrees_with_tables(&page);
}

/// Five copies, one in each box: four boxes leave one of each.
#[test]
fn where_nothing_is_lost_no_box_is_named() {
    let folder = Folder::new("report-nothing-lost");
    let boxes = (1..=5).map(|id| format!("box {id} house{id} 100 shelf {id}\n"));
    let text = format!("copies 5\nzones 2\nbits 1\n{}", boxes.collect::<String>());
    folder.write("home.txt", text);
    let page = page_of(&folder, "home.txt");
    let none = ["1 box", "2 boxes", "3 boxes", "4 boxes"];
    let none = none.map(|lost| format!("{lost}|0 of 2|0.0 %|"));
    assert_eq!(lines(&page, "of-loss"), none);
    let caption = page.with_id("loss").named("figcaption")[0].text();
    assert!(!caption.contains("named"), "{caption}");
    assert_eq!(texts(page.with_id("loss").named("p")), [NO_ZONE]);
    agrees_with_tables(&page);
}

#[test]
fn one_box_has_one_line() {
    let folder = Folder::new("report-one-box");
    folder.write("home.txt", one_box(100));
    let page = page_of(&folder, "home.txt");
    assert_eq!(lines(&page, "of-loss"), ["1 box|1 of 1|100.0 %|1"]);
    assert_eq!(lines(&page, "of-lost-zones"), ["home|1|1 of 1|100.0 %"]);
    agrees_with_tables(&page);
}

/// One that is too large for the disks is valid at another size, but it is not this one that would be lost.
#[test]
fn only_a_valid_layout_can_be_lost() {
    let folder = small("report-no-loss");
    let rows: [&[u32]; 4] = [&[1, 4], &[1, 3], &[1, 3], &[1, 4]];
    folder.write("large", layout_record(2, 40, &rows));
    let three = SMALL.replace("copies 2\nzones 2", "copies 4\nzones 4");
    folder.write("none.txt", three);
    assert!(has_loss(&page_of(&folder, "small.txt next")));
    for call in ["small.txt last", "small.txt large", "none.txt"] {
        let page = page_of(&folder, call);
        assert!(!page.of_class("danger").is_empty() || !page.of_class("refused").is_empty());
        assert!(!has_loss(&page), "{call}");
    }
}

/// What is told is of the layout after the moves, and that is said where copies move.
#[test]
fn it_is_the_new_layout_that_is_told_of() {
    let folder = small("report-loss-moved");
    let told = |call: &str| {
        let page = page_of(&folder, call);
        let caption = page.with_id("loss").named("figcaption")[0].text();
        caption.ends_with(" All this holds once the copies have moved.")
    };
    assert!(told("small.txt next --former last"));
    assert!(!told("small.txt next --former next"));
    assert!(!told("small.txt next"));

    // Box 1 had both partitions, and now has one of them.
    let text = "copies 1\nzones 1\nbits 1\nbox 1 home 90\nbox 2 home 90\n";
    folder.write("home.txt", text);
    folder.write("last", layout_record(1, 20, &[&[1], &[1]]));
    folder.write("next", layout_record(1, 20, &[&[1], &[2]]));
    let page = page_of(&folder, "home.txt next --former last");
    let known = ["1 box|1 of 2|50.0 %|1", "2 boxes|2 of 2|100.0 %|1 and 2"];
    assert_eq!(lines(&page, "of-loss"), known);
}

/// All sets of so many of these places, by rising place, the first first.
fn sets(places: usize, from: usize, number: usize) -> Vec<u32> {
    if number == 0 {
        return vec![0];
    }
    let with = |place: usize| {
        let rest = sets(places, place + 1, number - 1).into_iter();
        rest.map(move |set| set | 1 << place)
    };
    (from..places).flat_map(with).collect()
}

/// The layout as the page's own tables have it.
struct Tables {
    /// The boxes by id, each with its zone.
    boxes: BTreeMap<u32, String>,
    /// The boxes of each partition, a bit for each place.
    rows: Vec<u32>,
}

impl Tables {
    fn of(page: &Element) -> Tables {
        let of_id = |id: &str, line: &&Element| line.get("id").starts_with(id);
        let lines = page.with_id("tables").named("tr").into_iter();
        let lines = lines.filter(|line| of_id("box-", line));
        let line = |line: &Element| {
            let id = line.named("th")[0].text().parse().expect("an id");
            (id, line.named("td")[1].text())
        };
        let boxes: BTreeMap<u32, String> = lines.map(line).collect();
        let place = |id: u32| boxes.keys().position(|other| *other == id).expect("a box");
        let rows = page.with_id("partitions").named("tr").into_iter();
        let rows = rows.filter(|row| of_id("partition-", row));
        let row = |row: &Element| {
            let after = super::ids(row.named("td").last().expect("a row"));
            after.into_keys().map(|id| 1 << place(id)).sum()
        };
        let rows = rows.map(row).collect();
        Tables { boxes, rows }
    }

    /// The partitions that lie within a set of boxes.
    fn cost(&self, set: u32) -> u64 {
        self.rows.iter().filter(|row| **row & !set == 0).count() as u64
    }

    /// The most that so many boxes cost, and the first set of them by rising ids; none where they cost nothing.
    fn worst(&self, number: usize) -> (u64, Vec<u64>) {
        let sets = sets(self.boxes.len(), 0, number);
        let most = sets.iter().map(|set| self.cost(*set)).max().expect("a set");
        let first = sets
            .into_iter()
            .find(|set| most > 0 && self.cost(*set) == most);
        let first = first.unwrap_or(0);
        let ids = self.boxes.keys().enumerate();
        let ids = ids.filter(|(place, _)| first & 1 << place != 0);
        (most, ids.map(|(_, id)| u64::from(*id)).collect())
    }

    /// What each zone costs; nothing where none does.
    fn zones(&self) -> BTreeMap<String, u64> {
        let mut sets: BTreeMap<String, u32> = BTreeMap::new();
        for (place, zone) in self.boxes.values().enumerate() {
            *sets.entry(zone.clone()).or_default() |= 1 << place;
        }
        let costs = sets.into_iter().map(|(zone, set)| (zone, self.cost(set)));
        let costs: BTreeMap<String, u64> = costs.collect();
        match costs.values().all(|cost| *cost == 0) {
            true => BTreeMap::new(),
            false => costs,
        }
    }

    /// How many partitions a line of the page tells; the bar is as long.
    fn told(&self, line: &Element) -> u64 {
        let mut cells = line.named("td").into_iter();
        let told = cells.find(|cell| cell.text().contains(" of "));
        let told = numbers(&told.expect("a cell").text());
        let all = self.rows.len() as u64;
        assert_eq!(told[1], all);
        let bar = line.of_class("lost").into_iter();
        let drawn: u64 = bar.map(|part| thousandths(part.get("width"))).sum();
        assert_eq!(drawn, told[0] * 100_000 / all);
        told[0]
    }
}

/// The ids of a cell: what stands in it beside the names.
fn ids(cell: &Element) -> Vec<u64> {
    let texts = cell.parts.iter().map(|part| match part {
        Part::Text(text) => numbers(text),
        Part::Element(_) => Vec::new(),
    });
    texts.flatten().collect()
}

/// Each line has what is counted here from the page's own tables, over all sets of boxes.
pub fn agrees_with_tables(page: &Element) {
    let tables = Tables::of(page);
    let drawn = table_lines(page, "of-loss");
    assert_eq!(drawn.len(), tables.boxes.len().min(4));
    for (line, number) in drawn.into_iter().zip(1..) {
        let named = ids(line.named("td").last().expect("a cell"));
        assert_eq!((tables.told(line), named), tables.worst(number), "{number}");
    }
    let drawn = table_lines(page, "of-lost-zones").into_iter();
    let drawn = drawn.map(|line| (line.named("th")[0].text(), tables.told(line)));
    assert_eq!(drawn.collect::<BTreeMap<_, _>>(), tables.zones());
}
