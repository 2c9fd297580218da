//! Sheets of many boxes: no line is too wide, and each can be worked out from the sheet alone.

use super::planned;
use crate::folder::{layout_record, Folder};
use crate::read_json::{read, Value};
use reference::random::Random;
use std::collections::BTreeMap;

/// 32 boxes with ids from 1 on, in these zones, with disks of 1 to 5 TB.
fn text(copies: u32, zones: u32, zone_of: impl Fn(u32) -> u32) -> String {
    let boxes = (1..=32).map(|id| format!("box {id} house-{} {}T\n", zone_of(id), terabytes(id)));
    format!(
        "copies {copies}\nzones {zones}\n{}",
        boxes.collect::<String>()
    )
}

/// What the disk of a box has.
pub fn terabytes(id: u32) -> u32 {
    id % 5 * 7 % 5 + 1
}

/// A layout with rows that came about by chance, of 32 boxes from this id on, and its best successor.
pub fn scattered(name: &str, first: u32, copies: usize, text: &str) -> Folder {
    let mut r = Random::new(5);
    let mut row = || {
        let mut ids: Vec<u32> = (first..first + 32).collect();
        while ids.len() > copies {
            ids.remove(r.below(ids.len() as u64) as usize);
        }
        ids
    };
    let rows: Vec<Vec<u32>> = (0..256).map(|_| row()).collect();
    let rows: Vec<&[u32]> = rows.iter().map(Vec::as_slice).collect();
    let folder = Folder::new(name);
    folder.write("last", layout_record(8, 1, &rows));
    planned(folder, text)
}

/// Four copies in three zones, where most disks stand in one: zones make many rows dearer.
pub fn barn(name: &str) -> Folder {
    let zone_of = |id| if id < 17 { id % 4 } else { 4 };
    scattered(name, 1, 4, &text(4, 3, zone_of))
}

fn number(value: &Value) -> u64 {
    value.line().parse().expect("a number")
}

fn numbers(list: &Value) -> Vec<u64> {
    list.list().iter().map(number).collect()
}

/// The boxes of a certificate: id, zone and price.
fn boxes(object: &Value) -> Vec<(u64, String, u64)> {
    let of = |item: &Value| {
        (
            number(item.get("id")),
            item.get("zone").line(),
            number(item.get("price")),
        )
    };
    object.get("boxes").list().iter().map(of).collect()
}

/// What the cheapest row of a line costs, by the rules that stand on the sheet.
fn cheapest(line: &Value, boxes: &[(u64, String, u64)], copies: usize, zones: usize) -> u64 {
    if line.get("held_by") == &Value::Null {
        let mut held = numbers(line.get("held_prices"));
        let cost =
            |(_, _, price): &(u64, String, u64)| match held.iter().position(|one| one == price) {
                Some(at) => held.swap_remove(at),
                None => price + 1,
            };
        let mut costs: Vec<u64> = boxes.iter().map(cost).collect();
        assert!(held.is_empty(), "there are so many boxes of each price");
        costs.sort_unstable();
        return costs[..copies].iter().sum();
    }
    let held = numbers(line.get("held_by"));
    let mut costs: Vec<(u64, &str)> = Vec::new();
    for (id, zone, price) in boxes {
        costs.push((price + u64::from(!held.contains(id)), zone));
    }
    costs.sort_unstable();
    let mut firsts: BTreeMap<&str, u64> = BTreeMap::new();
    let (mut row, mut rest) = (Vec::new(), Vec::new());
    for (cost, zone) in costs {
        match row.len() < zones && firsts.insert(zone, cost).is_none() {
            true => row.push(cost),
            false => rest.push(cost),
        }
    }
    row.iter().chain(&rest[..copies - zones]).sum()
}

/// All numbers of the sheet of 256 partitions, from the prices of its boxes.
fn adds_up(folder: &Folder, copies: usize, zones: usize) -> Value {
    let done = folder.call("certify next.txt --former last next --json");
    assert_eq!((done.status, done.err.as_str()), (0, ""));
    let object = read(&done.out);
    let (boxes, lines) = (boxes(&object), object.get("lines").list());
    let all = |name: &str| lines.iter().map(|line| number(line.get(name))).sum::<u64>();
    assert_eq!(all("partitions"), 256);
    assert_eq!(all("together"), number(object.get("least_cost")));
    for line in lines {
        let costs: u64 = numbers(line.get("costs")).iter().sum();
        assert_eq!(costs, cheapest(line, &boxes, copies, zones), "{line:?}");
        assert_eq!(
            number(line.get("together")),
            costs * number(line.get("partitions"))
        );
    }
    let rooms = object.get("boxes").list().iter();
    let taken: u64 = rooms
        .map(|item| number(item.get("price")) * number(item.get("room")))
        .sum();
    assert_eq!(taken, number(object.get("most_prices")));
    let sent = number(object.get("sent"));
    assert_eq!(number(object.get("least_cost")) - taken, sent);
    object
}

/// The sheet, of which no line is too wide.
fn narrow(folder: &Folder) -> String {
    let done = folder.call("certify next.txt --former last next");
    assert_eq!((done.status, done.err.as_str()), (0, ""));
    for line in done.out.lines() {
        assert!(line.chars().count() <= 100, "{line}");
    }
    done.out
}

/// More than 32 sets of boxes held partitions, so that the lines go by prices; where zones make a row dearer, a
/// line names the boxes.
#[test]
fn a_sheet_of_many_sets_of_boxes_goes_by_prices() {
    let folder = barn("certify-by-prices");
    let object = adds_up(&folder, 4, 3);
    let lines = object.get("lines").list();
    let is_by_boxes = |line: &&Value| line.get("held_prices") == &Value::Null;
    let by_boxes = lines.iter().filter(is_by_boxes).count();
    assert!(0 < by_boxes && by_boxes < lines.len(), "{by_boxes}");
    let sheet = narrow(&folder);
    for told in [
        "A line stands for all partitions that boxes of these prices held before. What the 4 copies of such a\n\
         partition cost at least: take these prices as they are, those of all other boxes with 1 more, and of\n\
         all these numbers the 4 smallest. Zones are left out of that, since they can only make it more.\n",
        "\n  prices 0 0 1 1 ",
        "\n  boxes ",
    ] {
        assert!(sheet.contains(told), "{sheet}");
    }
}

/// With one zone wanted there is nothing that makes a row dearer, and nothing is said of zones.
#[test]
fn a_sheet_by_prices_says_nothing_of_zones_that_do_not_matter() {
    let folder = scattered("certify-one-zone", 1, 8, &text(8, 1, |id| id % 8));
    let object = adds_up(&folder, 8, 1);
    let lines = object.get("lines").list();
    assert!(lines.iter().all(|line| line.get("held_by") == &Value::Null));
    let sheet = narrow(&folder);
    assert!(
        !sheet.contains("Zones") && !sheet.contains("\n  boxes "),
        "{sheet}"
    );
}

/// The longest rows in lines by boxes: at most 32 sets of eight.
#[test]
fn a_sheet_by_boxes_is_not_too_wide() {
    let folder = Folder::new("certify-eight");
    folder.write("next.txt", text(8, 4, |id| id % 8));
    assert_eq!(folder.call("plan next.txt --out last").status, 0);
    let changed = text(8, 4, |id| id % 8).replace("5T", "2T");
    let folder = planned(folder, &changed);
    let object = adds_up(&folder, 8, 4);
    let lines = object.get("lines").list();
    assert!(lines
        .iter()
        .all(|line| line.get("held_prices") == &Value::Null));
    assert!(lines.len() > 10, "{}", lines.len());
    narrow(&folder);
}
