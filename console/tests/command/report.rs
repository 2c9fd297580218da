//! The page that shows a layout.

mod loss;

use crate::folder::{layout_record, Folder};
use crate::page::{self, Element};
use crate::{planned_home, THREE};
use std::collections::{BTreeMap, BTreeSet};

/// Box 1 has a name that would be a tag; boxes 2 and 9 are gone; box 4 is new.
const SMALL: &str = "copies 2\nzones 2\nbits 2\nbox 1 shop 110 <b>&\"\nbox 3 home 60 study\n\
                     box 4 home 60\nbox 4294967295 attic 0 the last one\n";

/// Box 1, of which 104 MB may be filled, takes each partition, since all others stand in one zone; so at
/// most 26 MB. At 26 MB the others, of which 57 MB may be filled, take two copies each, and box 3 keeps
/// the two that it has.
fn small(name: &str) -> Folder {
    let folder = Folder::new(name);
    folder.write("small.txt", SMALL);
    let before: [&[u32]; 4] = [&[1, 2], &[1, 3], &[2, 3], &[2, 9]];
    folder.write("last", layout_record(2, 20, &before));
    let after: [&[u32]; 4] = [&[1, 4], &[1, 3], &[1, 3], &[1, 4]];
    folder.write("next", layout_record(2, 26, &after));
    folder
}

/// The page that a call writes.
fn page_of(folder: &Folder, call: &str) -> Element {
    let done = folder.call(&format!("report {call} --out page.html"));
    assert_eq!(done.err, "");
    page::read(std::str::from_utf8(&folder.read("page.html")).expect("text"))
}

fn lead(page: &Element) -> String {
    page.of_class("lead")[0].text()
}

#[test]
fn the_page_of_a_small_cluster() {
    let folder = small("report-small");
    let done = folder.call("report small.txt next --former last --out page.html");
    assert_eq!((done.status, done.err.as_str()), (0, ""));
    assert_eq!(done.out, include_str!("report.txt"));
    let page = String::from_utf8(folder.read("page.html")).expect("text");
    assert!(
        page == include_str!("report.html"),
        "the page differs from report.html:\n{page}"
    );
    let names = ["last", "next", "page.html", "small.txt"];
    assert_eq!(folder.names(), names);
}

#[test]
fn names_are_shown_as_they_are_written() {
    let page = page_of(&small("report-names"), "small.txt next --former last");
    assert_eq!(page.with_id("box-1").named("td")[0].text(), "<b>&\"");
    let labels: Vec<String> = page
        .of_class("label")
        .iter()
        .map(|label| label.text())
        .collect();
    let shown = labels.iter().filter(|label| *label == "1 <b>&\"");
    assert_eq!(shown.count(), 2, "at its bar and in the map: {labels:?}");
}

/// A page needs no other file and no program, and each link in it has its end.
fn stands_alone(text: &str) {
    for word in [
        "<script", "http", "src=", "@import", "<link", "<img", "\u{fffd}",
    ] {
        assert!(!text.contains(word), "{word}");
    }
    let page = page::read(text);
    let ids: Vec<&str> = page.all().iter().map(|element| element.get("id")).collect();
    let ids: Vec<&str> = ids.into_iter().filter(|id| !id.is_empty()).collect();
    let different: BTreeSet<&str> = ids.iter().copied().collect();
    assert_eq!(ids.len(), different.len(), "an id comes twice");
    let links = page.all().into_iter().map(|element| element.get("href"));
    for link in links.filter(|link| !link.is_empty()) {
        let id = link.strip_prefix('#').expect("a link into the page");
        assert!(different.contains(id), "{link}");
    }
    for part in text.split("url(").skip(1) {
        let (id, _) = part.split_once(')').expect("it ends");
        assert!(different.contains(id.trim_start_matches('#')), "{id}");
    }
    for figure in page
        .named("svg")
        .iter()
        .filter(|svg| svg.get("aria-hidden") != "true")
    {
        assert!(!figure.named("title").is_empty(), "{figure:?}");
    }
}

/// A number of the page: digits, with commas, a sign or a unit.
fn number(text: &str) -> u64 {
    let digits: String = text.chars().filter(char::is_ascii_digit).collect();
    digits.parse().unwrap_or(0)
}

/// Thousandths of a percent.
fn thousandths(text: &str) -> u64 {
    let (whole, rest) = text
        .trim_end_matches('%')
        .split_once('.')
        .unwrap_or((text.trim_end_matches('%'), ""));
    number(whole) * 1000 + number(&format!("{rest:0<3}"))
}

/// The parts of each bar come to its disk, which is as long as the table says; the last is a sixteenth
/// of it, rounded down, and there is none where that is 0.
fn bars_add_up(page: &Element, capacities: &BTreeMap<u32, u64>, whole: u64) {
    let mut seen = BTreeSet::new();
    for line in page.with_id("boxes").of_class("row") {
        let Some(bar) = line.of_class("bar").first().copied() else {
            continue;
        };
        let id: u32 = line.of_class("id")[0].text().parse().expect("an id");
        let Some(capacity) = capacities.get(&id) else {
            assert_eq!(bar.of_class("gone").len(), 1, "box {id}");
            continue;
        };
        let mut end = 0;
        for part in bar.named("rect") {
            assert_eq!(thousandths(part.get("x")), end, "box {id}");
            end += thousandths(part.get("width"));
        }
        assert_eq!(end, capacity * 100_000 / whole, "box {id}");
        stays_free(
            bar,
            *capacity,
            end - (capacity - capacity / 16) * 100_000 / whole,
        );
        seen.insert(id);
    }
    assert!(seen.iter().eq(capacities.keys()));
}

/// The bar ends in a part of this width that stays free, and its title tells the megabytes.
fn stays_free(bar: &Element, capacity: u64, width: u64) {
    let drawn = bar.of_class("free");
    assert_eq!(drawn.len(), usize::from(capacity >= 16), "{capacity}");
    if let Some(last) = bar.named("rect").last().filter(|_| capacity >= 16) {
        assert_eq!(last.get("class"), "free", "{capacity}");
        assert_eq!(thousandths(last.get("width")), width);
    }
    let title = bar.named("title")[0].text();
    let (_, told) = title.rsplit_once(", free ").expect("it is told");
    let unit = if told.ends_with(" GB") { 1000 } else { 1 };
    assert_eq!(number(told), capacity / 16 / unit, "{title}");
}

/// The ids of a table's cell, each with the tag that it stands in.
fn ids(cell: &Element) -> BTreeMap<u32, String> {
    let mut found = BTreeMap::new();
    for part in &cell.parts {
        match part {
            page::Part::Text(text) => {
                let words = text.split_whitespace();
                found.extend(words.map(|id| (id.parse().expect("an id"), String::new())));
            }
            page::Part::Element(inner) if inner.name == "em" => (),
            page::Part::Element(inner) => {
                found.insert(inner.text().parse().expect("an id"), inner.name.clone());
            }
        }
    }
    found
}

/// The columns of a row of the map that are drawn in a class.
fn columns(row: &Element, class: &str) -> BTreeSet<usize> {
    let mut columns = BTreeSet::new();
    for path in row.of_class(class) {
        for run in path.get("d").split('M').skip(1) {
            let (from, rest) = run.split_once(' ').expect("a place");
            let long = rest.split(['h', 'v']).nth(1).expect("a length");
            let (from, long): (usize, usize) = (from.parse().unwrap(), long.parse().unwrap());
            columns.extend(from..from + long);
        }
    }
    columns
}

/// The rows before and after of each partition, as the table has them.
fn table(page: &Element) -> BTreeMap<u64, [BTreeMap<u32, String>; 2]> {
    let rows = page.with_id("partitions").named("tr").into_iter();
    let rows = rows.filter(|row| !row.get("id").is_empty());
    let row = |row: &Element| {
        let cells = row.named("td");
        (number(row.get("id")), [ids(cells[0]), ids(cells[1])])
    };
    rows.map(row).collect()
}

/// The partitions in the order of the map's columns.
fn order(map: &Element) -> Vec<u64> {
    let strip = map.of_class("strip")[0].named("rect");
    let groups = strip.iter().map(|group| group.named("title")[0].text());
    let numbers = |group: String| -> Vec<u64> { group.split(',').map(number).collect() };
    groups.flat_map(numbers).collect()
}

/// Each cell of the map is what the table of the partitions says.
fn map_agrees_with_table(page: &Element) {
    let (map, table) = (page.with_id("map"), table(page));
    let order = order(map);
    assert!(order
        .iter()
        .collect::<BTreeSet<_>>()
        .into_iter()
        .eq(table.keys()));
    let rows = map.of_class("row").into_iter();
    let rows: Vec<&Element> = rows.filter(|row| !row.of_class("id").is_empty()).collect();
    assert!(!rows.is_empty());
    for row in rows {
        let id: u32 = row.of_class("id")[0].text().parse().expect("an id");
        let drawn = ["kept", "orange", "hollow"].map(|class| columns(row, class));
        for (column, partition) in order.iter().enumerate() {
            let [before, after] = &table[partition];
            let (was, will) = (before.get(&id), after.get(&id));
            let cell = drawn.each_ref().map(|columns| columns.contains(&column));
            let (had, has) = (was.is_some(), will.is_some());
            let expected = [had && has, !had && has, had && !has];
            assert_eq!(cell, expected, "box {id}, partition {partition}");
            let struck = was.is_some_and(|tag| ["s", "del"].contains(&tag.as_str()));
            let bold = will.is_some_and(|tag| tag == "b");
            assert_eq!(
                [bold, struck],
                expected[1..],
                "box {id}, partition {partition}"
            );
        }
    }
}

/// The numbers of a cell, each apart from the others.
fn numbers(text: &str) -> Vec<u64> {
    let parts = text.split(|c: char| !c.is_ascii_digit());
    parts.filter_map(|part| part.parse().ok()).collect()
}

/// The steps are those of the table of the partitions: what comes, from the first box that has it still, and then
/// what goes; numbered without a gap.
fn steps_agree_with_table(page: &Element) {
    let mut next = 1;
    let mut table = table(page);
    let lines = page.with_id("steps").named("tr").into_iter();
    for line in lines.filter(|line| !line.named("td").is_empty()) {
        let cells = line.named("td");
        let cell = |place: usize| numbers(&cells[place].text());
        let [before, after] = table.remove(&cell(0)[0]).expect("a partition moves once");
        let of = |row: &BTreeMap<u32, String>, tag: &str| -> Vec<u64> {
            let ids = row.iter().filter(|(_, is)| *is == tag);
            ids.map(|(id, _)| u64::from(*id)).collect()
        };
        let (sends, drops) = (of(&after, "b"), of(&before, "s"));
        assert_eq!([cell(1), cell(3)], [sends.clone(), drops.clone()]);
        let here = before.iter().find(|(_, tag)| *tag != "del");
        let source = here.map(|(id, _)| u64::from(*id));
        let source = source.filter(|_| !sends.is_empty());
        assert_eq!(cell(2), Vec::from_iter(source));
        let is_lost = !sends.is_empty() && here.is_none();
        assert_eq!(cells[2].text() == "no source", is_lost);
        let (first, last) = (next, next + sends.len() + drops.len() - 1);
        let told = numbers(&line.named("th")[0].text());
        assert_eq!([told[0], told[told.len() - 1]], [first as u64, last as u64]);
        next = last + 1;
    }
    for [before, after] in table.values() {
        assert!(before.keys().eq(after.keys()) || before.values().any(|tag| tag == "del"));
        assert!(!after.values().any(|tag| tag == "b"));
    }
}

/// Copies to be received and to be dropped, as the table of the boxes says.
fn moved(page: &Element, id: &str) -> [u64; 2] {
    let cells = page.with_id(&format!("box-{id}"));
    let cells = cells.named("td");
    [2, 1].map(|place| number(&cells[cells.len() - place].text()))
}

/// What each box receives and drops is what the table of the boxes says, and so many copies are sent to it.
fn senders_agree_with_boxes(page: &Element) {
    let mut all = [0, 0];
    let table = page.with_id("moves").of_class("of-moves")[0];
    for line in table.named("tr").into_iter().skip(1) {
        let id = line.named("th")[0].text();
        let cells = line.named("td");
        let told = [1, 4].map(|place: usize| number(&cells[place].text()));
        if id == "all" {
            assert_eq!(told, all);
            continue;
        }
        assert_eq!(told, moved(page, &id), "box {id}");
        let from = cells[3].text();
        let copies = from.split('(').skip(1);
        let copies = copies.filter_map(|part| part.split(')').next());
        assert_eq!(copies.map(number).sum::<u64>(), told[0], "box {id}");
        all = [all[0] + told[0], all[1] + told[1]];
    }
    assert!(all[0] > 0, "something is sent");
}

/// A cell of the matrix by the id of its line and of its column, or by other words in the place of an id.
type Place = (String, String);

/// The cells of the matrix that are not empty: copies, and what they take.
fn matrix(page: &Element) -> BTreeMap<Place, [u64; 2]> {
    let table = page.with_id("moves").of_class("matrix")[0];
    let words = |head: &Element| head.text().split(' ').map(String::from).collect::<Vec<_>>();
    let heads = table.named("thead")[0].named("th").into_iter();
    let heads: Vec<Vec<String>> = heads.map(words).collect();
    let mut cells = BTreeMap::new();
    for line in table.named("tbody")[0].named("tr") {
        let from = match line.named("th")[0] {
            lost if lost.text() == "no source" => lost.text(),
            head => words(head)[0].clone(),
        };
        assert_eq!(line.named("td").len() + 1, heads.len(), "{from}");
        assert_eq!(from == "no source", !line.named("em").is_empty());
        for (cell, head) in line.named("td").into_iter().zip(&heads[1..]) {
            let text = cell.text();
            let Some((copies, takes)) = text.split_once(' ') else {
                assert_eq!((text.as_str(), cell.get("data-head")), ("", ""));
                continue;
            };
            let (told, to) = match head[0].as_str() {
                "to" => (head[..2].join(" "), head[1].clone()),
                _ => (head.join(" "), head[0].clone()),
            };
            assert_eq!(cell.get("data-head"), told, "{from}");
            let twice = cells.insert((from.clone(), to), [number(copies), number(takes)]);
            assert!(twice.is_none(), "{from} {told}");
        }
    }
    cells
}

/// Each cell of the matrix is what the table of the partitions says, sums included, and each column and what is
/// dropped what the table of the boxes says. `unit` is that of the page, in megabytes.
fn matrix_agrees_with_tables(page: &Element, size: u64, unit: u64) {
    let mut copies: BTreeMap<Place, u64> = BTreeMap::new();
    for [before, after] in table(page).values() {
        let source = before.iter().find(|(_, tag)| *tag != "del");
        let from = source.map_or_else(|| "no source".into(), |(id, _)| id.to_string());
        for (to, _) in after.iter().filter(|(_, tag)| *tag == "b") {
            for from in [from.as_str(), "all"] {
                for to in [to.to_string(), "all".into()] {
                    *copies.entry((from.into(), to)).or_default() += 1;
                }
            }
        }
    }
    let drawn = matrix(page);
    let expected = copies.into_iter();
    let expected = expected.map(|(place, copies)| (place, [copies, copies * size / unit]));
    assert_eq!(drawn, expected.collect());

    let ids = page.all().into_iter().map(|element| element.get("id"));
    let ids: Vec<&str> = ids.filter_map(|id| id.strip_prefix("box-")).collect();
    let mut dropped = BTreeMap::new();
    for id in ids {
        let [receives, drops] = moved(page, id);
        let sum = drawn.get(&("all".into(), id.into()));
        assert_eq!(sum.map_or(0, |sum| sum[0]), receives, "box {id}");
        dropped.extend((drops > 0).then_some((number(id), drops)));
    }
    let told = page.with_id("moves").of_class("drops")[0].text();
    let (list, sum) = told.split_once("; ").unwrap_or((&told, ""));
    let drops = list.split(", ").map(numbers);
    let drops = drops.filter(|part| !part.is_empty());
    let drops: BTreeMap<u64, u64> = drops.map(|part| (part[1], part[0])).collect();
    assert_eq!(drops, dropped, "{told}");
    if drops.len() > 1 {
        assert_eq!(number(sum), drops.values().sum::<u64>(), "{told}");
    }
}

/// The disks of the small cluster.
fn small_capacities() -> BTreeMap<u32, u64> {
    BTreeMap::from([(1, 110), (3, 60), (4, 60), (u32::MAX, 0)])
}

/// At 15 MB a disk may be filled, and at 16 one megabyte stays free; both hold a partition of 15 MB.
#[test]
fn small_disks_have_no_part_that_stays_free() {
    let folder = Folder::new("report-free");
    let text = "copies 2\nzones 1\nbits 0\nbox 1 home 15\nbox 2 home 16\nbox 3 home 4\n";
    folder.write("small.txt", text);
    let page = page_of(&folder, "small.txt");
    bars_add_up(&page, &BTreeMap::from([(1, 15), (2, 16), (3, 4)]), 16);
    let bar = |place: usize| page.of_class("bar")[place].named("title")[0].text();
    assert_eq!(
        [0, 1, 2].map(bar),
        [
            "Box 1: disk 15 MB, held 15 MB, unused 0 MB, free 0 MB",
            "Box 2: disk 16 MB, held 15 MB, unused 0 MB, free 1 MB",
            "Box 3: disk 4 MB, held 0 MB, unused 4 MB, free 0 MB",
        ]
    );
}

#[test]
fn bars_and_map_agree_with_the_tables() {
    let page = page_of(&small("report-agree"), "small.txt next --former last");
    bars_add_up(&page, &small_capacities(), 110);
    map_agrees_with_table(&page);
    steps_agree_with_table(&page);
    loss::agrees_with_tables(&page);
    matrix_agrees_with_tables(&page, 26, 1);

    let folder = planned_home("report-home");
    assert_eq!(
        folder.call("plan next.txt --former last --out next").status,
        0
    );
    let page = page_of(&folder, "next.txt next --former last");
    let tb = |n: u64| n * 1_000_000;
    let capacities = [(1, tb(4)), (2, tb(2)), (3, tb(4)), (4, tb(2)), (6, tb(4))];
    bars_add_up(&page, &BTreeMap::from(capacities), tb(4));
    map_agrees_with_table(&page);
    steps_agree_with_table(&page);
    loss::agrees_with_tables(&page);
    matrix_agrees_with_tables(&page, 19_531, 1000);
    let folded = page.with_id("steps").named("summary");
    assert_eq!(folded[0].text(), "192 partitions, 242 steps");
    let told = "3 copies of everything, in at least 2 zones. Each partition may grow to 19,531 MB: \
                4,999 GB in all. 198 copies (up to 3,867 GB) have to be sent, 44 dropped. Box 5 is \
                missing: 154 partitions have 2 of 3 copies, 51 of them in one zone only. Optimal: no \
                layout of this size needs fewer transfers.";
    assert_eq!(lead(&page), told);
}

/// Box 1 sends 6 + 141 copies of 19,531 MB and box 3 sends 51; what the columns come to is what comes in `diff`.
#[test]
fn the_sums_of_the_matrix_are_those_of_diff() {
    let folder = planned_home("report-matrix");
    assert_eq!(
        folder.call("plan next.txt --former last --out next").status,
        0
    );
    let page = page_of(&folder, "next.txt next --former last");
    let cells = matrix(&page);
    let expected = [
        ("1", "3", [6, 117]),
        ("1", "6", [141, 2753]),
        ("1", "all", [147, 2871]),
        ("3", "6", [51, 996]),
        ("3", "all", [51, 996]),
        ("all", "3", [6, 117]),
        ("all", "6", [192, 3749]),
        ("all", "all", [198, 3867]),
    ];
    let expected = expected.map(|(from, to, cell)| ((from.into(), to.into()), cell));
    assert_eq!(cells, BTreeMap::from(expected));
    let told = "To drop: 13 copies at box 1, 6 at box 2, 19 at box 3, 6 at box 4; 44 in all.";
    assert_eq!(page.of_class("drops")[0].text(), told);

    let diff = folder.call("diff next.txt last next").out;
    let boxes = diff.split("\n\n").nth(1).expect("the table of the boxes");
    let mut compared = 0;
    for line in boxes.lines().skip(1) {
        let words: Vec<&str> = line.split_whitespace().collect();
        let comes = [4, 3].map(|place| number(words[words.len() - place]));
        let sum = cells.get(&("all".into(), words[0].into()));
        assert_eq!(sum.copied().unwrap_or_default(), comes, "{line}");
        compared += 1;
    }
    assert_eq!(compared, 7, "six boxes and their sum");
}

/// The page of eleven boxes of which the first two send sixteen partitions to so many of the others.
fn page_of_receivers(folder: &Folder, receivers: u32) -> Element {
    let boxes = (1..=11).map(|id| format!("box {id} home 100\n"));
    let text = format!("copies 1\nzones 1\nbits 4\n{}", boxes.collect::<String>());
    folder.write("home.txt", text);
    let record = |box_of: &dyn Fn(u32) -> u32| {
        let rows: Vec<[u32; 1]> = (0..16).map(|p| [box_of(p)]).collect();
        let rows: Vec<&[u32]> = rows.iter().map(|row| row.as_slice()).collect();
        layout_record(4, 5, &rows)
    };
    folder.write("last", record(&|p| 1 + p % 2));
    folder.write("next", record(&|p| 3 + p % receivers));
    page_of(folder, "home.txt next --former last")
}

/// With eight boxes that receive there is a matrix; with nine it would be too wide, and each box has a line.
#[test]
fn a_matrix_has_at_most_eight_columns() {
    let folder = Folder::new("report-receivers");
    let page = page_of_receivers(&folder, 8);
    matrix_agrees_with_tables(&page, 5, 1);
    let cells = matrix(&page);
    let cell = |from: &str, to: &str| cells.get(&(from.into(), to.into())).copied();
    let found = [("1", "3"), ("2", "3"), ("2", "10"), ("2", "all")];
    let found = found.map(|(from, to)| cell(from, to));
    assert_eq!(found, [Some([2, 10]), None, Some([2, 10]), Some([8, 40])]);
    assert!(page.of_class("of-moves").is_empty());

    let page = page_of_receivers(&folder, 9);
    senders_agree_with_boxes(&page);
    assert!(page.of_class("matrix").is_empty() && page.of_class("drops").is_empty());
    let lines = page.with_id("moves").named("tr");
    let line = |place: usize| {
        let cells = lines[place].all().into_iter().skip(1);
        cells.map(Element::text).collect::<Vec<_>>().join("|")
    };
    assert_eq!(lines.len(), 13, "a head, eleven boxes and their sum");
    assert_eq!(
        [1, 3, 11, 12].map(line),
        [
            "1||0|0||8",
            "3||2|10|1 (1), 2 (1)|0",
            "11||1|5|1 (1)|0",
            "all||16|80||16"
        ]
    );
}

/// Where fewer copies are wanted than there were, none is sent, and what is dropped is told all the same.
#[test]
fn without_sends_there_is_no_matrix() {
    let folder = Folder::new("report-drops");
    let text = "copies 1\nzones 1\nbits 1\nbox 1 home 90\nbox 2 home 90\n";
    folder.write("home.txt", text);
    folder.write("last", layout_record(1, 20, &[&[1, 2], &[1, 2]]));
    for (after, told) in [
        ([[1], [2]], "1 copy at box 1, 1 at box 2; 2 in all"),
        ([[1], [1]], "2 copies at box 2"),
    ] {
        let rows = after.each_ref().map(|row| row.as_slice());
        folder.write("next", layout_record(1, 20, &rows));
        let page = page_of(&folder, "home.txt next --former last");
        let moves = page.with_id("moves");
        assert!(moves.named("table").is_empty());
        let words: Vec<String> = moves.named("p").into_iter().map(Element::text).collect();
        let told = format!("To drop: {told}.");
        assert_eq!(words, ["No copy has to be sent.", &told]);
    }
}

/// Eight of the so many ids from this one on for each partition, in no order that makes groups.
fn scattered(first: u32, many: u32, seed: u32) -> Vec<Vec<u32>> {
    let mut state = seed;
    let mut below = |most: usize| {
        state = state.wrapping_mul(1_664_525).wrapping_add(1_013_904_223);
        (state >> 8) as usize % most
    };
    let mut rows = Vec::new();
    for _ in 0..256 {
        let mut ids: Vec<u32> = (first..first + many).collect();
        while ids.len() > 8 {
            ids.remove(below(ids.len()));
        }
        rows.push(ids);
    }
    rows
}

/// The layout record of such rows.
fn record_of(rows: &[Vec<u32>]) -> Vec<u8> {
    let rows: Vec<&[u32]> = rows.iter().map(Vec::as_slice).collect();
    layout_record(8, 1, &rows)
}

/// The most boxes with the longest ids, names and zones, each with a ceiling that it may not reach; eight copies
/// each. All but one are new, or all were there before and nearly all copies move; or eight receive all that the
/// others send, but for one partition. In one zone there is room for all copies of a partition, and it has them of
/// one, so that each zone has a line of what it costs.
#[test]
fn the_largest_page_is_not_long() {
    let folder = Folder::new("report-largest");
    let boxes = (0..32u32).map(|b| {
        let (id, name) = (FIRST + b, "\"".repeat(200));
        let zone = format!("{}-{}", b.min(24), "\"".repeat(100));
        let capacity = 2 + b % 7;
        format!("box {id} {zone} {capacity}T {name}\nceiling {id} 255\n")
    });
    let text = format!("copies 8\nzones 1\n{}", boxes.collect::<String>());
    folder.write("home.txt", text);
    let others = scattered(FIRST + 8, 24, 1);
    let mut gathered = vec![(FIRST..FIRST + 8).collect::<Vec<u32>>(); 256];
    gathered[0].clone_from(&others[0]);
    let mut spread = scattered(FIRST, 32, 2);
    spread[255] = (FIRST + 24..FIRST + 32).collect();
    for (before, after) in [
        (scattered(FIRST - 31, 32, 1), spread.clone()),
        (others, gathered),
        (scattered(FIRST, 32, 1), spread),
    ] {
        folder.write("last", record_of(&before));
        folder.write("next", record_of(&after));
        let page = page_of(&folder, "home.txt next --former last");
        map_agrees_with_table(&page);
        steps_agree_with_table(&page);
        loss::agrees_with_tables(&page);
        match page.of_class("matrix").is_empty() {
            true => senders_agree_with_boxes(&page),
            false => matrix_agrees_with_tables(&page, 1, 1000),
        }
        let bytes = folder.read("page.html");
        assert!(bytes.len() < 500_000, "{}", bytes.len());
        stands_alone(std::str::from_utf8(&bytes).expect("text"));
    }
    let again = folder.call("report home.txt next --former last --out page.html");
    assert_eq!(again.status, 0, "it is known as a page: {}", again.err);
}

/// The first id of the largest cluster: all have ten digits.
const FIRST: u32 = 4_294_967_231;

/// Where nothing moves, and where it is not known what was there before, there are no steps to tell.
#[test]
fn a_page_without_moves_has_no_steps() {
    let folder = small("report-no-steps");
    for call in ["small.txt next", "small.txt next --former next"] {
        let page = page_of(&folder, call);
        let has = |id: &str| page.all().iter().any(|element| element.get("id") == id);
        assert!(has("partitions"), "{call}");
        assert!(!has("moves") && !has("steps"), "{call}");
    }
}

#[test]
fn a_page_stands_alone() {
    let folder = small("report-alone");
    for (call, status) in [
        ("small.txt next --former last", 0),
        ("small.txt next", 0),
        ("small.txt last", 1),
    ] {
        let done = folder.call(&format!("report {call} --out page.html"));
        assert_eq!((done.status, done.err.as_str()), (status, ""), "{call}");
        stands_alone(std::str::from_utf8(&folder.read("page.html")).expect("text"));
    }
}

/// What is lost or at risk stands above all else, as in the report of a plan.
#[test]
fn losses_come_first() {
    let page = page_of(&small("report-lost"), "small.txt next --former last");
    let told: Vec<String> = page.of_class("danger").iter().map(|p| p.text()).collect();
    let expected = [
        "Lost: 1 of 4 partitions has no surviving copy: 3.",
        "No box can send them: bring back a box that held them, or restore them from elsewhere.",
        "At risk: 2 of 4 partitions have one surviving copy only: 0, 2.",
    ];
    assert_eq!(told, expected);
    let marked = |partition: u32| {
        let row = page.with_id(&format!("partition-{partition}"));
        row.named("em")
            .iter()
            .map(|em| em.text())
            .collect::<String>()
    };
    assert_eq!(
        [0, 1, 2, 3].map(marked),
        ["one left", "", "one left", "none left"]
    );
}

/// The sentence on the layout of these rows, with the former layout and without.
fn leads(folder: &Folder, size: u32, rows: [&[u32]; 4]) -> [String; 2] {
    folder.write("other", layout_record(2, size, &rows));
    let with = page_of(folder, "small.txt other --former last");
    [lead(&with), lead(&page_of(folder, "small.txt other"))]
}

/// What the layout's own record says was true of the layout that it was planned from.
#[test]
fn only_what_holds_from_the_former_layout_is_told() {
    let folder = small("report-best");
    let start = |size: u32| {
        let all = size * 4;
        format!(
            "2 copies of everything, in at least 2 zones. Each partition may grow to {size} MB: \
             {all} MB in all."
        )
    };
    let best: [&[u32]; 4] = [&[1, 4], &[1, 3], &[1, 3], &[1, 4]];
    // Partitions 0 and 2 had a copy on box 2, partition 3 on boxes 2 and 9.
    let missing =
        "Boxes 2 and 9 are missing: 2 partitions have 1 of 2 copies; 1 partition has no copy.";
    let sent = format!("4 copies (up to 104 MB) have to be sent, none dropped. {missing}");
    let optimal = "Optimal: no layout of this size needs fewer transfers.";
    let fewest = format!("{} {sent} {optimal}", start(26));
    assert_eq!(leads(&folder, 26, best), [fewest, start(26)]);

    let swapped: [&[u32]; 4] = [&[1, 3], &[1, 3], &[1, 4], &[1, 4]];
    let sent = "5 copies (up to 130 MB) have to be sent, 1 dropped.";
    let [with, _] = leads(&folder, 26, swapped);
    let more = "Another layout of this size needs 1 fewer.";
    assert_eq!(with, format!("{} {sent} {missing} {more}", start(26)));

    let sent = "4 copies (up to 100 MB) have to be sent, none dropped.";
    let larger = "The disks allow 26 MB a partition: a new plan has more.";
    let with = format!("{} {sent} {missing} {larger}", start(25));
    let without = format!("{} {larger}", start(25));
    assert_eq!(leads(&folder, 25, best), [with, without]);
}

#[test]
fn without_a_layout_the_plan_is_shown() {
    let folder = planned_home("report-planned");
    let planned = page_of(&folder, "next.txt --former last");
    assert_eq!(
        folder.call("plan next.txt --former last --out next").status,
        0
    );
    let given = page_of(&folder, "next.txt next --former last");
    assert_eq!(lead(&planned), lead(&given));
    let rows = |page: &Element| page.with_id("partitions").text();
    assert_eq!(rows(&planned), rows(&given));
    let source = |page: &Element| page.of_class("small")[0].text();
    assert_eq!(
        source(&given),
        "The layout next on the boxes of next.txt. What moves is told from the former layout last."
    );
    assert_eq!(
        source(&planned),
        "The layout that a plan of next.txt comes to. What moves is told from the former layout last."
    );
}

#[test]
fn without_a_former_layout_nothing_moves() {
    let page = page_of(&small("report-still"), "small.txt next");
    assert!(page.of_class("danger").is_empty());
    for class in ["received", "orange", "hollow", "gone"] {
        let drawn =
            page.with_id("boxes").of_class(class).len() + page.with_id("map").of_class(class).len();
        assert_eq!(drawn, 0, "{class}");
    }
    let row: Vec<String> = page
        .with_id("partition-2")
        .all()
        .iter()
        .skip(1)
        .map(|cell| cell.text())
        .collect();
    assert_eq!(row, ["2", "1 3"]);
}

/// The page says why, and shows the boxes and nothing else: there is no layout, or one whose partitions
/// are others.
#[test]
fn a_refusal_has_its_page_too() {
    let folder = small("report-refused");
    folder.write(
        "four.txt",
        SMALL
            .replace("zones 2", "zones 4")
            .replace("copies 2", "copies 4"),
    );
    folder.write("eight.txt", SMALL.replace("bits 2", "bits 3"));
    let why =
        "There is no layout: 4 copies need 4 boxes with disk space, and 3 have any (refused 9).";
    let other =
        "last is not valid for eight.txt as it is now: it has bits 2, 3 are wanted (refused 10).";
    for (call, why) in [("four.txt", why), ("eight.txt last", other)] {
        let page = refused(&folder, call, why);
        assert_eq!(lead(&page), why);
        assert_eq!(page.of_class("bar").len(), 4);
        bars_add_up(&page, &small_capacities(), 110);
        assert!(page.all().iter().all(|element| element.get("id") != "map"));
    }
}

/// The page of a call that is refused for this reason.
fn refused(folder: &Folder, call: &str, why: &str) -> Element {
    let done = folder.call(&format!("report {call} --out page.html"));
    let told = format!("{why}\nWritten to page.html.\n");
    assert_eq!((done.status, done.err.as_str()), (1, ""), "{call}");
    assert!(done.out.starts_with(&told), "{}", done.out);
    let page = String::from_utf8(folder.read("page.html")).expect("text");
    stands_alone(&page);
    page::read(&page)
}

fn texts(elements: Vec<&Element>) -> Vec<String> {
    elements.iter().map(|element| element.text()).collect()
}

/// The words in red that stand on the line of this id.
fn red(page: &Element, id: &str) -> Vec<String> {
    texts(page.with_id(id).named("em"))
}

/// The titles of the bars in the part of the boxes.
fn titles(page: &Element) -> Vec<String> {
    let bars = page.with_id("boxes").of_class("bar");
    bars.iter()
        .map(|bar| bar.named("title")[0].text())
        .collect()
}

/// Boxes 2 and 9 are not in the file. At 20 MB box 1 holds 2 copies and box 3 as many; box 2 is to hold
/// 3, and box 9 one.
#[test]
fn a_layout_of_boxes_that_are_not_there_is_drawn() {
    let folder = small("report-astray");
    let why = "last is not valid for small.txt as it is now: partition 0 lies on box 2, which is \
               not there (refused 10).";
    let page = refused(&folder, "small.txt last", why);
    assert_eq!(texts(page.of_class("danger")), [why]);
    let told = "2 copies of everything, in at least 2 zones, are wanted. The layout is drawn as it was \
                planned, for partitions of 20 MB; what is at fault is red. 3 partitions are at fault: 0, \
                2, 3.";
    assert_eq!(lead(&page), told);
    let known = [
        "Box 1 (<b>&\"): disk 110 MB, held 40 MB, unused 64 MB, free 6 MB",
        "Box 3 (study): disk 60 MB, held 40 MB, unused 17 MB, free 3 MB",
        "Box 4: disk 60 MB, held 0 MB, unused 57 MB, free 3 MB",
        "Box 4294967295 (the last one): disk 0 MB, held 0 MB, unused 0 MB, free 0 MB",
        "Box 2, not there any more: the layout has 3 copies there",
        "Box 9, not there any more: the layout has 1 copy there",
    ];
    assert_eq!(titles(&page), known);
    let astray = page.with_id("boxes").of_class("astray");
    let widths: Vec<u64> = astray
        .iter()
        .map(|part| thousandths(part.get("width")))
        .collect();
    // One is in the legend; 60 and 20 of 110 MB.
    assert_eq!(widths, [24_000, 54_545, 18_181]);
    for (partition, faults) in [
        (0, &["2", "not there"][..]),
        (1, &[]),
        (2, &["2", "not there"]),
        (3, &["2", "9", "not there"]),
    ] {
        assert_eq!(red(&page, &format!("partition-{partition}")), faults);
    }
}

/// The sums are those of all eight copies; what the boxes have together is not known.
#[test]
fn boxes_that_are_not_there_have_their_lines_in_the_tables() {
    let folder = small("report-astray-tables");
    folder.call("report small.txt last --out page.html");
    let page = page::read(std::str::from_utf8(&folder.read("page.html")).expect("text"));
    let tables = page.with_id("tables").named("table");
    let lines: Vec<Vec<String>> = tables[0]
        .named("tr")
        .iter()
        .map(|tr| texts(tr.named("td")))
        .collect();
    let line = |copies: &str, used: &str| {
        ["", "not there any more", "-", copies, used, "-"].map(String::from)
    };
    assert_eq!(lines[5..7], [line("3", "60"), line("1", "20")]);
    assert_eq!(lines[7], ["", "", "-", "8", "160", "-"]);
    let zones = tables[1].named("tr");
    let last = texts(zones.last().expect("a line").named("td"));
    assert_eq!(last, ["2", "-", "4", "80", "-"]);
}

/// From `next` to `last` box 2 would receive partitions 0, 2 and 3, and box 9 partition 3; box 1 would drop
/// 2 and 3, and box 4 would drop 0 and 3.
#[test]
fn what_would_move_to_boxes_that_are_not_there_is_drawn() {
    let folder = small("report-straying");
    let why = "last is not valid for small.txt as it is now: partition 0 lies on box 2, which is \
               not there (refused 10).";
    let page = refused(&folder, "small.txt last --former next", why);
    let map = page.with_id("map");
    // Boxes 2 and 9 have a path each, and the legend one.
    assert_eq!(map.of_class("astray").len(), 3);
    assert!(page
        .all()
        .iter()
        .all(|e| !["moves", "steps", "why"].contains(&e.get("id"))));
    let sum = page.with_id("tables").of_class("sum");
    let cells = texts(sum[0].named("td"));
    assert_eq!(cells, ["", "", "-", "8", "160", "-", "4", "4"]);
}

/// In one zone partition 1 lies on boxes 3 and 4.
#[test]
fn a_layout_in_too_few_zones_is_drawn() {
    let folder = small("report-zones");
    let rows: [&[u32]; 4] = [&[1, 4], &[3, 4], &[1, 3], &[1, 4]];
    folder.write("other", layout_record(2, 10, &rows));
    let why =
        "other is not valid for small.txt as it is now: partition 1 lies in 1 zone (home), 2 are \
               wanted (refused 11).";
    let page = refused(&folder, "small.txt other", why);
    assert!(
        lead(&page).ends_with("red. 1 partition is at fault: 1."),
        "{}",
        lead(&page)
    );
    assert_eq!(red(&page, "partition-0"), [""; 0]);
    assert_eq!(red(&page, "partition-1"), ["1 of 2 zones"]);
    bars_add_up(&page, &small_capacities(), 110);
    folder.write("three.txt", SMALL.replace("copies 2", "copies 3"));
    let why =
        "other is not valid for three.txt as it is now: it has 2 copies of each partition, 3 are \
               wanted (refused 10).";
    let page = refused(&folder, "three.txt other", why);
    assert_eq!(red(&page, "partition-0"), ["2 of 3 copies"]);
}

/// At 40 MB box 1 is to hold 160 MB on a disk of 110, of which 104 may be filled, and box 3 is to hold 80
/// on one of 60, of which 57 may be; box 4 is to hold 80 too. Box 1 is above its ceiling besides.
#[test]
fn a_layout_that_is_too_large_is_drawn() {
    let folder = small("report-too-full");
    folder.write("small.txt", SMALL.to_owned() + "ceiling 1 3\n");
    let rows: [&[u32]; 4] = [&[1, 4], &[1, 3], &[1, 3], &[1, 4]];
    folder.write("other", layout_record(2, 40, &rows));
    let why = "other is not valid for small.txt as it is now: box 1 (<b>&\") is to hold 4 copies of 40 MB, \
               160 MB together, and may hold 104 MB of its 110 MB, since a sixteenth stays free, and its \
               ceiling is 3 (refused 12).";
    let page = refused(&folder, "small.txt other --former next", why);
    let told = "red. Too full: boxes 1 (<b>&\"), 3 (study) and 4.";
    assert!(lead(&page).ends_with(told), "{}", lead(&page));
    let known =
        "Box 1 (<b>&\"), above its ceiling of 3 copies: disk 110 MB, kept 160 MB, received 0 MB, \
                 too much 56 MB, unused 0 MB, free 0 MB";
    assert_eq!(titles(&page)[0], known);
    let bar = page.with_id("boxes").of_class("bar")[0];
    let parts: Vec<(&str, &str, &str)> = bar
        .named("rect")
        .iter()
        .map(|part| (part.get("class"), part.get("x"), part.get("width")))
        .collect();
    // The scale is 160 MB, the longest; 104 are 65 of a hundred.
    assert_eq!(parts, [("kept", "0%", "65%"), ("over", "65%", "35%")]);
    assert_eq!(bar.of_class("end")[0].get("x1"), "68.75%");
    let figures = page.with_id("boxes").of_class("figures");
    assert_eq!(texts(figures[0].named("em")), ["4 copies", "145.4 %"]);
    assert_eq!(red(&page, "box-1"), ["4", "160", "145.4 %"]);
    assert_eq!(red(&page, "box-3"), ["80", "133.3 %"]);
}

/// What the page begins with, as it is told where no page is written.
fn what_is_lost() -> String {
    let lines: Vec<&str> = include_str!("report.txt").lines().take(3).collect();
    format!(
        "warning: {}\n{}\nwarning: {}\n",
        lines[0], lines[1], lines[2]
    )
}

#[test]
fn only_a_page_is_replaced_by_a_page_and_it_is_kept() {
    let folder = small("report-replaced");
    let call = "report small.txt next --former last --out";
    for file in ["next", "last", "notes.html", "empty"] {
        folder.write("notes.html", "<!DOCTYPE html>\n<html lang=\"en\"></html>\n");
        folder.write("empty", "");
        let before = folder.read(file);
        let done = folder.call(&format!("{call} {file}"));
        let told = format!(
            "{file}: not written: there is a file there that is not a report page, and nothing else \
             is replaced\n"
        );
        let told = format!("{}{told}", what_is_lost());
        assert_eq!((done.status, done.err, done.out.as_str()), (2, told, ""));
        assert!(folder.read(file) == before);
    }
    let done = folder.call(&format!("{call} small.txt"));
    assert!(
        done.err.contains("would replace the description"),
        "{}",
        done.err
    );
    assert_eq!(
        folder.call("report small.txt next --out page.html").status,
        0
    );
    let first = folder.read("page.html");
    let done = folder.call(&format!("{call} page.html"));
    let told = "Written to page.html.\nThe report page before it is kept as page.html.old.\n";
    assert!(done.out.ends_with(told), "{}", done.out);
    assert!(folder.read("page.html.old") == first);
    assert!(folder.read("page.html") != first);
}

#[test]
fn faults_of_the_files_are_told_and_nothing_is_written() {
    let folder = planned_home("report-faults");
    folder.write("three.txt", THREE);
    for (call, told) in [
        (
            "next.txt nowhere",
            "nowhere: No such file or directory (os error 2)\n",
        ),
        (
            "next.txt home.txt",
            "home.txt: this is a text file, and not a layout record\n",
        ),
        (
            "three.txt --former last",
            "last was planned with bits 8, three.txt has bits 1: they cannot change\n",
        ),
    ] {
        let done = folder.call(&format!("report {call} --out page.html"));
        assert_eq!(
            (done.status, done.err.as_str(), done.out.as_str()),
            (2, told, ""),
            "{call}"
        );
    }
    let names = [
        "home.txt",
        "home.txt.history",
        "last",
        "next.txt",
        "three.txt",
    ];
    assert_eq!(folder.names(), names);
}
