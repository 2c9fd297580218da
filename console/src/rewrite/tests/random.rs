//! Random texts with random changes.

use super::*;

/// How the parts of box lines are set apart.
#[derive(Clone, Copy, PartialEq, Eq)]
enum Style {
    /// In columns that have room for all words.
    Columns,
    Tabs,
    Single,
    /// Any blanks.
    Ragged,
}

/// Where the parts of a line begin after its indentation.
const COLUMNS: [usize; 6] = [0, 4, 10, 24, 38, 60];

const ZONES: [&str; 6] = ["home", "workshop", "h\u{fc}tte", "0", "7", "far-away-hut"];
const NAMES: [&str; 5] = ["", "", "study", "b\u{fc}ro unten", "the old big tower"];

fn pick<'a>(r: &mut Random, words: &[&'a str]) -> &'a str {
    words[r.below(words.len() as u64) as usize]
}

fn some_capacity(r: &mut Random) -> u32 {
    let unit = [0, 1, 1_000, 1_000_000][r.below(4) as usize];
    r.between(1, 4_000) as u32 * unit
}

/// Ceilings at both ends of the range, and between.
fn some_ceiling(r: &mut Random) -> u16 {
    match r.below(4) {
        0 => Node::NO_CEILING,
        1 => 0,
        _ => r.between(1, 255) as u16,
    }
}

fn ceiling_line(r: &mut Random, style: Style, indent: &str, id: u64, remark: &str) -> String {
    let blank = match style {
        Style::Tabs => "\t",
        Style::Ragged => pick(r, &[" ", "  ", "\t", " \t", "\u{a0}"]),
        _ => " ",
    };
    let zeros = pick(r, &["", "", "00"]);
    let ceiling = some_ceiling(r);
    let touching = remark.is_empty() || r.chance(20);
    let before_remark = if touching { "" } else { blank };
    format!("{indent}ceiling{blank}{zeros}{id}{blank}{zeros}{ceiling}{before_remark}{remark}")
}

fn box_line(r: &mut Random, style: Style, indent: &str, id: u64, remark: &str) -> String {
    let number = match r.chance(10) {
        true => format!("00{id}"),
        false => id.to_string(),
    };
    let zone = pick(r, &[&ZONES[..], &["07"]].concat());
    let capacity = match r.chance(30) {
        true => some_capacity(r).to_string(),
        false => capacity_in_words(some_capacity(r)),
    };
    let name = pick(r, &NAMES);
    let mut line = String::new();
    for (kind, text) in [WORD, &number, zone, &capacity, name, remark]
        .into_iter()
        .enumerate()
    {
        if kind > 0 && !text.is_empty() {
            line += &match style {
                Style::Columns => " ".repeat(COLUMNS[kind] - line.chars().count()),
                Style::Tabs => "\t".into(),
                Style::Single => " ".into(),
                Style::Ragged => pick(r, &[" ", "  ", "    ", "\t", " \t", "\u{a0}"]).into(),
            };
        }
        line += text;
    }
    if style == Style::Ragged && r.chance(20) {
        line = line.replace(" big", "  big") + pick(r, &[" ", "\t", "   "]);
    }
    format!("{indent}{line}")
}

/// Anywhere in the text, or right after the box.
fn ceiling_place(r: &mut Random, lines: &[String], id: u64) -> usize {
    let of_box = lines.iter().position(|line| id_of(line) == Some(id as u32));
    match r.chance(40) {
        true => of_box.expect("it has a line") + 1,
        false => r.below(lines.len() as u64 + 1) as usize,
    }
}

fn some_text(r: &mut Random, style: Style) -> String {
    let indent = pick(r, &["", "", "  ", "\t"]);
    let mut remarks = 0;
    let mut remark = |r: &mut Random, percent| {
        remarks += 1;
        match r.chance(percent) {
            true => format!(
                "# remark {remarks} # box 3 {}",
                pick(r, &["", "x ", "\u{e9}"])
            ),
            false => String::new(),
        }
    };
    let mut ids: Vec<u64> = (0..r.between(1, 8)).map(|_| r.between(1, 40)).collect();
    if r.chance(70) {
        ids.sort();
    }
    ids.dedup();
    let mut lines = vec!["copies 2".to_string(), "  zones\t1 # z".to_string()];
    let mut seen = Vec::new();
    for id in ids {
        if seen.contains(&id) {
            continue;
        }
        seen.push(id);
        let text = remark(r, 40);
        lines.push(box_line(r, style, indent, id, &text));
        if r.chance(30) {
            lines.push(remark(r, 60));
        }
    }
    for id in seen
        .into_iter()
        .filter(|_| r.chance(40))
        .collect::<Vec<u64>>()
    {
        let text = remark(r, 40);
        let line = ceiling_line(r, style, indent, id, &text);
        let place = ceiling_place(r, &lines, id);
        lines.insert(place, line);
    }
    let place = r.below(lines.len() as u64 + 1) as usize;
    lines.insert(place, pick(r, &["bits 3", "# first", " ", ""]).into());
    let end = pick(r, &["\n", "\r\n"]);
    let mut text = lines.join(end) + pick(r, &["", end, end]);
    text.insert_str(0, pick(r, &["", "", BYTE_ORDER_MARK]));
    text
}

/// Changes of each kind; one box at least is left.
fn change(r: &mut Random, described: &mut Description) {
    for _ in 0..r.below(6) {
        let ids: Vec<u32> = described.cluster.nodes.iter().map(|n| n.id).collect();
        let id = ids[r.below(ids.len() as u64) as usize];
        let new = r.between(1, 50) as u32;
        let (zone, name) = (pick(r, &ZONES), pick(r, &NAMES));
        let (capacity, ceiling) = (some_capacity(r), some_ceiling(r));
        match r.below(4) {
            0 if ids.len() > 1 => remove(described, id),
            1 => resize(described, id, capacity),
            2 if ids.len() > 1 => {
                replace(described, id, zone, capacity, name);
                limit(described, id, ceiling);
            }
            _ if !ids.contains(&new) => {
                add(described, new, zone, capacity, name);
                limit(described, new, ceiling);
            }
            _ => (),
        }
    }
}

fn lines(text: &str) -> Vec<Line<'_>> {
    let text = text.strip_prefix(BYTE_ORDER_MARK).unwrap_or(text);
    text.split_inclusive('\n').map(Line::new).collect()
}

/// The id of a box line, by a way of its own.
fn id_of(line: &str) -> Option<u32> {
    id_after("box", line)
}

/// The id of the line of a ceiling.
fn ceiling_of(line: &str) -> Option<u32> {
    id_after("ceiling", line)
}

fn id_after(word: &str, line: &str) -> Option<u32> {
    let mut words = line.split('#').next()?.split_whitespace();
    (words.next() == Some(word)).then(|| words.next().unwrap().parse().unwrap())
}

fn remark_of(line: &str) -> Option<&str> {
    line.find('#').map(|at| &line[at..])
}

fn same_box(before: &Description, after: &Description, id: u32) -> bool {
    let words = |d| find(d, id).map(|(node, label)| (node.capacity, label.clone()));
    words(before) == words(after)
}

/// The ceiling of a box that is there.
fn ceiling(described: &Description, id: u32) -> Option<u16> {
    find(described, id).map(|(node, _)| node.ceiling)
}

/// What becomes of a line: nothing but its remark stays, it changes, or it stays as it is.
#[derive(Clone, Copy, PartialEq, Eq)]
enum Fate {
    Goes,
    Changes,
    Stays,
}

fn fate(line: &str, before: &Description, after: &Description) -> Fate {
    match (id_of(line), ceiling_of(line)) {
        (Some(id), _) | (_, Some(id)) if !after.has(id) => Fate::Goes,
        (Some(id), _) if !same_box(before, after, id) => Fate::Changes,
        (_, Some(id)) if ceiling(before, id) == ceiling(after, id) => Fate::Stays,
        (_, Some(id)) if ceiling(after, id) == Some(256) => Fate::Goes,
        (_, Some(_)) => Fate::Changes,
        _ => Fate::Stays,
    }
}

/// Line by line: what stays is the same, and what changes keeps its remark.
fn check_lines(text: &str, rewritten: &str, before: &Description, after: &Description) {
    let old = lines(text);
    let mut left = lines(rewritten);
    left.retain(|line| {
        let id = ceiling_of(line.text);
        let is_new = id.is_some() && old.iter().all(|old| ceiling_of(old.text) != id);
        !is_new && id_of(line.text).is_none_or(|id| before.has(id))
    });
    let mut left = left.into_iter();
    for (number, line) in old.iter().enumerate() {
        let fate = fate(line.text, before, after);
        if fate == Fate::Goes && remark_of(line.text).is_none() {
            continue;
        }
        let new = left.next().expect("there is a line for it");
        match fate {
            Fate::Goes => assert_eq!(Some(new.text), remark_of(line.text)),
            Fate::Changes => {
                assert_eq!(id_of(new.text), id_of(line.text));
                assert_eq!(ceiling_of(new.text), ceiling_of(line.text));
                assert_eq!(remark_of(new.text), remark_of(line.text));
            }
            Fate::Stays => assert_eq!(new.text, line.text),
        }
        let is_last = number + 1 == old.len();
        assert!(new.end == line.end || is_last && line.end.is_empty());
    }
    assert!(left.next().is_none());
}

/// The line of a ceiling that the old text does not have stands right after its box.
fn check_ceilings(text: &str, rewritten: &str) {
    let ids = |text: &str| -> Vec<Option<u32>> {
        let lines = lines(text).into_iter();
        lines.map(|line| ceiling_of(line.text)).collect()
    };
    let (old, all) = (ids(text), lines(rewritten));
    for (place, id) in ids(rewritten).into_iter().enumerate() {
        if id.is_some() && !old.contains(&id) {
            assert_eq!(id_of(all[place - 1].text), id);
        }
    }
}

/// New boxes follow the last old one of a smaller id, with its ceiling, or come before all.
fn check_places(rewritten: &str, before: &Description, after: &Description) {
    let mut all = lines(rewritten);
    all.retain(|line| ceiling_of(line.text).is_none());
    let is_old = |id: u32| before.has(id) && after.has(id);
    let ids: Vec<Option<u32>> = all.iter().map(|line| id_of(line.text)).collect();
    for (place, id) in ids.iter().enumerate() {
        let Some(id) = id.filter(|id| !is_old(*id)) else {
            continue;
        };
        let smaller = ids
            .iter()
            .rposition(|i| i.is_some_and(|i| is_old(i) && i < id));
        let first = ids.iter().position(|i| i.is_some_and(is_old));
        let between = match (smaller, first) {
            (Some(old), _) => &ids[old + 1..=place],
            (None, Some(first)) => &ids[place..first],
            (None, None) => &ids[place..],
        };
        let new: Vec<u32> = between.iter().map(|i| i.expect("a box")).collect();
        assert!(new.is_sorted() && !new.iter().any(|i| is_old(*i)),);
    }
}

/// Where the file had room for columns, or tabs, each box line has them still. A name has a column
/// only where the old text has one.
fn check_style(text: &str, rewritten: &str, style: Style) {
    let boxes = |text: &str| {
        let lines = lines(text).into_iter().map(|line| line.text.trim_start());
        let lines = lines.filter(|line| id_of(line).is_some());
        lines.map(String::from).collect::<Vec<String>>()
    };
    let parts = |line: &str| {
        let read = BoxLines::of([line].into_iter());
        [0, 1, 2, 3, 4, 5].map(|kind| read.lines[0].text(kind).unwrap_or("").to_string())
    };
    let had_name = boxes(text).iter().any(|line| !parts(line)[NAME].is_empty());
    for line in boxes(rewritten) {
        let mut expected = String::new();
        for (kind, text) in parts(&line).iter().enumerate() {
            if kind > 0 && !text.is_empty() {
                expected += &match style {
                    Style::Tabs => "\t".into(),
                    _ if kind == NAME && !had_name => " ".into(),
                    _ => " ".repeat(COLUMNS[kind] - expected.chars().count()),
                };
            }
            expected += text;
        }
        assert_eq!(line, expected);
    }
}

#[test]
fn whatever_changes_the_text_follows() {
    let mut r = Random::new(61);
    let mut changed = 0;
    for round in 0..8_000 {
        let styles = [Style::Columns, Style::Tabs, Style::Single, Style::Ragged];
        let style = styles[round % 4];
        let text = some_text(&mut r, style);
        let before = read(&text);
        let mut after = before.clone();
        change(&mut r, &mut after);
        let rewritten = after.rewritten(text.as_bytes());
        let rewritten = rewritten.unwrap_or_else(|| panic!("{text:?} to {after:?}"));
        let rewritten = String::from_utf8(rewritten).unwrap();
        assert!(after.agrees_with(&read(&rewritten)));
        let marks = [&text, &rewritten].map(|text| text.starts_with(BYTE_ORDER_MARK));
        assert_eq!(marks[0], marks[1]);
        check_lines(&text, &rewritten, &before, &after);
        check_places(&rewritten, &before, &after);
        check_ceilings(&text, &rewritten);
        if matches!(style, Style::Columns | Style::Tabs) {
            check_style(&text, &rewritten, style);
        }
        assert_eq!(
            after.rewritten(rewritten.as_bytes()),
            Some(rewritten.clone().into())
        );
        changed += u32::from(rewritten != text);
    }
    assert!((5_000..7_500).contains(&changed), "{changed}");
}
