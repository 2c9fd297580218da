//! What the text file may say, and how its faults are told.

use super::*;
use reference::random::Random;

fn faults(text: &str) -> Vec<String> {
    let faults = Description::parse(text.as_bytes()).expect_err(text);
    faults.notes().iter().map(Note::to_string).collect()
}

const GOOD: &str = "copies 2\nzones 1\nbox 1 a 5\n";

#[test]
fn boxes_are_sorted_and_zones_numbered() {
    let text = "\u{feff}# a remark\r\nbox 9 shop 2T  the  big one # remark\r\n\
                \tbox 3 home 500G\r\nbox 4 0 7\r\nbox 5 shop 8\r\n\r\ncopies 3\r\nzones 2";
    let described = Description::parse(text.as_bytes()).unwrap();
    let cluster = &described.cluster;
    assert_eq!(
        (cluster.bits, cluster.replication, cluster.redundancy),
        (8, 3, 2)
    );
    let nodes: Vec<_> = cluster
        .nodes
        .iter()
        .map(|n| (n.id, n.zone, n.capacity))
        .collect();
    assert_eq!(
        nodes,
        [(3, 2, 500_000), (4, 0, 7), (5, 1, 8), (9, 1, 2_000_000)]
    );
    let labels: Vec<_> = described
        .labels
        .iter()
        .map(|l| (&l.zone[..], &l.name[..]))
        .collect();
    assert_eq!(
        labels,
        [
            ("home", ""),
            ("0", ""),
            ("shop", ""),
            ("shop", "the big one")
        ]
    );
}

#[test]
fn names_never_take_a_number_that_is_used() {
    let text = "copies 1\nzones 1\nbox 1 b 5\nbox 2 0 5\nbox 3 a 5\nbox 4 2 5\nbox 5 c 5";
    let cluster = Description::parse(text.as_bytes()).unwrap().cluster;
    let zones: Vec<u16> = cluster.nodes.iter().map(|node| node.zone).collect();
    assert_eq!(zones, [1, 0, 3, 2, 4]);
}

#[test]
fn each_line_at_fault_is_told() {
    let text =
        "copies 9\nzones two\nbits 8 8\ncoppies 3\nbox 1 a\nbox 0 a 5\nbox 1 a 5\nbox 1 b 5\n\
                box 2 65536 5\nbox 2 A 5\nbox 2 a 5X\nbox 2 a 5 TB\nbits 8\nbox 3 a 4 TiB\nbox 3 a\u{202e} 4T\n";
    let expected = [
        "line 1: copies takes one number, from 1 to 8",
        "line 2: zones takes one number, from 1 to 8",
        "line 3: bits takes one number, from 0 to 8",
        "line 4: a line begins with copies, zones, bits, box or ceiling, and not with 'coppies'",
        "line 5: a box has an id, a zone and a capacity: box 1 home 2T",
        "line 6: the id of a box is a number from 1 to 4294967295, and not '0'",
        "line 8: box 1 is on line 7 already",
        "line 9: a zone's number is at most 65535, and not 65536",
        "line 10: zone 'A' is written 'a' on line 7: write it one way",
        "line 11: '5X' is not a capacity: write megabytes, or a number that ends in G or T, as 500G",
        "line 12: write the unit at the number, without a space: 5TB",
        "line 13: bits is on line 3 already",
        "line 14: 4TiB is 4,398,046 MB: write 4398046, or 4.398046T",
        "line 15: this has a control character in it",
    ];
    assert_eq!(faults(text), expected);
}

fn ceilings(text: &str) -> Vec<u16> {
    let described = Description::parse(text.as_bytes()).unwrap_or_else(|faults| panic!("{faults}"));
    described.cluster.nodes.iter().map(|n| n.ceiling).collect()
}

/// A ceiling stands anywhere, and a box without one has the highest.
#[test]
fn ceilings_are_those_of_their_boxes() {
    let boxes = "box 9 a 5 ceiling 3\nbox 3 a 5\nbox 4 a 5\n";
    let below = format!("copies 2\nzones 1\n{boxes}ceiling 003 40 # thin line\n\tceiling\t9 0\r\n");
    assert_eq!(ceilings(&below), [40, 256, 0]);
    let above = format!("ceiling 4 256\nceiling 3 1#x\ncopies 2\nzones 1\n{boxes}");
    assert_eq!(ceilings(&above), [1, 256, 256]);
    assert_eq!(ceilings(GOOD), [256]);
}

/// A text with these lines from line 7 on, and what is told of them.
fn told_below(lines: &[(&str, &str)]) {
    let below: String = lines.iter().map(|(line, _)| format!("{line}\n")).collect();
    let text = format!("{GOOD}box 2 a 5\nbox 3 a 5\nbox 4 a 5\n{below}");
    let told = (7..).zip(lines).filter(|(_, (_, told))| !told.is_empty());
    let told: Vec<String> = told
        .map(|(number, (_, told))| format!("line {number}: {told}"))
        .collect();
    assert_eq!(faults(&text), told);
}

/// Each in the order of its line, also where it is known only at the end that there is no such box.
#[test]
fn each_ceiling_at_fault_is_told() {
    let words = "a ceiling has the id of a box and the most copies that it may hold: ceiling 1 40";
    let id = "the id of a box is a number from 1 to 4294967295, and not";
    let number = "a ceiling is a number from 0 to 256, and not";
    let line = "a line begins with copies, zones, bits, box or ceiling, and not with 'boks'";
    let capacity =
        "'5X' is not a capacity: write megabytes, or a number that ends in G or T, as 500G";
    told_below(&[
        ("ceiling 7 40", "there is no box 7 in this file"),
        ("ceiling", words),
        ("ceiling 1", words),
        ("ceiling 1 2 3", words),
        ("ceiling x 40", &format!("{id} 'x'")),
        ("ceiling 0 40", &format!("{id} '0'")),
        ("ceiling 1 257", &format!("{number} '257'")),
        ("ceiling 1 40", "the ceiling of box 1 is on line 13 already"),
        ("ceiling 2 65536", &format!("{number} '65536'")),
        ("ceiling 3 -1", &format!("{number} '-1'")),
        ("ceiling 4 few", &format!("{number} 'few'")),
        ("ceiling 5 40", "there is no box 5 in this file"),
        ("boks 5 a 5", line),
        ("ceiling 8 40", ""),
        ("box 8 a 5X", capacity),
        ("ceiling 7 1", "the ceiling of box 7 is on line 7 already"),
    ]);
}

#[test]
fn what_is_missing_is_told() {
    let expected = [
        "there is no line that says how many copies: copies 3",
        "there is no line that says in how many zones they lie: zones 2",
        "there is no line with a box: box 1 home 2T",
    ];
    assert_eq!(faults(""), expected);
    assert_eq!(faults("# nothing\n\n"), expected);
}

/// A file whose boxes are all at fault has lines with a box.
#[test]
fn boxes_that_are_all_at_fault_are_not_told_to_be_missing() {
    let expected = [
        "line 3: a box has an id, a zone and a capacity: box 1 home 2T",
        "line 4: the id of a box is a number from 1 to 4294967295, and not 'two'",
    ];
    assert_eq!(
        faults("copies 2\nzones 1\nbox 1 home\nbox two home 2T\n"),
        expected
    );
}

#[test]
fn a_zone_of_several_words_is_told() {
    let expected = [
        "line 4: a zone is one word: write my-house, and not 'my house'",
        "line 5: a zone is one word: write my-old-house, and not 'my old house'",
        "line 6: 'house' is not a capacity: write megabytes, or a number that ends in G or T, as 500G",
        "line 7: '5X' is not a capacity: write megabytes, or a number that ends in G or T, as 500G",
    ];
    let boxes = [
        "box 16 my house 1T\n",
        "box 17 my old house 500G the tower\n",
        "box 18 my house tower\n",
        "box 19 home 5X 1T\n",
    ];
    assert_eq!(faults(&(GOOD.to_string() + &boxes.concat())), expected);
}

#[test]
fn more_zones_than_copies_are_refused() {
    let text = GOOD.replace("zones 1", "zones 3");
    assert_eq!(faults(&text), ["line 2: 2 copies cannot lie in 3 zones"]);
}

#[test]
fn the_thirty_third_box_is_refused() {
    let boxes = (2..=33).map(|id| format!("box {id} a 5\n"));
    let text = GOOD.to_string() + &boxes.collect::<String>();
    assert_eq!(
        faults(&text),
        ["line 35: this is one box too many: at most 32"]
    );
}

#[test]
fn what_is_no_text_is_refused_by_line() {
    let mut bytes = GOOD.as_bytes().to_vec();
    bytes.extend(b"box 2 a\x1b[2J 5\nbox 3 \xff 5\n");
    let faults = Description::parse(&bytes).unwrap_err();
    let told: Vec<_> = faults.notes().iter().map(Note::to_string).collect();
    let expected = [
        "line 4: this has a control character in it",
        "line 5: this is not plain text (UTF-8)",
    ];
    assert_eq!(told, expected);
}

/// A text of good and odd lines.
fn some_text(r: &mut Random) -> String {
    let odd = [
        "copies 9",
        "zones 3",
        "bits 8",
        "bits 0",
        "box",
        "box 0 a 1",
        "# box 1",
        "box 7 07 5G # x",
        "\u{7}",
        "box 7 65535 1.5T",
        "box 8 65536 1",
        "box 9 Shop 1",
        "box 4294967295 é 1",
        "boks 1 a 1",
        "ceiling 7 5",
        "ceiling 1 257",
        "box 70 a 1T\nceiling 70 256",
        "ceiling 71 0\nbox 71 a 1T",
    ];
    let mut text = String::from("copies 2\nzones 1\n");
    for _ in 0..r.below(8) {
        let (id, zone) = (r.between(1, 60), ["shop", "home", "3"][r.below(3) as usize]);
        text += &format!("box {id} {zone} {}T\n", r.below(9));
    }
    if r.chance(50) {
        text += odd[r.below(odd.len() as u64) as usize];
    }
    text
}

/// Whatever the lines, no call of the planner finds a fault in what is described.
#[test]
fn what_is_described_is_a_cluster() {
    let mut r = Random::new(51);
    let mut described = 0;
    for _ in 0..5000 {
        if let Ok(found) = Description::parse(some_text(&mut r).as_bytes()) {
            let cluster = found.cluster;
            assert_eq!(found.labels.len(), cluster.nodes.len());
            assert_eq!(Cluster::from_record(&cluster.to_record()), Ok(cluster));
            described += 1;
        }
    }
    assert!((1000..4000).contains(&described), "{described}");
}
