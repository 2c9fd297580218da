//! What the loss of boxes costs at worst.

use crate::folder::{layout_record, Folder};
use crate::read_json::read;
use crate::{one_box, planned_home, HOME, THREE};

/// What is printed of these boxes and of a layout with these rows.
fn told(name: &str, text: &str, layout: Vec<u8>) -> String {
    let folder = Folder::new(&format!("loss-{name}"));
    folder.write("home.txt", text);
    folder.write("last", layout);
    let done = folder.call("loss home.txt last");
    assert_eq!((done.status, done.err.as_str()), (0, ""), "{text}");
    assert_eq!(folder.names(), ["home.txt", "last"]);
    done.out
}

/// The lines between the heading and what follows: what so many boxes cost.
fn of_boxes(told: &str) -> Vec<&str> {
    let lines = told.lines().skip(3);
    lines.take_while(|line| !line.is_empty()).collect()
}

/// The rows are 1 2 3 (102 times), 1 3 5 (52), 1 4 5 (51) and 3 4 5 (51): three boxes cost one of these
/// numbers. Four cost the rows without the fifth: those without box 2 are 52 + 51 + 51, those without box
/// 4 are 102 + 52, both 154, and 1 2 3 5 comes before 1 3 4 5; the others cost less.
#[test]
fn the_loss_of_the_sample() {
    let done = planned_home("loss").call("loss home.txt last");
    assert_eq!((done.status, done.err.as_str()), (0, ""));
    assert_eq!(done.out, include_str!("loss.txt"));
}

/// Zones come in the order of their first boxes, whatever their numbers.
const ODD: &str = "copies 2\nzones 1\nbits 2\nbox 4 65535 100\nbox 1 sh\u{f6}p 100 B\u{fc}ro\n\
                   box 9 65535 100 \"the\\ (\u{1f5c4})\nbox 3 sh\u{f6}p 100\nbox 7 attic 100\n";

/// Of two boxes 1 and 3 cost two rows, 4 and 9 or 3 and 9 one; with 9 they cost three rows, and no other
/// three boxes do. Of four boxes those without 7 cost all.
fn odd(name: &str) -> Folder {
    let folder = Folder::new(&format!("loss-{name}"));
    folder.write("home.txt", ODD);
    let rows: [&[u32]; 4] = [&[1, 3], &[4, 9], &[1, 3], &[3, 9]];
    folder.write("last", layout_record(2, 20, &rows));
    folder
}

#[test]
fn boxes_and_zones_that_cost_something_are_named() {
    let folder = odd("odd");
    let done = folder.call("loss home.txt last");
    assert_eq!((done.status, done.err.as_str()), (0, ""));
    assert_eq!(done.out, include_str!("loss-zones.txt"));
    let done = folder.call("loss home.txt last --json");
    assert_eq!((done.status, done.err.as_str()), (0, ""));
    assert_eq!(done.out, include_str!("loss.json"));
    assert_eq!(folder.names(), ["home.txt", "last"]);
}

/// Examples A, C and E of the paper: the row of A is 1 2 3, that of C is 2, those of E are 1.
#[test]
fn the_examples_of_the_paper() {
    let a = told("a", THREE, layout_record(1, 23, &[&[1, 2, 3], &[1, 2, 3]]));
    let all = "  3 boxes  2 of 2 partitions, 100.0 % of the data: boxes 1, 2 (tower) and 3";
    let none = ["  1 box    no partition", "  2 boxes  no partition"];
    assert_eq!(of_boxes(&a), [none[0], none[1], all]);
    assert!(a.ends_with("no partition is: each has copies in two zones or more.\n"));
    let text = "copies 1\nzones 1\nbits 0\nbox 1 a 5\nbox 2 a 9\n";
    let c = told("c", text, layout_record(0, 9, &[&[2]]));
    let one = "1 of 1 partition, 100.0 % of the data";
    let lines = [
        format!("  1 box    {one}: box 2"),
        format!("  2 boxes  {one}: boxes 1 and 2"),
    ];
    assert_eq!(of_boxes(&c), lines);
    assert!(
        c.ends_with(&format!("\n  a              2  {one}\n")),
        "{c}"
    );
    let text = "copies 1\nzones 1\nbits 1\nbox 1 a 10\nbox 2 a 4\n";
    let e = told("e", text, layout_record(1, 5, &[&[1], &[1]]));
    let two = "2 of 2 partitions, 100.0 % of the data";
    let lines = [
        format!("  1 box    {two}: box 1"),
        format!("  2 boxes  {two}: boxes 1 and 2"),
    ];
    assert_eq!(of_boxes(&e), lines);
}

#[test]
fn the_only_box_costs_all() {
    let out = told("one", &one_box(16), layout_record(0, 15, &[&[1]]));
    let expected = "\
home.txt: 1 copy of each of 1 partition, in at least 1 zone

  lost   what that costs at worst
  1 box  1 of 1 partition, 100.0 % of the data: box 1

Every set of so many boxes was looked at, and none costs more; of those that cost as many the first is named.

  zone lost  boxes  what that costs
  home           1  1 of 1 partition, 100.0 % of the data
";
    assert_eq!(out, expected);
}

/// Five copies outlive four boxes, and in two zones each zone.
#[test]
fn nothing_is_named_where_nothing_is_lost() {
    let boxes: String = (1..=5)
        .map(|id| format!("box {id} z{} 9\n", id % 2))
        .collect();
    let text = format!("copies 5\nzones 2\nbits 0\n{boxes}");
    let out = told("none", &text, layout_record(0, 9, &[&[1, 2, 3, 4, 5]]));
    let expected = "\
home.txt: 5 copies of each of 1 partition, in at least 2 zones

  lost     what that costs at worst
  1 box    no partition
  2 boxes  no partition
  3 boxes  no partition
  4 boxes  no partition

Every set of so many boxes was looked at.
If a zone is lost whole, no partition is: each has copies in two zones or more.
";
    assert_eq!(out, expected);
}

/// Each row is another pair, so two boxes cost one row. One box of each row is 1, 3 or 5, and none has two
/// of these: so three boxes cost two rows at most, and four cost four at most, as 1 and 3 with 2 and 7. All
/// rows but those of box 7 lie in the house of six.
#[test]
fn a_house_of_many_boxes_is_counted_whole() {
    let boxes: String = (1..=6).map(|id| format!("box {id} home 9\n")).collect();
    let text = format!("copies 2\nzones 1\nbits 3\n{boxes}box 7 shop 9\n");
    let rows: [&[u32]; 8] = [
        &[1, 2],
        &[2, 3],
        &[3, 4],
        &[4, 5],
        &[5, 6],
        &[1, 7],
        &[3, 7],
        &[5, 7],
    ];
    let out = told("six", &text, layout_record(3, 1, &rows));
    let lines = [
        "  1 box    no partition",
        "  2 boxes  1 of 8 partitions, 12.5 % of the data: boxes 1 and 2",
        "  3 boxes  2 of 8 partitions, 25.0 % of the data: boxes 1, 2 and 3",
        "  4 boxes  4 of 8 partitions, 50.0 % of the data: boxes 1, 2, 3 and 7",
    ];
    assert_eq!(of_boxes(&out), lines);
    let zones = "\n  zone lost  boxes  what that costs\n\
                 \x20 home           6  5 of 8 partitions, 62.5 % of the data\n\
                 \x20 shop           1  no partition\n";
    assert!(out.ends_with(zones), "{out}");
}

/// As `moves` refuses a layout to go to: in the same words, with the same status.
#[test]
fn a_layout_that_is_not_valid_is_refused() {
    let folder = odd("fault");
    let refused = |rows: [&[u32]; 4], size: u32| {
        folder.write("bad", layout_record(2, size, &rows));
        let done = folder.call("loss home.txt bad");
        assert_eq!((done.status, done.out.as_str()), (1, ""));
        let moves = folder.call("moves home.txt last bad");
        assert_eq!((moves.status, &moves.err), (1, &done.err));
        let object = read(&folder.call("loss home.txt bad --json").out);
        let number = object.get("error").get("refusal").line();
        (done.err, number)
    };
    let told = "bad is not valid for home.txt as it is now: ";
    let gone = "partition 1 lies on box 2, which is not there (refused 10)\n";
    assert_eq!(
        refused([&[1, 3], &[2, 9], &[1, 3], &[3, 9]], 20),
        (format!("{told}{gone}"), "10".into())
    );
    // At size 1 it would fit: three copies of 32 MB are 96 MB, and 94 of 100 may be filled.
    let full = "box 3 is to hold 3 copies of 32 MB, 96 MB together, and may hold 94 MB of its 100 MB, since a \
                sixteenth stays free: plan again, with this layout as --former (refused 12)\n";
    assert_eq!(
        refused([&[1, 3], &[4, 9], &[1, 3], &[3, 9]], 32),
        (format!("{told}{full}"), "12".into())
    );
    folder.write("home.txt", ODD.replace("zones 1", "zones 2"));
    let zones = "partition 0 lies in 1 zone (sh\u{f6}p), 2 are wanted (refused 11)\n";
    assert_eq!(
        refused([&[1, 3], &[4, 9], &[1, 3], &[3, 9]], 20),
        (format!("{told}{zones}"), "11".into())
    );
}

#[test]
fn what_is_no_layout_is_told() {
    let folder = odd("no-layout");
    for (line, told) in [
        (
            "loss home.txt other",
            "other: No such file or directory (os error 2)\n",
        ),
        (
            "loss home.txt home.txt",
            "home.txt: this is a text file, and not a layout record\n",
        ),
        (
            "loss home.txt",
            "dezghuri: a FILE and a LAYOUT is wanted, not 1 words\n`dezghuri help` says how it is \
             called\n",
        ),
    ] {
        let done = folder.call(line);
        let found = (done.status, done.out.as_str(), done.err.as_str());
        assert_eq!(found, (2, "", told), "{line}");
    }
    assert_eq!(folder.names(), ["home.txt", "last"]);
}

/// The layout has a box that is staged; without it, it is not valid.
#[test]
fn staged_boxes_count_where_they_are_asked_for() {
    let folder = planned_home("loss-staged");
    assert_eq!(folder.call("stage home.txt add 6 archive 4T").status, 0);
    let planned = folder.call("plan home.txt --staged --former last --out next");
    assert_eq!(planned.status, 0, "{}", planned.err);
    let done = folder.call("loss home.txt next --staged");
    assert_eq!((done.status, done.err.as_str()), (0, ""));
    let heading = "home.txt with 1 staged change: 3 copies of each of 256 partitions";
    assert!(done.out.starts_with(heading), "{}", done.out);
    let object = read(&folder.call("loss home.txt next --staged --json").out);
    assert_eq!(object.get("staged").line(), "1");
    assert_eq!(folder.call("loss home.txt next").status, 1);
}

#[test]
fn an_older_layout_is_warned_of() {
    let folder = planned_home("loss-older");
    assert_eq!(
        folder
            .call("plan home.txt --former last --out again")
            .status,
        0
    );
    let done = folder.call("loss home.txt last");
    let told = "warning: last is version 1 of 2026-11-17; the newest is version 2, again\n";
    assert_eq!((done.status, done.err.as_str()), (0, told));
    assert_eq!(done.out, include_str!("loss.txt"));
    assert_eq!(folder.call("loss home.txt again").err, "");
}

/// What `plan` says in a line is what `loss` says of its layout.
#[test]
fn a_plan_says_it_in_a_line() {
    let folder = Folder::new("loss-planned");
    let line = |text: &str| {
        folder.write("home.txt", text);
        let done = folder.call("plan home.txt");
        assert_eq!(done.status, 0, "{}", done.err);
        let mut lines = done
            .out
            .lines()
            .filter(|line| line.starts_with("If lost: "));
        let line = lines.next().map(String::from);
        assert_eq!(lines.next(), None);
        line.expect("it is told")
    };
    let none = "If lost: no one box, no two and no zone cost a partition.";
    assert_eq!(line(HOME), none);
    assert_eq!(line(THREE), none);
    assert_eq!(line(&one_box(16)), "If lost: box 1 alone costs all data.");
    // Each of two boxes holds each partition.
    let two = "copies 2\nzones 1\nbits 1\nbox 1 home 9\nbox 2 home 9 tower\n";
    let told = "If lost: no one box costs a partition; the worst two, boxes 1 and 2 (tower), cost all data; the \
                only zone, home, costs all data.";
    assert_eq!(line(two), told);
    // A partition on each box: at 9 MB each takes one.
    let each = "copies 1\nzones 1\nbits 1\nbox 1 home 9\nbox 2 shop 9\n";
    let told = "If lost: the worst one, box 1, costs 1 of 2 partitions; the worst two, boxes 1 and 2, cost all \
                data; the worst zone, home, costs 1 of 2 partitions.";
    assert_eq!(line(each), told);
    // Three boxes that all hold all, and stand in one house.
    let three = THREE.replace("zones 2", "zones 1").replace("home", "shop");
    let told =
        "If lost: no one box and no two cost a partition; the only zone, shop, costs all data.";
    assert_eq!(line(&three), told);
}

#[test]
fn the_command_has_a_help_of_its_own() {
    let folder = Folder::new("loss-help");
    for line in ["help loss", "loss --help", "loss home.txt -h"] {
        let done = folder.call(line);
        assert_eq!((done.status, done.err.as_str()), (0, ""), "{line}");
        assert_eq!(done.out, include_str!("help-loss.txt"), "{line}");
    }
}
